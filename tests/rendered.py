"""How Chromium renders pages of `tools/report`: the contrast of each text, texts that overlap or are cut, and width.

`tests/reports.py` uses it. Each page stands in a frame of its own, at each width; a script beside the frames, which no
page has or lets run, measures them, and its findings are read out of the DOM.
"""
import html
import json
import re
import sys

sys.dont_write_bytecode = True
from harness import run  # noqa: E402

CHROMIUM = ["chromium", "--headless", "--no-sandbox", "--disable-gpu", "--hide-scrollbars"]
DARK = "--blink-settings=preferredColorScheme=0"
LEAST_CONTRAST = 4.5
# what a script measures in a frame. A text in a picture stands on the sheet of the picture
MEASURE = """
const parts = (colour) => (colour.match(/[\\d.]+/g) || []).map(Number);
const linear = (part) => { const s = part / 255; return s <= 0.04045 ? s / 12.92 : ((s + 0.055) / 1.055) ** 2.4; };
const brightness = ([r, g, b]) => 0.2126 * linear(r) + 0.7152 * linear(g) + 0.0722 * linear(b);
function ground(view, node) {
  for (let at = node; at; at = at.parentElement) {
    const found = parts(view.getComputedStyle(at).backgroundColor);
    if (found.length === 3 || found[3] > 0) return found;
  }
  return [255, 255, 255];
}
function measure(frame) {
  const page = frame.contentDocument, view = page.defaultView, texts = [], faint = [], cut = [], over = [];
  const walker = page.createTreeWalker(page.body, NodeFilter.SHOW_TEXT);
  for (let node = walker.nextNode(); node; node = walker.nextNode()) {
    const element = node.parentElement, words = node.textContent.trim();
    if (!words || element.closest(".hidden, title, style")) continue;
    // what a closed fold has is nowhere, but for its summary
    if (element.closest("details:not([open])") && !element.closest("summary")) continue;
    const style = view.getComputedStyle(element), drawn = element.closest("svg");
    if (style.clipPath !== "none" || element.closest("caption") && view.getComputedStyle(element.closest("caption")).clipPath !== "none") continue;
    const lights = [brightness(parts(drawn ? style.fill : style.color)), brightness(ground(view, element))].sort((a, b) => b - a);
    const ratio = (lights[0] + 0.05) / (lights[1] + 0.05);
    if (ratio < LEAST) faint.push(words.slice(0, 40) + " " + ratio.toFixed(2));
    if (drawn) continue;
    const range = page.createRange();
    range.selectNodeContents(node);
    for (const box of range.getClientRects()) if (box.width > 1 && box.height > 1) texts.push([box, words]);
    for (let at = element; at; at = at.parentElement) {
      if (view.getComputedStyle(at).overflowX === "hidden" && at.scrollWidth > at.clientWidth + 1) cut.push(words.slice(0, 40));
    }
  }
  texts.sort((one, other) => one[0].top - other[0].top);
  for (let at = 0; at < texts.length; at++) {
    for (let next = at + 1; next < texts.length && texts[next][0].top < texts[at][0].bottom - 3; next++) {
      const [one, other] = [texts[at][0], texts[next][0]];
      if (Math.min(one.right, other.right) - Math.max(one.left, other.left) > 2) over.push(texts[at][1].slice(0, 40) + " | " + texts[next][1].slice(0, 40));
    }
  }
  const root = page.documentElement, sheets = [...page.querySelectorAll(".sheet")].map((one) => ground(view, one).slice(0, 3).join());
  return { texts: texts.length, faint, cut, over, sheets, wide: root.scrollWidth - root.clientWidth,
    dark: view.matchMedia("(prefers-color-scheme: dark)").matches, paper: ground(view, page.body).slice(0, 3) };
}
onload = () => {
  let found;
  try { found = [...document.querySelectorAll("iframe")].map(measure); } catch (fault) { found = String(fault); }
  document.getElementById("found").textContent = JSON.stringify(found);
};
"""


def measure(room, pages, is_dark):
    """What is found in each of these pages, which are pairs of a file and a width."""
    frames = "".join(
        f'<iframe src="file://{path}" style="border:0;width:{width}px;height:900px"></iframe>' for path, width in pages
    )
    script = MEASURE.replace("LEAST", str(LEAST_CONTRAST))
    beside = room / "measure.html"
    text = f'<!DOCTYPE html><meta charset="utf-8"><body>{frames}<pre id="found">none</pre><script>{script}</script>'
    beside.write_text(text, encoding="utf-8")
    more = [DARK] if is_dark else []
    words = [*CHROMIUM, "--allow-file-access-from-files", f"--user-data-dir={room}/profile", *more, "--dump-dom"]
    given = run([*words, f"file://{beside}"])
    return json.loads(html.unescape(re.search(r'<pre id="found">(.*?)</pre>', given.out, re.DOTALL)[1]))


def fault_of_rendering(found, is_dark):
    """What is wrong with a page as it's rendered."""
    if not isinstance(found, dict) or found["texts"] < 100:
        return f"nothing was measured: {found}"
    if found["wide"] > 0:
        return f"{found['wide']} pixels wider than the window"
    for what in ("faint", "cut", "over"):
        if found[what]:
            return f"{what}: {found[what][:4]}"
    # a picture has dark letters and lines
    if any(sheet != "255,255,255" for sheet in found["sheets"]):
        return f"a picture on {found['sheets']}"
    if found["dark"] != is_dark or (sum(found["paper"]) < 3 * 128) != is_dark:
        return f"paper {found['paper']} where dark is {is_dark}"
    return None
