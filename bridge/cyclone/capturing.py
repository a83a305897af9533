"""What the tests of capture share: a capture with sanitizers, systems that run beside it, and what is owed of each file."""

import os
import subprocess
import tomllib

from testing import MATCH, OUT, PROGRAM, shown

SANITIZED = OUT / "sanitized" / "capture"
SANITIZE = "-fsanitize=address,undefined -fno-sanitize-recover=all -fno-omit-frame-pointer"
# loopback, for systems that have no tag
OTHERS = """<CycloneDDS><Domain Id="any"><General><Interfaces><NetworkInterface name="lo"/></Interfaces><AllowMulticast>false</AllowMulticast></General>
<Discovery><ParticipantIndex>auto</ParticipantIndex><MaxAutoParticipantIndex>40</MaxAutoParticipantIndex><Peers><Peer Address="127.0.0.1"/></Peers>
</Discovery></Domain></CycloneDDS>"""


def listening(*words, **environment):
    """A capture that runs."""
    environment = {name: text for name, text in os.environ.items() if name != "CYCLONEDDS_URI"} | environment
    words = [str(SANITIZED), *map(str, words)]
    return subprocess.Popen(words, stdin=subprocess.DEVNULL, stdout=subprocess.PIPE, stderr=subprocess.PIPE, text=True, env=environment)


def heard(started):
    """What is printed, what is said, and the status: of a run that hangs the status is None."""
    try:
        out, err = started.communicate(timeout=120)
    except subprocess.TimeoutExpired:
        started.kill()
        return *started.communicate(), None
    return out, err, started.returncode


def capture(*words, **environment):
    return heard(listening(*words, **environment))


def capture_all(is_all, seconds, *words, assume="dds", **environment):
    """What is captured once all endpoints were heard, which on a machine that does much else takes longer: at most four times as long. What is owed of a
    capture is asked of the last one alone."""
    for patience in (1, 2, 4):
        found = capture("--seconds", patience * seconds, *words, *(["--assume", assume] if assume else []), **environment)
        if is_all(*found[:2]):
            break
    return found


def has_endpoints(count):
    """Whether a capture has so many writers and readers."""
    return lambda text, said: text.count("[[writers]]") + text.count("[[readers]]") >= count


def completed(text):
    """A file without the entry that says that it is incomplete."""
    return text.replace("\nincomplete = true\n", "\n", 1) if text.startswith("# INCOMPLETE") else text


def read(text, room, name="captured"):
    """The deployment of a text, as `ddscheck show` prints it, and its file, where something may not be there."""
    folder = room / name
    folder.mkdir(exist_ok=True)
    file = folder / "capture.toml"
    file.write_text(completed(text))
    return shown(file, room)[1], file


def run(path, *words):
    return subprocess.Popen([str(PROGRAM), str(path), *map(str, words)], stdin=subprocess.DEVNULL, stdout=subprocess.DEVNULL, stderr=subprocess.DEVNULL)


def end(started):
    started.terminate()
    try:
        started.wait(timeout=20)
    except subprocess.TimeoutExpired:
        started.kill()
        started.wait()


def matched(text):
    return subprocess.run([*MATCH, "-"], input=text, capture_output=True, text=True, timeout=300)


def legal(text):
    """What is wrong with a file: a fault but that of an incomplete one, connections that aren't the pairs that match, or readers that may not lose."""
    whole = completed(text)
    done = matched(whole)
    wrong = [] if done.returncode == 0 else [f"match: status {done.returncode}: {done.stderr}"]
    if whole != text and (done := matched(text)).stderr != "ddscheck: deployment 3 UnknownKey incomplete\n":
        wrong.append(f"match of an incomplete file: status {done.returncode}: {done.stderr}")
    return wrong + [f"{one['name']} may not lose" for one in tomllib.loads(text).get("readers", []) if not one.get("may_lose")]


def differences(expected, found):
    return [f"missing: {one}" for one in sorted(map(str, expected - found))] + [f"too much: {one}" for one in sorted(map(str, found - expected))]
