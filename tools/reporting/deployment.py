"""What several parts of a report ask of a deployment, as `show` prints it."""
import importlib.machinery
import importlib.util
import sys

from .asking import ROOT


def load_sequence():
    """`tools/sequence` as a module: its deployment, and how it draws a run."""
    loader = importlib.machinery.SourceFileLoader("sequence", str(ROOT / "tools/sequence"))
    module = importlib.util.module_from_spec(importlib.util.spec_from_loader("sequence", loader))
    sys.modules["sequence"] = module
    loader.exec_module(module)
    return module


sequence = load_sequence()


class System:
    """The lists of a deployment, its endpoints by name, its watchers, and the participants that come at any time."""

    def __init__(self, lists):
        self.lists = lists
        self.ends = sequence.Deployment(lists)
        self.readers, self.writers = self.ends.readers, self.ends.writers
        self.watchers = [name for name in self.readers if self.ends.is_watcher(name)]
        self.late = [one["name"] for one in lists["participants"] if one.get("joins") == "any"]

    def is_late(self, writer, reader):
        """Whether a pair may match at any time."""
        return not {self.writers[writer]["participant"], self.readers[reader]["participant"]}.isdisjoint(self.late)

    def keys_of(self, kind, end):
        """The keys of a writer's topic, or those that a reader takes."""
        return self.readers[end]["filter"] if kind == "reader" else self.ends.keys[self.writers[end]["topic"]]
