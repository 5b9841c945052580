"""One damage: a copy of a volume that is damaged, the report of it, and what the recipes bring back."""
import os
import re
import shutil
import subprocess
import tempfile
from collections import namedtuple
from importlib.machinery import SourceFileLoader
from importlib.util import module_from_spec, spec_from_loader

from .volume import tree_of

TOOLS = os.path.dirname(os.path.dirname(os.path.realpath(__file__)))


def load_reports():
    """The tool report_json as a module."""
    spec = spec_from_loader("report_json", SourceFileLoader("report_json", f"{TOOLS}/report_json"))
    module = module_from_spec(spec)
    spec.loader.exec_module(module)
    return module


REPORTS = load_reports()
# What each row may use without naming it: to look, to make the further copy, and to check it.
GENERAL = {"names", "inode", "further", "place", "check", "keep", "number-of"}

Entry = namedtuple("Entry", "byte number length type name_length name")


class NotHere(Exception):
    """A damage that this kind of volume can't have."""


class Wrong(Exception):
    """A damage that isn't reported as it should be, or a recipe that can't be followed."""


class Case:
    """What a damage is written with: it changes `volume`, says what is at stake, asks for the report, and then follows the page."""

    def __init__(self, volume, kind, page, program):
        self.volume, self.kind, self.page, self.program = volume, kind, page, program
        self.place = tempfile.mkdtemp(prefix="a disk of ")
        self.tree = volume.tree()
        self.stakes = {}
        self.texts = [""]
        self.pieces = []
        self.trees = []
        self.kinds = []
        self.named = ""

    def at_stake(self, *paths, name=True, data=True):
        """Names and bytes that the damage puts at stake, and that can be had."""
        for path in paths:
            self.stakes[path] = (name, data)

    def in_one_order(self):
        """Leaves a damage out in the other order of bytes, where no recipe for it depends on the order."""
        if self.kind.order == "be":
            raise NotHere

    def write(self):
        with open(f"{self.place}/copy.img", "wb") as it:
            it.write(self.volume.image)

    def report(self, *kinds, words=()):
        """Checks the damaged image: its messages, among which must be one of each of these kinds."""
        self.write()
        return self.check_again(*kinds, words=words)

    def check_again(self, *kinds, words=()):
        run = subprocess.run([self.program, "-n", *words, "copy.img"], cwd=self.place, capture_output=True, check=False)
        found = REPORTS.parse(run.stdout.decode("utf-8", "surrogateescape"))
        messages = found.get("messages", [])
        for message in messages:
            kind = message.get("fault", message["kind"])
            if kind not in self.kinds:
                self.kinds.append(kind)
            self.texts.append(" ".join(message.get(name, "") for name in ("path", "directory")))
        missing = [kind for kind in kinds if not any(message["kind"] == kind for message in messages)]
        if missing:
            raise Wrong(f"no {missing[0]} in the report, which has {[message['kind'] for message in messages][:8]}")
        return Messages(messages, run.returncode)

    def run(self, recipes, **variables):
        """Runs recipes of the page in one shell, and keeps what they save. The result: what they print, and whether they end with 0."""
        names = recipes.split()
        self.named += " " + recipes
        if os.path.exists(f"{self.place}/rest"):
            os.remove(f"{self.place}/rest")
        run = self.page.run(recipes, variables, self.place)
        text = run.stdout.decode("utf-8", "surrogateescape")
        self.texts.append(text)
        self._collect(run.stdout)
        if names[-1] == "check" and run.returncode == 0:
            self.trees.append(tree_of(f"{self.place}/further.img"))
        return text if names[-1] != "check" else Messages(REPORTS.parse(text).get("messages", []), run.returncode)

    def _collect(self, printed):
        self.pieces.append(("printed", printed))
        if os.path.isfile(f"{self.place}/rest"):
            self.pieces.append(("rest", self.bytes_of("rest")))
        if os.path.isdir(f"{self.place}/below.d"):
            self.pieces += [("below", data) for data in tree_of_files(f"{self.place}/below.d").values()]
            shutil.rmtree(f"{self.place}/below.d")
        for name in ("saved.d", "every.d"):
            if os.path.isdir(f"{self.place}/{name}"):
                self.trees.append(tree_of_files(f"{self.place}/{name}"))
                shutil.rmtree(f"{self.place}/{name}")
        self._collect_beside()
        if os.path.isdir(f"{self.place}/unnamed.d"):
            self.pieces += [("unnamed", data) for data in tree_of_files(f"{self.place}/unnamed.d").values()]
            shutil.rmtree(f"{self.place}/unnamed.d")

    def _collect_beside(self):
        """What `recover` put beside a directory, by its inode."""
        for name in os.listdir(self.place):
            if not re.fullmatch(r"(saved|every|below)\.d\.\d+", name):
                continue
            if os.path.isdir(f"{self.place}/{name}"):
                self.trees.append(tree_of_files(f"{self.place}/{name}"))
                self.pieces += [("beside", data) for data in self.trees[-1].values()]
                shutil.rmtree(f"{self.place}/{name}")
            else:
                self.pieces.append(("beside", self.bytes_of(name)))
                os.remove(f"{self.place}/{name}")

    def complaints(self, recipe, first=""):
        """What a recipe prints on standard error; nothing of what it saves is kept."""
        run = self.page.run(recipe, {}, self.place, first=first)
        for name in os.listdir(self.place):
            if re.fullmatch(r"(saved|every|unnamed)\.d(\.\d+)?", name):
                subprocess.run(["rm", "-r", name], cwd=self.place, check=True)
        return run.stderr.decode("utf-8", "surrogateescape")

    def refuses(self, recipes, **variables):
        """Runs recipes that can't be followed: the last one must say so by its status and a complaint, and nothing may be written."""
        run = self.page.run(recipes, variables, self.place)
        if run.returncode == 0 or not run.stderr:
            raise Wrong(f"{recipes}: no complaint, status {run.returncode}")
        if os.path.exists(f"{self.place}/further.img") and self.bytes_of("further.img") != self.bytes_of("copy.img"):
            raise Wrong(f"{recipes}: it complains, and has written")

    def on_full_disk(self, recipes, **variables):
        """Runs recipes where no file can become as long as the image: the copy must stay as it is, and no other copy may be left of it. The
        result: what they print on standard error."""
        copy = self.bytes_of("copy.img")
        run = self.page.run(recipes, variables, self.place, first=f"trap '' XFSZ; ulimit -f {len(copy) // 512 // 2}\n")
        if not run.stderr or self.bytes_of("copy.img") != copy or os.path.exists(f"{self.place}/every.img"):
            raise Wrong(f"{recipes}: on a full disk there is no complaint, or what was cut short is kept")
        return run.stderr.decode("utf-8", "surrogateescape")

    def strictly(self, recipes, **variables):
        """Runs recipes under `set -e`: they must print and save what they do without it."""
        found = []
        for first in ("", "set -e\n"):
            for name in ("rest", "list"):
                if os.path.exists(f"{self.place}/{name}"):
                    os.remove(f"{self.place}/{name}")
            run = self.page.run(recipes, variables, self.place, first=first)
            found.append((run.returncode, run.stdout, *(self.bytes_of(name) for name in ("rest", "list") if os.path.exists(f"{self.place}/{name}"))))
        if found[0] != found[1] or not any(found[0][1:]):
            raise Wrong(f"{recipes}: under set -e it doesn't do what it does without")

    def bytes_of(self, name):
        with open(f"{self.place}/{name}", "rb") as it:
            return it.read()

    def has_bytes(self, path):
        data = self.tree[path]
        if not isinstance(data, bytes) or any(self.is_padded(tree.get(path), data) for tree in self.trees):
            return True
        saved = [("saved", self.bytes_of(name)) for name in os.listdir(self.place) if re.fullmatch(r"saved\.\d+", name)]
        return any(piece.rstrip(b"\0") == data or (name == "rest" and self.is_within(data, piece)) for name, piece in self.pieces + saved)

    def is_padded(self, saved, data):
        """Whether what was saved is a file's bytes, with NULs after them in its last block, as where its size isn't known."""
        return isinstance(saved, bytes) and saved[:len(data)] == data and len(saved) - len(data) < self.volume.layout.bsize and not saved[len(data):].strip(b"\0")

    def is_within(self, data, piece):
        """Whether each fragment of a file is in a piece, in which they need not follow one another."""
        fsize = self.volume.layout.fsize
        return all(data[at:at + fsize] in piece for at in range(0, len(data), fsize))

    def has_name(self, path):
        if any(path in tree for tree in self.trees):
            return True
        last = re.compile(rf"(?<![\w.-]){re.escape(path.rpartition('/')[2])}(?![\w.-])")
        return any(last.search(text) for text in self.texts)

    def unnamed(self):
        """A recipe that was run though neither the steps nor a row of a message of the report names it, as a complaint; else none."""
        rows = "".join(row for kind in self.kinds for row in self.page.rows_of(kind)) + self.page.steps if self.kinds else self.page.prose
        for name in dict.fromkeys(self.named.split()):
            if name not in GENERAL and f"*{name}*" not in rows:
                return f"no row of its messages names {name}"
        return None

    def result(self):
        """Names and bytes that can be had, and of these that were kept."""
        had = [0, 0]
        kept = [0, 0]
        for path, (name, data) in self.stakes.items():
            count = len(self.tree[path]) if data and isinstance(self.tree[path], bytes) else 0
            had = [had[0] + name, had[1] + count]
            kept = [kept[0] + (name and self.has_name(path)), kept[1] + (count if self.has_bytes(path) else 0)]
        return had, kept


class Messages(list):
    """The messages of a report, with the status of the check."""

    def __init__(self, messages, status):
        super().__init__(messages)
        self.status = status

    def of(self, kind):
        return [message for message in self if message["kind"] == kind]

    def first(self, kind):
        return self.of(kind)[0]


def tree_of_files(top):
    """The files below a directory, by their paths."""
    out = {}
    for folder, _, names in os.walk(top):
        for name in names:
            with open(f"{folder}/{name}", "rb") as it:
                out[os.path.relpath(f"{folder}/{name}", top)] = it.read()
    return out


def fragments_of(text):
    """The addresses that the recipe `inode` printed: by index."""
    return {int(line.split()[1]): int(line.split()[2]) for line in text.splitlines() if line.startswith("address ")}


def number_of(text, name):
    """A number that the recipe `inode` printed."""
    return int(next(line.split()[1] for line in text.splitlines() if line.startswith(name + " ")), 8 if name == "mode" else 10)


def owners_of(text):
    """The inodes that the recipe `owners` printed."""
    return [int(number) for number in re.findall(r"^inode (\d+) ", text, re.M)]


def places_of(text):
    """The places of what the recipe `owners` printed: an inode, the index of an address, and the number of a word of the indirect block that
    address 12 names, or none where the address itself is meant."""
    out = []
    for i, indirect, k in re.findall(r"^inode (\d+) (indirect )?block (\d+)$", text, re.M):
        index, word = (11 + int(k), None) if indirect else (min(int(k), 12), int(k) - 12 if int(k) >= 12 else None)
        out.append((int(i), index, word))
    return out


def entries_of(text):
    """What the recipe `entries` printed."""
    return [Entry(*map(int, line.split(" ", 5)[:5]), line.split(" ", 5)[5]) for line in text.splitlines()]

