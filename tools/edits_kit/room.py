"""A copy of a crate, in which its edits are checked."""
import os
import re
import shutil
import subprocess
import time

from .sources import replaced

# What the check of a crate reads.
PARTS = ("src", "specs", "proofs")
PROOF_FILES = ("Answers.antt", "Invariants.antt", "Proof.antt")
UNREAD = re.compile(r"^(?:\./)?proofs/(\S+)/Proof\.antt: error: rattle does not read this file", re.M)
HOLE = """use Rattle.{crate}.proofs.{path}.Statement.{{statement}}

pub {name}_spec : {{M : Type 1}} → statement M
{name}_spec = ?
"""


class OutOfTime(Exception):
    """The time that the run was given is over."""


class Clock:
    """When the run is to end, if it is: as `time.monotonic` counts."""

    end = None

    @classmethod
    def left(cls):
        """The seconds that are left of it; None where it has no end."""
        if cls.end is None:
            return None
        left = cls.end - time.monotonic()
        if left <= 0:
            raise OutOfTime
        return left


class Room:
    """A copy of a crate, in which it is edited and checked over the libraries below as they are built."""

    def __init__(self, crate, place, rtlib):
        self.crate, self.folder = crate.name, f"{place}/crate"
        self.words = [*rtlib.guarded(), rtlib.RATTLE, "check", *crate.words(["--jobs", "1"]), "--incremental", f"{place}/kept"]
        self.home = crate.folder
        self.checks = 0
        # The functions that have a hole in place of their proof.
        self.closed = set()
        for part in PARTS:
            if os.path.isdir(f"{self.home}/{part}"):
                shutil.copytree(f"{self.home}/{part}", f"{self.folder}/{part}")
        if crate.has_kept():
            shutil.copytree(f"{self.home}/out/incremental", f"{place}/kept")
        else:
            os.mkdir(f"{place}/kept")

    def run(self, *words):
        left = Clock.left()
        self.checks += 1
        ran = subprocess.Popen([*self.words, *words], cwd=self.folder, stdin=subprocess.DEVNULL,
            stdout=subprocess.PIPE, stderr=subprocess.STDOUT, text=True, errors="replace")
        try:
            return ran.communicate(timeout=left)[0]
        except subprocess.TimeoutExpired:
            ran.kill()
            ran.wait()
            raise OutOfTime from None

    def write(self, edits, unchanged=False):
        """Writes the files with these edits, each as a copy of its function or in its place. Returns which files."""
        files = {it.file: it.text for it in edits}
        for file, text in files.items():
            here = [it for it in edits if it.file == file]
            copies = [(it.after_which(), "", f"\n\n{it.copied_text(unchanged)}") for it in here if it.copied]
            places = [place for it in here if not it.copied for place in it.places]
            text = replaced(text, copies + places)
            for edit, copy in zip([it for it in here if it.copied], copies):
                first = text.count("\n", 0, text.index(copy[2])) + 3
                edit.lines = range(first, first + copy[2].count("\n") - 1)
            with open(f"{self.folder}/{file}", "w", encoding="utf-8") as it:
                it.write(text)
        return {*files}

    def restore(self, files):
        for file in files:
            shutil.copy2(f"{self.home}/{file}", f"{self.folder}/{file}")

    def whole(self, edit=None):
        """Checks the crate with all proofs, and with this edit in its place. Returns what is said."""
        closed = self.closed
        self.open(closed)
        if edit:
            with open(f"{self.folder}/{edit.file}", "w", encoding="utf-8") as it:
                it.write(edit.after)
        said = self.run()
        if edit:
            self.restore([edit.file])
        self.close(closed)
        return said

    def close(self, names):
        """Puts a hole in place of the proofs of these functions."""
        for name in names:
            path = name.split("::")[1:]
            here = f"{self.folder}/proofs/{'/'.join(path)}"
            os.makedirs(here, exist_ok=True)
            for file in PROOF_FILES:
                if os.path.isfile(f"{here}/{file}"):
                    os.remove(f"{here}/{file}")
            with open(f"{here}/Proof.antt", "w", encoding="utf-8") as it:
                it.write(HOLE.format(crate=self.crate, path=".".join(path), name=path[-1]))
        self.closed = self.closed | names

    def open(self, names):
        """Puts the proofs of these functions back in place of the holes."""
        for name in names & self.closed:
            inside = f"proofs/{'/'.join(name.split('::')[1:])}"
            os.remove(f"{self.folder}/{inside}/Proof.antt")
            for file in PROOF_FILES:
                if os.path.isfile(f"{self.home}/{inside}/{file}"):
                    shutil.copy2(f"{self.home}/{inside}/{file}", f"{self.folder}/{inside}/{file}")
        self.closed = self.closed - names

    def copy_proof(self, edit):
        """Copies the proof of a function for the copy of it. Returns the new folder."""
        here = f"{self.folder}/proofs/{'/'.join(edit.place())}"
        os.makedirs(here)
        for file in PROOF_FILES:
            text = edit.proof_of_copy(file)
            if text:
                with open(f"{here}/{file}", "w", encoding="utf-8") as it:
                    it.write(text)
        return here

    def round(self, edits, unchanged=False):
        """Checks the functions that these edits change. Returns what is said."""
        edited = set().union(*(it.names for it in edits if not it.copied))
        closed = self.closed & edited
        self.open(closed)
        # Where each is a copy nothing is masked, so none has to say more than which goals are open. Nor has one that is tried at a goal.
        are_copies = all(it.copied for it in edits)
        for edit in edits:
            edit.stops = bool(edit.goals) and not edit.at_goal and not unchanged and (edit.at_search or are_copies)
        folders = [self.copy_proof(it) for it in edits if it.copied and it.folder]
        files = self.write(edits, unchanged)
        changed = sorted(name.partition("::")[2] for it in edits for name in it.names)
        holes = ["--allow-holes"] if self.closed or any(it.at_search for it in edits) else []
        said = self.run(*holes, *(word for name in dict.fromkeys(changed) for word in ("--only", name)))
        self.restore(files)
        for folder in folders:
            shutil.rmtree(folder)
        self.close(closed)
        # A function that is exported under a second name is known by it too, and has no proof there.
        others = {f"{self.crate}::{path.replace('/', '::')}" for path in UNREAD.findall(said)} & self.closed
        if not others:
            return said
        self.open(others)
        return self.round(edits, unchanged)
