"""Tries the edits of a crate, in rounds."""
import os
import re
import tempfile
import time

from .edit import BadEdit, Edit
from .library import functions_of, goals_of, is_built, proofs_of, without_second_names, written_functions
from .room import Clock, OutOfTime, Room
from .sources import HOME
from .verdicts import VERDICT, alone, goal_of, is_proved_at_goal, judge, left_open, refused_at_goal, refused_at_search, rest_of


def pick(pending):
    """All copies, and one edit a function that is edited in its place; those that were masked first, and each of these with no edit of what it was
    masked by. An edit of a constant is alone."""
    chosen, taken, shut = [], set(), set()
    for edit in sorted(pending, key=lambda it: (it.is_of_constants, not it.masked)):
        if chosen and edit.is_of_constants:
            break
        if not edit.names & (taken | shut) and not (edit.masked and edit.below & taken):
            chosen.append(edit)
            taken |= edit.names
            shut |= edit.below if edit.masked else set()
        if edit.is_of_constants:
            break
    return chosen


class Trial:
    """The edits of a crate, and what is known of them: a pair for each, whether it is refused and its line."""

    def __init__(self, crate, paths, words):
        self.crate, self.paths, self.words = crate, paths, words
        self.done, self.edits, self.single = [], [], []

    def run(self):
        """Tries all. Returns the pairs, and a last line on all."""
        begin = time.monotonic()
        try:
            Clock.left()
            what = f"in {self.try_all()} checks"
        except OutOfTime:
            told = {line.partition(":")[0] for _, line in self.done}
            lost = [it for it in (f"{self.crate.name}/{os.path.basename(path)}" for path in self.paths) if it not in told]
            self.done += [(False, f"{it}: NOT TRIED: the time was over") for it in lost]
            what = f"and the time was over for {len(lost)} of them"
        return self.done, f"{self.crate.name}: {len(self.paths)} edits, {what}: {time.monotonic() - begin:.0f} s"

    def try_all(self):
        """Tries all. Returns how many checks it took."""
        for path in self.paths:
            try:
                self.edits.append(Edit(self.crate.name, path))
            except (BadEdit, OSError, ValueError) as why:
                self.done.append((False, f"{self.crate.name}/{os.path.basename(path)}: BAD EDIT: {why}"))
        with tempfile.TemporaryDirectory(prefix="edits-", dir=f"{HOME}/.git", ignore_cleanup_errors=True) as place:
            self.room = Room(self.crate, place, self.words.kit)
            known = self.known()
            if known is None:
                self.done += [(False, f"{it.label}: not tried, since the crate isn't proved") for it in self.edits]
                return self.room.checks
            proofs, goals = proofs_of(self.crate), goals_of(self.crate)
            for number, edit in enumerate(self.edits, 1):
                if edit.can_be_copied():
                    edit.copy_as(f"{edit.item['name']}_edit{number}", proofs, goals)
            if self.words.unchanged:
                self.try_unchanged()
            elif self.words.record:
                tried = [it for it in self.edits if it.copied and it.folder]
                for edit in self.edits:
                    edit.goal = None
                self.record([it for it in tried if it.answered()], True)
                self.record([it for it in tried if not it.goal], False)
                for edit in self.edits:
                    edit.record(edit.goal)
                    self.done.append((bool(edit.goal), f"{edit.label}: {edit.goal or 'no goal to name'}"))
            else:
                self.try_rounds([it for it in self.edits if it.copied or it.find(known)])
            return self.room.checks

    def known(self):
        """The names of the crate's functions; None where it isn't proved."""
        if is_built(self.crate, self.words.after_ci):
            written = written_functions(self.crate)
            known = without_second_names(functions_of(self.crate), written) | written
            if not self.crate.has_kept():
                self.room.close(known)
            return known
        said = self.room.whole()
        return {name for name, _ in VERDICT.findall(said)} if re.search(r"^logic=proved", said, re.M) else None

    def try_unchanged(self):
        """Tries each copy with its edit left out of it: it must be proved, or its goal."""
        edits = [it for it in self.edits if it.copied]
        for edit in edits:
            # A goal that only its edit makes isn't there.
            edit.at_search = edit.at_search and edit.has_goal(edit.goal)
        said = self.room.round(edits, unchanged=True)
        told = dict(VERDICT.findall(said))
        for edit in edits:
            rest = rest_of(edit, told) or f"nothing is said of it: {said[-300:]}"
            is_proved = rest.startswith(("proved", "no holes", "depends on a hole"))
            if edit.at_goal:
                is_proved = is_proved_at_goal(edit, said, told)
            at = f", at {edit.goal}" if edit.at_goal or edit.at_search else ""
            self.done.append((is_proved, f"{edit.label}: unchanged, {edit.copied}{at}: {rest[:150]}"))

    def record(self, edits, by_answers):
        """Finds at which goals these edits are refused: with all answers and no search, or by a search that their functions need too."""
        for edit in edits:
            edit.at_goal, edit.at_search = by_answers, False
        said = self.room.round(edits) if edits else ""
        # Where an edit doesn't compile nothing is said of any.
        if len(edits) > 1 and not VERDICT.search(said):
            self.record(edits[: len(edits) // 2], by_answers)
            self.record(edits[len(edits) // 2 :], by_answers)
            return
        for edit in edits:
            edit.goal = goal_of(edit, said) if by_answers else next(filter(edit.can_search, left_open(edit, said)), None)

    def try_rounds(self, pending):
        """Tries edits until each is refused, or is to be tried alone."""
        halves, self.single = [], [it for it in self.edits if it not in pending]
        while pending:
            chosen = halves.pop() if halves else pick(pending)
            said = self.room.round(chosen)
            told = dict(VERDICT.findall(said))
            # Where an edit doesn't compile nothing is said of any.
            if not told and len(chosen) > 1:
                halves += [chosen[: len(chosen) // 2], chosen[len(chosen) // 2 :]]
                continue
            for edit in chosen:
                if self.settle(edit, chosen, said, told):
                    pending.remove(edit)
        for edit in self.single:
            self.done.append(alone(edit, self.room.whole(edit)))

    def settle(self, edit, chosen, said, told):
        """Takes what a round says of an edit. Whether that settles it, but for a try alone."""
        if edit.copied:
            edit.names = {it for it in told if it.endswith(f"::{edit.copied}")} or edit.names
        if edit.at_goal or edit.at_search:
            why = (refused_at_goal if edit.at_goal else refused_at_search)(edit, said, told)
            self.done += [(True, f"{edit.label}: refused at {edit.goal}: {why}")] if why else []
            # Where that goal doesn't refuse it, all are tried.
            edit.at_goal = edit.at_search = False
            return bool(why)
        refused, line = judge(edit, said, told)
        if refused is None and not edit.masked and len(chosen) > 1:
            edit.masked = True
            edit.below = set().union(*(it.names for it in chosen if it is not edit))
            return False
        if refused:
            self.done.append((True, line))
        else:
            self.single.append(edit)
        return True
