"""An edit: the wrong body that a file of `edits/` makes."""
import os
import re

from .answers import STOP, TACTIC, answer_alone, goals_in, read, search_alone, unpacked
from .sources import HOME, constant_at, end_of, function_at, is_function, is_method, item_at, one_place, replaced, start_of, users_of
from .traits import beside


class BadEdit(Exception):
    """An edit that doesn't apply to its file."""


def parts_of(text):
    """What a text of an edit says: its file, the pairs of texts, and the goal that it names, if it names one."""
    words = [line.partition(":")[::2] for line in text.split("\n") if line.strip()]
    if not words:
        raise BadEdit("it is empty")
    file = words[0][1].strip()
    if words[0][0] != "file" or any(key == "file" and text.strip() != file for key, text in words):
        raise BadEdit("it begins with no line file:, or changes two files")
    goal = words.pop()[1].strip() if words[-1][0] == "goal" else None
    words = [(key, text.removeprefix(" ")) for key, text in words if key != "file"]
    pairs = list(zip(words[0::2], words[1::2], strict=True))
    if any((old[0], new[0]) != ("old", "new") for old, new in pairs):
        raise BadEdit("it has other lines than file:, old: and new:, and goal: at its end")
    return file, [(old[1], new[1]) for old, new in pairs], goal


class Edit:
    """A wrong body: in which file, and which texts it replaces, as places of that file."""

    def __init__(self, crate, path):
        self.crate, self.path = crate, path
        self.label = f"{crate}/{os.path.basename(path)}"
        self.masked, self.names, self.copied, self.folder = False, set(), None, None
        # Where its copy stands, if its function is of a trait.
        self.beside = None
        # Whether it is tried by the answer of its goal alone, or where it has none by its function's answers alone; and whether by the search of
        # its goal alone.
        self.at_goal = self.at_search = False
        # The goals of its function; whether one of its answers is refused in any case; and at which lines of its file the copy stands.
        self.goals, self.stops, self.lines = [], False, range(0)
        with open(path, encoding="utf-8") as it:
            self.file, pairs, self.goal = parts_of(it.read())
        with open(f"{HOME}/crates/{crate}/{self.file}", encoding="utf-8") as it:
            self.text = it.read()
        self.after = self.text
        for old, new in pairs:
            if self.after.count(old) != 1:
                raise BadEdit(f"`{old}` doesn't stand once in {self.file}")
            self.after = self.after.replace(old, new)
        # Places in the text as it stands, so that several edits can be made in it at once.
        if all(self.text.count(old) == 1 for old, _ in pairs):
            self.places = [(self.text.index(old), old, new) for old, new in pairs]
        else:
            self.places = [one_place(self.text, self.after)]
        inside = self.file.removeprefix("src/").removesuffix(".rt")
        self.stem = () if inside in ("lib", "main") else tuple(inside.split("/"))
        self.functions = {(self.stem, *it) for it in (function_at(self.text, at) for at, _, _ in self.places) if it}
        # An edit of constants alone: any of the functions that name one of them may refuse it.
        self.is_of_constants = not self.functions
        if self.is_of_constants:
            self.functions = users_of(crate, {it for it in (constant_at(self.text, at) for at, _, _ in self.places) if it})

    def can_be_copied(self):
        """Whether it changes one function alone, and that one is free or a method of a type, or of a trait with a contract that the type can have too,
        and doesn't call itself."""
        item = item_at(self.text, self.places[0][0])
        if self.is_of_constants or len(self.functions) > 1 or item is None:
            return False
        (_, kind, of_trait, _, _), = self.functions
        self.start, self.item, self.end = start_of(self.text, item), item, end_of(self.text, item)
        is_inside = all(self.start <= at and at + len(old) <= self.end for at, old, _ in self.places)
        is_single = is_inside and "#[cycle" not in self.text[self.start : item.start()]
        if is_single and of_trait:
            self.beside = beside(self.text, item, self.start, self.end)
        return is_single and bool(self.beside or not of_trait and (kind is not None or not item["pad"]))

    def copy_as(self, name, proofs, goals):
        """Has it tried by a copy with this name. The proofs are the places of the crate's proofs below its folder of them, and the goals those of
        each function by such a place."""
        self.copied, self.names = name, {f"{self.crate}::{name}"}
        (function,) = self.functions
        named = {it: "::".join([self.crate, *it]) for it in [*proofs, *goals]}
        found = [it for it in named if is_function(named[it], function)] or [it for it in named if is_method(named[it], function)]
        self.folder = found[0] if found else None
        self.goals = goals.get(self.folder, [])
        # It is tried at its goal alone, by the answer that its function has of that goal, or else by the search.
        has_marks = "#[tactic" in self.text[self.item.end() : self.end]
        self.at_goal = bool(self.goal in self.answered() and not has_marks)
        self.at_search = bool(self.goal and self.can_search(self.goal))

    def can_search(self, goal):
        """Whether its function has this goal, or goals that the edit may rename to it, and the search proves it there."""
        answered = self.answered()
        return bool(self.goals) and goal not in answered and (not answered or self.has_goal(goal))

    def has_goal(self, goal):
        """Whether its function has this goal, or it is a clause of one."""
        return bool({goal, goal.partition("-clause-")[0]} & {*self.goals})

    def answered(self):
        """The goals that its function's proof answers."""
        return goals_in(self.proof("Answers.antt")) if self.folder else set()

    def proof(self, file):
        """A file of the proof of its function."""
        return read(f"{HOME}/crates/{self.crate}/proofs/{'/'.join(self.folder)}/{file}")

    def proof_of_copy(self, file):
        """A file of the proof of its copy: of the answers that of its goal alone, where it is tried there and names one."""
        # What a proof names of its own function: its goals, and what they are given.
        own = re.compile(rf"\.proofs\.{re.escape('.'.join(self.folder))}\.(?=(?:Goals|Given|Invariants|Answers)\b)")
        text = own.sub(f".proofs.{'.'.join(self.place())}.", unpacked(self.proof(file), self.crate))
        if file != "Answers.antt":
            return text
        if self.at_search:
            text = f"use Rattle.{self.crate}.proofs.{'.'.join(self.place())}.Goals as goal\n"
            text += search_alone(self.goals, self.goal, self.answered())
        if self.at_goal:
            return answer_alone(text, self.goal) if self.goal else text
        return text + STOP if self.stops else text

    def place(self):
        """Where the proof of its copy is, below the crate's folder of proofs."""
        if self.beside:
            ((_, kind, _, _, _),) = self.functions
            return (*self.folder[:-2], kind, self.copied)
        return (*self.folder[:-1], self.copied)

    def after_which(self):
        """After which place of its file its copy stands."""
        return self.beside.end if self.beside else self.end

    def copied_text(self, unchanged):
        """The function under the copy's name, with the edit in it unless it is to be unchanged. Where it is tried at its goal alone, rattle
        tries no tactics at the others."""
        places = [*([] if unchanged else self.places), (self.item.start("name"), self.item["name"], self.copied)]
        places += self.beside.places if self.beside else []
        mark = ""
        if self.at_goal:
            tactic = TACTIC.search(self.text, self.start, self.item.start())
            places += [(tactic.start(), tactic[0], "")] if tactic else []
            mark = f"{self.item['pad']}#[tactic(none)]\n"
        copy = mark + replaced(self.text, places, self.start, self.end)
        return self.beside.around(copy) if self.beside else copy

    def record(self, goal):
        """Writes into its file at which goal it is refused; no goal where there is None."""
        with open(self.path, encoding="utf-8") as it:
            lines = [line for line in it.read().rstrip("\n").split("\n") if not line.startswith("goal:")]
        with open(self.path, "w", encoding="utf-8") as it:
            it.write("\n".join([*lines, *([f"goal: {goal}"] if goal else []), ""]))

    def find(self, known):
        """Sets which functions it changes, of those that the crate has."""
        self.names = {name for name in known if any(is_function(name, it) for it in self.functions)}
        if not self.names:
            self.names = {name for name in known if any(is_method(name, it) for it in self.functions)}
        if not self.names:
            # A library that holds its statements alone lists no function that only its own crate can name.
            self.names = {"::".join([self.crate, *it[0], *([it[1] + it[4]] if it[1] else []), it[3]]) for it in self.functions}
        # Of the impls of one trait with parameters, as From, those that the text names, where it does.
        exact = {name for name in self.names if name.split("::")[-2].lower() in {(it[1] + it[4]).lower() for it in self.functions if it[4]}}
        self.names = exact or self.names
        return bool(self.names) and (self.is_of_constants or len(self.names) >= len(self.functions))
