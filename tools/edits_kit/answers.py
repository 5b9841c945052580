"""The proof of a copy that is tried at one goal: the answer of that goal alone, or the search alone that proves it."""
import importlib.machinery
import importlib.util
import os
import re

from .sources import HOME

NAME = re.compile(r"^(?:(?:pub|abbrev|unfoldable|record|data|ruleset) )*(\S+) :", re.M)
# An answer that antt refuses. Rattle then doesn't print what to write for the goals that are open, which takes as long as a proof.
STOP = "\nends_here : Unit\nends_here = ends_here.refused\n"
TACTIC = re.compile(r"^ *#\[tactic\((?P<words>[^\]]*)\)\]\n", re.M)


def packing():
    """The part of `pack_imports` that knows how a line of imports is read."""
    loader = importlib.machinery.SourceFileLoader("pack_imports", f"{HOME}/tools/pack_imports")
    made = importlib.util.module_from_spec(importlib.util.spec_from_loader("pack_imports", loader))
    loader.exec_module(made)
    return made


def unpacked(text, crate):
    """A proof in which each line that imports from its crate names one thing, so that its module stands there whole."""
    lines = []
    for line in text.split("\n"):
        if line.startswith(f"use Rattle.{crate}.") and line.endswith("}"):
            lines += [f"use {'.'.join(path)}.{{{name}}}" for path, name in packing().leaves(line[len("use "):])]
        else:
            lines.append(line)
    return "\n".join(lines)


def items_of(text):
    """What a file of answers declares, each by its name, and before that the file's lines of imports."""
    blocks = [it for it in re.split(r"\n\n+", text.strip("\n")) if it]
    items = {NAME.search(it)[1]: it for it in blocks if not it.startswith("use ") and NAME.search(it)}
    return [it for it in blocks if it.startswith("use ")], items


def is_goal(name, item):
    """Whether a declaration of a file of answers is the answer of a goal."""
    return f"pub {name} : goal.{name}" in item.split("\n")


def goals_in(text):
    """The goals that a file of answers answers."""
    return {name for name, item in items_of(text)[1].items() if is_goal(name, item)}


def answer_alone(text, goal):
    """A file of answers with that of one goal alone, and what it cites there."""
    imports, items = items_of(text)
    kept, left = set(), {goal}
    while left:
        one = left.pop()
        kept.add(one)
        cites = lambda name: re.search(rf"(?<![\w-]){re.escape(name)}(?![\w-])", items[one])
        left |= {name for name in items if name not in kept and cites(name)}
    return "\n\n".join([*imports, *(text for name, text in items.items() if name in kept)]) + "\n"


def search_alone(goals, goal, answered):
    """A file of answers with a hole for each other goal than this one, which is left to the search. Where one of a goal's clauses has an answer of
    its own, each of them is a goal, and none of the whole; else the whole alone is one."""
    names = dict.fromkeys([*goals, *sorted(answered)])
    whole_of = lambda name: name.partition("-clause-")[0]
    split = {whole_of(name) for name in {goal, *answered} if "-clause-" in name}
    is_goal_there = lambda name: name not in split and (name == whole_of(name) or whole_of(name) in split or whole_of(name) not in names)
    holes = [name for name in names if name != goal and is_goal_there(name)]
    return "".join(f"\npub {name} : goal.{name}\n{name} = ?\n" for name in holes)


def lines_of(text):
    """At which lines each declaration of a file of answers stands."""
    found, at = {}, 1
    for block in re.split(r"(\n\n+)", text):
        name = NAME.search(block)
        if name and not block.startswith("use "):
            found[name[1]] = range(at, at + block.count("\n") + 1)
        at += block.count("\n")
    return found


def read(file):
    """The text of a file; nothing where it isn't there."""
    if not os.path.isfile(file):
        return ""
    with open(file, encoding="utf-8") as it:
        return it.read()
