"""The text of a crate's sources: which function is around a place, and what else is where."""
import os
import re

HOME = os.path.dirname(os.path.dirname(os.path.dirname(os.path.realpath(__file__))))
ITEM = re.compile(r"^(?P<pad> *)(?:pub(?:\([a-z]+\))? )?(?:const |unsafe )*fn (?P<name>\w+)", re.M)
IMPL = re.compile(r"^impl\b(?P<head>[^{;]*)\{", re.M)
CONSTANT = re.compile(r"^ *(?:pub(?:\([a-z]+\))? )?const (?P<name>[A-Z]\w*): ", re.M)


def replaced(text, places, start=0, end=None):
    """A part of a text with these places replaced, which are places of the whole text."""
    text = text[:end]
    for at, old, new in sorted(places, reverse=True):
        text = text[:at] + new + text[at + len(old) :]
    return text[start:]


def one_place(text, after):
    """What differs between two texts, as one place of whole lines."""
    old, new = text.split("\n"), after.split("\n")
    first = next(at for at, (a, b) in enumerate(zip(old, new)) if a != b)
    last = next(at for at, (a, b) in enumerate(zip(reversed(old), reversed(new))) if a != b)
    at = sum(len(line) + 1 for line in old[:first])
    return at, "\n".join(old[first : len(old) - last]), "\n".join(new[first : len(new) - last])


def is_function(name, function):
    """Whether a function's name, as a check prints it, is that of a function of the sources."""
    stem, kind, _, found, _ = function
    words = name.split("::")[1:]
    if kind is None:
        return tuple(words) == (*stem, found)
    return tuple(words[:-2]) == stem and is_method(name, function)


def is_method(name, function):
    """Whether a function's name is that of a method of the sources, which may stand in another module than its type."""
    _, kind, of_trait, found, _ = function
    words = name.split("::")[1:]
    of_kind = rf"{kind}{of_trait}\w*" if of_trait else rf"{kind}(\+.*)?"
    return kind is not None and len(words) > 1 and words[-1] == found and bool(re.fullmatch(of_kind, words[-2]))


def item_at(text, place):
    """The head of the function around a place; None where there is none."""
    item = None
    for found in ITEM.finditer(text):
        # The item's body begins at the first brace that stands alone at the item's depth, or ends a line there.
        if start_of(text, found) <= place < end_of(text, found):
            item = found
    return item


def function_at(text, place):
    """The function around a place: its type, the trait that it is of, its name, and that trait with the words of its parameters; None where
    there is none."""
    item = item_at(text, place)
    if item is None:
        return None
    around = None
    for found in IMPL.finditer(text):
        close = text.find("\n}", found.end())
        if found.start() < item.start() < close:
            around = found["head"]
    if around is None:
        return (None, "", item["name"], "")
    head = re.sub(r"^<(?:[^<>]|<[^<>]*>)*>", "", around.strip()).strip()
    of_trait, _, kind = head.rpartition(" for ")
    name = lambda it: re.match(r"(?:\w+::)*(\w+)", it.strip())[1] if it.strip() else ""
    return (name(kind), name(of_trait), item["name"], "".join(re.findall(r"\w+", of_trait)) if "<" in of_trait else "")


def start_of(text, item):
    """Where a function starts: at the first of its attributes."""
    start = item.start()
    above = text.rfind("\n", 0, max(start - 1, 0)) + 1
    while start and text[above:start].lstrip().startswith("#["):
        start = above
        above = text.rfind("\n", 0, max(start - 1, 0)) + 1
    return start


def end_of(text, item):
    """Where a function ends: after the brace that closes at its own depth."""
    found = re.compile(rf"^{item['pad']}(?:\}}|\{{\}})$", re.M).search(text, item.end())
    one_line = text.find("\n", item.start())
    if text[item.start() : one_line].rstrip().endswith("}"):
        return one_line
    return found.end() if found else len(text)


def constant_at(text, place):
    """The constant around a place; None where there is none."""
    for found in CONSTANT.finditer(text):
        if found.start() <= place <= text.find(";", found.end()):
            return found["name"]
    return None


def texts_of(crate):
    """The sources of a crate, each by its module."""
    texts = {}
    for at, _, names in sorted(os.walk(f"{HOME}/crates/{crate}/src")):
        for name in sorted(names):
            inside = os.path.relpath(f"{at}/{name}", f"{HOME}/crates/{crate}/src").removesuffix(".rt")
            with open(f"{at}/{name}", encoding="utf-8") as it:
                texts[() if inside in ("lib", "main") else tuple(inside.split("/"))] = it.read()
    return texts


def users_of(crate, constants):
    """The functions of the crate that name one of the constants, or one that is made of them."""
    texts, found, left = texts_of(crate), set(), set(constants)
    while left:
        word = left.pop()
        for stem, text in texts.items():
            for use in re.finditer(rf"\b{word}\b", text):
                function, constant = function_at(text, use.start()), constant_at(text, use.start())
                if function:
                    found.add((stem, *function))
                elif constant and constant not in constants:
                    constants.add(constant)
                    left.add(constant)
    return found
