"""A method of a trait as a method of its type, so that a copy of it can stand beside it."""
import os
import re

from .sources import HOME, IMPL, texts_of

CLAUSES = re.compile(r"^ +(?:requires|ensures)\b", re.M)
ATTRIBUTES = re.compile(r"(?:^#\[.*\n)*\Z", re.M)
USES = re.compile(r"^ *ghost use [^;]*;$", re.M)
PARAMETERS = re.compile(r"(\w+): ")


def split_head(head):
    """The head of an impl of a trait: its parameters, the trait, and the type with what comes after it; None where it has no trait."""
    head, given = head.strip(), ""
    if head.startswith("<"):
        depth = 0
        for at, letter in enumerate(head):
            depth += (letter == "<") - (letter == ">" and head[at - 1] != "-")
            if not depth:
                given, head = head[1:at], head[at + 1 :]
                break
    of_trait, _, kind = head.strip().partition(" for ")
    return (given, of_trait.strip(), kind.strip()) if kind else None


def signature(text, start):
    """The text of a function's head from there on: to the brace that opens its body, or to where a declaration ends."""
    alone = re.compile(r"^ *\{$| \{$|(?:\};|\);|\w;|>;)$", re.M).search(text, start)
    return text[start : alone.end()] if alone else ""


def declared(name, method):
    """What a trait of the repository says of a method: its parameters, its clauses, the names of the trait's ghosts, and what its file imports for
    contracts; None where no trait of that name, or more than one, says something."""
    found = []
    for crate in sorted(os.listdir(f"{HOME}/crates")):
        for text in texts_of(crate).values():
            opened = re.search(rf"^(?:pub(?:\([a-z]+\))? )?trait {name}\b[^<{{]*\{{$", text, re.M)
            if not opened:
                continue
            body = text[opened.end() : text.find("\n}", opened.end())]
            item = re.search(rf"^    fn {method}\b", body, re.M)
            if item:
                whole = re.compile(r"\};$|^    fn |\Z", re.M).search(body, item.end())
                declaration = body[item.start() : whole.end()]
                clauses = CLAUSES.search(declaration)
                if clauses and whole[0] == "};":
                    head = declaration[: clauses.start()]
                    outside = [it for it in USES.findall(text) if not it.startswith(" ")]
                    uses = [*outside, *USES.findall(body)]
                    found.append((PARAMETERS.findall(head), declaration[clauses.start() : -1], re.findall(r"^    ghost (\w+):", body, re.M), uses))
    return found[0] if len(found) == 1 else None


class Beside:
    """Where a copy of a method of a trait stands, and in which impl: after the impl of the trait, as a method of the type, with the contract that it
    has there or, where it has none, with the trait's."""

    def __init__(self, end, head, uses, places):
        self.end, self.head, self.uses, self.places = end, head, uses, places

    def around(self, copy):
        """The impl with such a copy in it."""
        return "\n".join([self.head, *self.uses, copy, "}"])


def beside(text, item, start, end):
    """Such a place for a method of a trait; None where it can have none."""
    opened = next((it for it in reversed([*IMPL.finditer(text)]) if it.start() < item.start()), None)
    parts = split_head(opened["head"]) if opened else None
    if parts is None:
        return None
    given, of_trait, kind = parts
    close = text.find("\n}", opened.end())
    whole = text[opened.end() : close]
    name = re.match(r"\w+", kind)[0]
    is_own = re.search(rf"^(?:pub(?:\([a-z]+\))? )?(?:struct|enum) {name}\b", text, re.M)
    if not is_own or any(not re.search(rf"\b{it}\b", kind) for it in re.findall(r"(?:^|, )'?(\w+)", given)):
        return None
    # A lifetime without a name gets one, by which the contract can name the type.
    lifetimes = []
    while "'_" in kind:
        lifetimes.append(f"'copied{len(lifetimes)}")
        kind = kind.replace("'_", lifetimes[-1], 1)
    given = ", ".join(it for it in [*lifetimes, given] if it)
    uses = USES.findall(whole)
    # What the impl says of the trait's types.
    types = dict(re.findall(r"^    type (\w+) = ([^;]*);", whole, re.M))
    places = [(it.start(), it[0], types[it[1]]) for it in re.finditer(r"\bSelf::(\w+)\b", text) if start <= it.start() < end and it[1] in types]
    head = signature(text, item.start())
    if not CLAUSES.search(head):
        said = None if "<" in of_trait else declared(of_trait, item["name"])
        if said is None or not head.endswith(" {") or said[0] != PARAMETERS.findall(head):
            return None
        own = rf"(?<![\w.-])(?<!requires )(?<!ensures )({'|'.join(said[2])})(?![\w-])"
        clauses = re.sub(own, rf"⟦<{kind.partition(' where')[0]} as {of_trait}>⟧.\1", said[1]) if said[2] else said[1]
        at = item.start() + len(head) - len(" {")
        places.append((at, " {", f"\n{clauses}\n    {{"))
        uses = [f"    {it.strip()}" for it in [*said[3], *uses]]
    above = ATTRIBUTES.search(text, 0, opened.start())[0]
    return Beside(close + 2, f"{above}impl{f'<{given}>' if given else ''} {kind} {{", uses, places)
