"""What a built crate's library and sources say of its functions."""
import json
import os
import re

from .room import PARTS, PROOF_FILES
from .sources import ITEM, function_at, texts_of


def functions_of(crate):
    """The names of a built crate's functions: its library lists the statement of each."""
    with open(f"{crate.rlib}/toolchain/checked.json", encoding="utf-8") as it:
        paths = re.findall(rf'^\["Rattle-{crate.name}-proofs\.(\S+)\.Statement",|"part/Rattle-{crate.name}-proofs\.(\S+?)\.Statement"', it.read(), re.M)
    traits = set()
    for at, _, names in os.walk(f"{crate.folder}/src"):
        for name in names:
            with open(f"{at}/{name}", encoding="utf-8") as it:
                traits |= set(re.findall(r"\btrait (\w+)", it.read()))
    words = [(one or other).split(".") for one, other in paths]
    return {"::".join([crate.name, *it]) for it in words if it[-1] != "TheImpl" and not (len(it) > 1 and it[-2] in traits)}


def proofs_of(crate):
    """The places of the functions' proofs below the crate's folder of them."""
    top = f"{crate.folder}/proofs"
    return [tuple(os.path.relpath(at, top).split("/")) for at, _, names in sorted(os.walk(top)) if {*PROOF_FILES} & {*names}]


def goals_of(crate):
    """The goals of each function by the place of its proof, as the crate's library lists what its proofs are made of; none where it doesn't."""
    found = {}
    try:
        with open(f"{crate.rlib}/lang/antt/made.json", encoding="utf-8") as it:
            lines = it.read().split("\n")
        # A name stands above what is said of it.
        for name, made in zip(lines, lines[1:]):
            place = re.fullmatch(r'"proofs/(\S+)/Proof"', name)
            if place and made.startswith('{"MadeProof"'):
                form = json.loads(made)["MadeProof"]["form"]
                needs = form["Tied"]["needs"] if "Tied" in form else []
                found[tuple(place[1].split("/"))] = [it["named"] for it in needs if it["named"] and not it.get("asks_nothing")]
    except (OSError, ValueError, KeyError, TypeError):
        return {}
    return found


def written_functions(crate):
    """The names of the functions that stand in the sources alone or in an impl of a type that is declared beside it. A library that holds its
    statements alone lists none that only its own crate can name."""
    names = set()
    for stem, text in texts_of(crate.name).items():
        for item in ITEM.finditer(text):
            kind, of_trait, name, _ = function_at(text, item.start())
            is_alone = kind is None and not item["pad"]
            is_beside = kind is not None and not of_trait and re.search(rf"^(?:pub(?:\([a-z]+\))? )?(?:struct|enum) {kind}\b", text, re.M)
            if is_alone or is_beside:
                names.add("::".join([crate.name, *stem, *([kind] if kind else []), name]))
    return names


def without_second_names(names, written):
    """These names without those under which a function of the sources is exported from another module than its own: it has no proof there."""
    tails = {"::".join(words[at:]) for words in (it.split("::") for it in written) for at in range(2, len(words))}
    return {it for it in names if it in written or it.partition("::")[2] not in tails}


def is_built(crate, just_proved):
    """Whether the crate's library is that of its sources: with a stamp that says so, or as `rt ci` left it. Where that has just passed, it is; else
    one that is newer than they are."""
    made = f"{crate.rlib}/format"
    if just_proved:
        return os.path.isfile(made)
    if os.path.exists(f"{crate.folder}/out/rlib/stamp") or not os.path.isfile(made):
        return crate.is_built()
    sources = [f"{at}/{name}" for it in [crate, *crate.below()] for part in PARTS for at, _, names in os.walk(f"{it.folder}/{part}") for name in names]
    return all(os.path.getmtime(it) < os.path.getmtime(made) for it in sources)
