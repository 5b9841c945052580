"""What a check says of an edit."""
import re

from .answers import goals_in, lines_of

VERDICT = re.compile(r"^fn (\S+): (.*)$", re.M)
CALLS = re.compile(r"it calls `([^`]+)`, which is not proved")
PLACE = re.compile(r"(note: )?(\./)?(src|proofs)/\S+:\d+:\d+:")
NAMED_AWAY = re.compile(r"^(\./)?proofs/.*(has no field|is not in scope|has no `)")
STOPPED = re.compile(r".*: error: `ends_here`: ")
SAID = r"(?:it is not proved|`search` found no proof)"
OPEN = re.compile(rf"^note: (?:\./)?(?P<file>src/\S+?):(?P<line>\d+):\d+: {SAID} .*?\(`(?P<goal>[^`]+)`\)")
ERROR = re.compile(r"^(?:\./)?proofs/(?P<path>\S+)/(?P<file>[^/\s]*):(?P<line>\d+):\d+: error")
LEFT = re.compile(r"`#\[tactic\(none\)\]` leaves (.*)")
NOT_CHECKED = re.compile(r"rejected, were not checked: (.*)")


def alone(edit, said):
    """What a check with this edit alone says: whether it is refused, and the line."""
    if re.search(r"^logic=not-proved", said, re.M):
        first = next((it for it in said.split("\n") if PLACE.match(it)), "")
        if NAMED_AWAY.match(first):
            return True, f"{edit.label}: refused alone, only by a proof that names what it took away: {first[:120]}"
        return True, f"{edit.label}: refused alone: {first[:120]}"
    if re.search(r"^logic=proved", said, re.M):
        return False, f"{edit.label}: NOT REFUSED: the crate is still proved with it"
    last = " | ".join(said.rstrip().split("\n")[-6:])
    return False, f"{edit.label}: BAD EDIT: it doesn't reach the prover: {last[:300]}"


def left_open(edit, said):
    """The goals of an edit's copy that the search leaves open."""
    notes = [found for it in said.split("\n") if (found := OPEN.match(it))]
    return [it["goal"] for it in notes if it["file"] == edit.file and int(it["line"]) in edit.lines]


def refusal(edit, name, said, told):
    """Why a function's own goals are refused; None where they are not, or where nothing is said of them."""
    rest = told.get(name, "")
    if not rest.startswith(("not proved", "no proof")):
        return None
    path = name.split("::")[1:]
    if edit.stops and left_open(edit, said):
        rest = f"`search` did not prove `{'`, `'.join(left_open(edit, said))}`"
    errors = [it for it in said.split("\n") if ": error" in it and re.match(rf"(\./)?proofs/{re.escape('/'.join(path))}/[^/]*:\d", it)]
    errors = [it for it in errors if not (edit.stops and STOPPED.match(it))]
    if errors:
        little = all(map(NAMED_AWAY.match, errors)) and "did not prove" not in rest
        return ("only by a proof that names what it took away: " if little else "") + errors[0][:140]
    return rest[:150] if "did not prove" in rest else None


def judge(edit, said, told):
    """What a round says of an edit: True and the line where it is refused, None where it is masked, else False."""
    why = {name: refusal(edit, name, said, told) for name in edit.names}
    refused = {name: it for name, it in why.items() if it}
    if refused and (edit.is_of_constants or len(refused) == len(why)):
        name = sorted(refused)[0]
        return True, f"{edit.label}: refused: {name}: {refused[name]}"
    return (None if any(CALLS.search(told.get(name, "")) for name in edit.names) else False), ""


def errors_of(edit, said):
    """The errors in the proof of an edit's copy."""
    path = "/".join(edit.place())
    return [it for it in said.split("\n") if (found := ERROR.match(it)) and found["path"] == path]


def rest_of(edit, told):
    """What a check says of an edit's copy."""
    return next((rest for name, rest in told.items() if name.endswith(f"::{edit.copied}")), "")


def refused_at_goal(edit, said, told):
    """Why the answer of the goal that an edit names is refused; None where it isn't, or where it names what isn't there."""
    errors = errors_of(edit, said)
    answered = {line for it in lines_of(edit.proof_of_copy("Answers.antt")).values() for line in it}
    is_answer = all((found := ERROR.match(it))["file"] == "Answers.antt" and int(found["line"]) in answered for it in errors)
    is_refused = errors and is_answer and rest_of(edit, told).startswith("not proved") and not any(map(NAMED_AWAY.match, errors))
    return errors[0][:140] if is_refused else None


def refused_at_search(edit, said, told):
    """Why the goal that an edit names is refused, which has no answer; None where it isn't, or where it isn't there."""
    is_refused = edit.goal in left_open(edit, said) and rest_of(edit, told).startswith(("not proved", "no proof"))
    return f"`search` did not prove `{edit.goal}`" if is_refused else None


def is_proved_at_goal(edit, said, told):
    """Whether the goal that an edit names is proved of its copy."""
    left, rest = LEFT.search(rest_of(edit, told)), rest_of(edit, told)
    is_left = left is not None and f"`{edit.goal}`" in left[1]
    return not errors_of(edit, said) and not is_left and (left is not None or rest.startswith(("proved", "no holes")))


def goal_of(edit, said):
    """The goal with an answer at which an edit is refused, of its copy with all answers; None where there is none, or where each names what isn't
    there."""
    errors = errors_of(edit, said)
    text = edit.proof_of_copy("Answers.antt")
    places = lines_of(text)
    items = [next((name for name, lines in places.items() if int(ERROR.match(it)["line"]) in lines), "") for it in errors]
    away = {item for item, it in zip(items, errors) if NAMED_AWAY.match(it)}
    refused = [item for item in items if item not in away]
    for it in errors:
        cause = re.search(r"that depend on `([^`]+)`", it)
        if cause and cause[1] not in away:
            refused += re.findall(r"[^\s,`]+", NOT_CHECKED.search(it)[1] if NOT_CHECKED.search(it) else "")
    return next((it for it in refused if it in goals_in(text)), None)
