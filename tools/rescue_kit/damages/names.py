"""Damaged entries: numbers, types, lengths, and entries that are gone."""
import os
import re

from ..case import NotHere, Wrong, entries_of, fragments_of, number_of
from ..sources import SHORT_LINKS
from .all import damage


def entries_in(case, directory):
    """What looks like an entry in the fragments of a directory, by the recipes; it is given by its path."""
    i = case.run("number-of", path=directory).strip()
    return entries_of_inode(case, i)


def entries_of_inode(case, i):
    said = case.run("inode", i=i)
    size, frag, fsize = number_of(said, "size"), case.volume.layout.frag, case.volume.layout.fsize
    found = []
    for k, f in sorted(fragments_of(said).items()):
        for piece in range(frag):
            if k < 12 and k * frag + piece < -(-size // fsize):
                found += entries_of(case.run("entries", f=f + piece))
    return found


def place_of(case, path):
    """The byte of the entry of a path of the report."""
    directory, _, name = path.strip("/").rpartition("/")
    return next(entry.byte for entry in entries_in(case, directory) if entry.name == name)


def set_number(case, path, number):
    case.volume.put(case.volume.entry(path), 4, number)


def mend_number(case, path, i):
    """Puts the number of an entry back, in a further copy, and checks it."""
    return case.run("further number check", e=place_of(case, path), i=i)


@damage("an entry's number is none of the volume's")
def number_out_of_range(case):
    set_number(case, "docs/letter", 99999)
    case.at_stake("docs/letter")
    report = case.report("I OUT OF RANGE", "UNREF")
    i = report.first("UNREF")["inode"]
    case.run("bytes", i=i)
    mend_number(case, report.first("I OUT OF RANGE")["path"], i)


@damage("the number of a directory's entry is none of the volume's")
def directory_number_out_of_range(case):
    set_number(case, "mail/in", 99999)
    case.at_stake("mail/in", "mail/in/one", "mail/in/two")
    report = case.report("I OUT OF RANGE", "UNREF")
    mend_number(case, report.first("I OUT OF RANGE")["path"], report.first("UNREF")["inode"])


@damage("an entry's number became that of a free inode")
def number_unallocated(case):
    set_number(case, "docs/letter", 900)
    case.at_stake("docs/letter")
    report = case.report("UNALLOCATED", "UNREF")
    mend_number(case, report.first("UNALLOCATED")["path"], report.first("UNREF")["inode"])


@damage("the number of a directory's entry became that of a free inode")
def directory_number_unallocated(case):
    set_number(case, "mail/in", 900)
    case.at_stake("mail/in", "mail/in/one", "mail/in/two")
    report = case.report("UNALLOCATED", "UNREF")
    mend_number(case, report.first("UNALLOCATED")["path"], report.first("UNREF")["inode"])


@damage("an entry's number became that of another file")
def number_of_other(case):
    set_number(case, "docs/letter", case.volume.find("mail/in/one"))
    case.at_stake("docs/letter", "mail/in/one")
    report = case.report("LINK COUNT", "UNREF")
    other, i = report.first("LINK COUNT")["inode"], report.first("UNREF")["inode"]
    case.run("bytes", i=i)
    for path in case.run("names-of", i=other).split():
        mend_number(case, path, i)


@damage("the number of a file's entry became that of a directory")
def number_of_directory(case):
    set_number(case, "docs/letter", case.volume.find("mail/out"))
    case.at_stake("docs/letter", "mail/out", "mail/out/three")
    report = case.report("IS AN EXTRANEOUS HARD LINK TO DIRECTORY", "UNREF")
    for i in [message["inode"] for message in report.of("UNREF")]:
        for path in (report.first("IS AN EXTRANEOUS HARD LINK TO DIRECTORY")[name] for name in ("path", "directory")):
            mend_number(case, path, i)


@damage("the number of a directory's entry became that of another directory")
def directory_number_of_directory(case):
    set_number(case, "mail/in", case.volume.find("docs"))
    case.at_stake("mail/in", "mail/in/one", "mail/in/two")
    report = case.report("IS AN EXTRANEOUS HARD LINK TO DIRECTORY", "UNREF")
    line = report.first("IS AN EXTRANEOUS HARD LINK TO DIRECTORY")
    for path in (line["path"], line["directory"]):
        mend_number(case, path, report.first("UNREF")["inode"])


@damage("the number of a directory's entry became that of a file")
def directory_number_of_file(case):
    set_number(case, "mail/in", case.volume.find("docs/letter"))
    case.at_stake("mail/in", "mail/in/one", "mail/in/two", "docs/letter")
    report = case.report("BAD TYPE VALUE", "UNREF", "LINK COUNT")
    case.run("names-of", i=report.first("BAD TYPE VALUE")["inode"])
    mend_number(case, report.first("BAD TYPE VALUE")["path"], report.first("UNREF")["inode"])


@damage("an entry's number became 0")
def number_zero(case):
    set_number(case, "docs/letter", 0)
    case.at_stake("docs/letter")
    i = case.report("UNREF").first("UNREF")["inode"]
    case.run("bytes", i=i)
    case.run("deleted")
    for entry in entries_in(case, "docs"):
        if entry.number == 0:
            case.run("further number check", e=entry.byte, i=i)


def mend_link(case, i, *paths):
    """Puts the number of a file that has further names at one of these paths, one at a time. One of the copies must be consistent."""
    found = [mend_number(case, path, i).status for path in paths]
    if 0 not in found:
        raise Wrong(f"the checks end with {found}")


def link_without_file(case, number, message):
    """Gives one of a file's two names the number of no file, of which the report has this message, and mends it."""
    set_number(case, "mail/report_too", number)
    case.at_stake("docs/report", "mail/report_too")
    report = case.report(message, "LINK COUNT")
    mend_link(case, report.first("LINK COUNT")["inode"], report.first(message)["path"])


@damage("the number of one of a file's two names is none of the volume's")
def link_number_out_of_range(case):
    link_without_file(case, 99999, "I OUT OF RANGE")


@damage("the number of one of a file's two names became that of a free inode")
def link_number_unallocated(case):
    link_without_file(case, 900, "UNALLOCATED")


@damage("the number of one of a file's two names became that of another file")
def link_number_of_other(case):
    set_number(case, "mail/report_too", case.volume.find("docs/letter"))
    case.at_stake("docs/report", "mail/report_too", "docs/letter")
    counts = {message["count"] - message["right_count"]: message["inode"] for message in case.report("LINK COUNT").of("LINK COUNT")}
    mend_link(case, counts[1], *case.run("names-of", i=counts[-1]).split())


@damage("the number of one of a file's two names became that of a directory")
def link_number_of_directory(case):
    set_number(case, "mail/report_too", case.volume.find("docs/pages"))
    case.at_stake("docs/report", "mail/report_too")
    report = case.report("BAD TYPE VALUE", "LINK COUNT")
    i = next(message["inode"] for message in report.of("LINK COUNT") if message["count"] > message["right_count"])
    mend_link(case, i, report.first("BAD TYPE VALUE")["path"])


@damage("the number of one of a file's two names became 0")
def link_number_zero(case):
    set_number(case, "mail/report_too", 0)
    case.at_stake("docs/report", "mail/report_too")
    i = case.report("LINK COUNT").first("LINK COUNT")["inode"]
    mend_link(case, i, *[line.partition("\t")[2] for line in case.run("deleted").splitlines()])


@damage("the record length of an entry covers one of a file's two names")
def link_covered(case):
    case.in_one_order()
    found = list(case.volume.entries(case.volume.find("mail")))
    k = next(k for k, entry in enumerate(found) if entry[4] == "report_too")
    case.volume.put(found[k - 1][0] + 4, 2, found[k - 1][2] + found[k][2])
    case.at_stake("docs/report", "mail/report_too")
    i = case.report("LINK COUNT").first("LINK COUNT")["inode"]
    named = {path.rpartition("/")[2] for path in case.run("names-of", i=i).split()}
    covered = next(entry.byte for entry in entries_of(case.run("find-name", i=i)) if entry.name not in named)
    before = [entry for entry in entries_in(case, "mail") if entry.byte < covered][-1]
    case.run("further length check", e=before.byte, length=covered - before.byte)


@damage("an entry's type is wrong")
def type_wrong(case):
    case.volume.put(case.volume.entry("docs/letter") + 6, 1, 4)
    case.at_stake("docs/letter")
    path = case.report("BAD TYPE VALUE").first("BAD TYPE VALUE")["path"]
    case.run("further type check", e=place_of(case, path), type=8)


@damage("an entry's type became that of a whiteout")
def type_whiteout(case):
    case.volume.put(case.volume.entry("docs/letter") + 6, 1, 14)
    case.at_stake("docs/letter")
    report = case.report("BAD WHITEOUT ENTRY")
    line = report.first("BAD WHITEOUT ENTRY")
    case.run("bytes", i=line["inode"])
    case.run("further type check", e=place_of(case, line["path"]), type=8)


@damage("a file's name became `.`")
def name_dot(case):
    place = case.volume.entry("docs/letter")
    case.volume.image[place + 7:place + 10] = b"\1.\0"
    case.at_stake("docs/letter", name=False)
    report = case.report("EXTRA '.' ENTRY", "UNREF")
    case.run("bytes", i=report.first("UNREF")["inode"])


@damage("a byte of an entry's name became a control byte")
def name_control(case):
    case.volume.image[case.volume.entry("docs/letter") + 8] = 0x1B
    case.at_stake("docs/letter", name=False)
    case.report()
    found = next((entry for entry in entries_in(case, "docs") if entry.name == "?etter"), None)
    if found is None:
        raise Wrong("the name isn't shown with a question mark")
    case.run("bytes", i=found.number)


@damage("two names differ in a control byte alone")
def names_control(case):
    paths = ("docs/pages/page_10", "docs/pages/page_11")
    for path, byte in zip(paths, (9, 1)):
        case.volume.image[case.volume.entry(path) + 8 + len("page_1")] = byte
    case.at_stake(*paths, name=False)
    case.report()
    numbers = [line.split("\t")[0].split()[-1].rstrip(":") for line in case.run("names").splitlines() if line.endswith("\tdocs/pages/page_1^")]
    if len(numbers) != 2:
        raise Wrong(f"page_1^ is in the list of names as {numbers}")
    for i in numbers:
        case.run("bytes", i=i)


def shown(path):
    """A path as Sleuthkit writes it."""
    return re.sub("[\0-\37\177]", "^", path)


@damage("odd names")
def odd(case):
    if "odd" not in case.tree:
        raise NotHere
    case.tree = {shown(path): it for path, it in case.tree.items()}
    case.at_stake(*case.tree)
    case.report()
    case.run("names all attributes")
    for i, path in re.findall(r"^./[dr] (\d+):\t(.*)", case.run("names"), re.M):
        if "^" not in path and "'" not in path and case.run("number-of", path=path).strip() != i:
            raise Wrong(f"the inode of {path} isn't found")


@damage("the inode of a directory with odd names became zeros")
def odd_lost(case):
    if "odd" not in case.tree:
        raise NotHere
    volume = case.volume
    volume.zero(volume.layout.inode_place(volume.find("odd")), 128)
    case.at_stake(*case.tree)
    i = case.report("UNALLOCATED", "UNREF").first("UNALLOCATED")["inode"]
    case.run("unnamed lost-names")
    found = case.run("further directories check")
    case.run("keep")
    if case.run("further place links check", i=i, links=found.first("LINK COUNT")["right_count"]).status or case.trees[-1] != case.tree:
        raise Wrong("it isn't as it was")


@damage("a file has the name of another one")
def names_same(case):
    case.in_one_order()
    case.volume.image[case.volume.entry("docs/pages/page_10") + 8 + len("page_1")] = ord("1")
    case.at_stake("docs/pages/page_10", name=False)
    case.at_stake("docs/pages/page_11")
    if case.report():
        raise Wrong("the report names it")
    case.run("all")


@damage("a file has the name of a directory")
def name_of_directory(case):
    case.in_one_order()
    place = case.volume.entry("docs/letter")
    case.volume.image[place + 7:place + 8 + 6] = b"\5pages\0"
    case.at_stake("docs/letter", name=False)
    case.at_stake(*[path for path in case.tree if path.startswith("docs/pages/")])
    if case.report():
        raise Wrong("the report names it")
    case.run("names all")


@damage("an entry's number became that of the root")
def number_of_root(case):
    case.in_one_order()
    set_number(case, "docs/letter", 2)
    case.at_stake(*[path for path in case.tree if path not in SHORT_LINKS and path != "docs/letter"])
    case.report("BAD TYPE VALUE", "UNREF")
    if case.run("names").count("\tbig/film") != 1:
        raise Wrong("a file is listed twice")
    case.run("all")
    if os.path.exists(f"{case.place}/saved.d.2") or len(case.trees) > 1:
        raise Wrong("the root is copied twice")


@damage("the types in the entries of files became those of directories")
def type_of_directory(case):
    case.in_one_order()
    paths = ["docs/letter", "mail/in/one"]
    for path in paths:
        case.volume.put(case.volume.entry(path) + 6, 1, 4)
    case.at_stake(*paths)
    case.report("BAD TYPE VALUE")
    case.run("names all")


@damage("a deleted entry has the name of a file")
def deleted_over_file(case):
    """Puts it into the record of the file's own entry, where this is the last one of its chunk."""
    volume = case.volume
    place, length = next((place, length) for place, _, length, kind, name in volume.entries(volume.find("mail/in")) if name == "two")
    count = volume.image[place + 7]
    after = place + 8 + (count + 4 & ~3)
    volume.image[after:after + 8 + count] = volume.image[place:place + 8 + count]
    volume.put(after, 4, volume.find("docs/letter"))
    volume.put(after + 4, 2, place + length - after)
    case.at_stake(*[path for path, data in case.tree.items() if isinstance(data, bytes) and path not in SHORT_LINKS])
    case.report()
    case.run("every")


@damage("an entry's record length became 0")
def length_zero(case):
    case.volume.put(case.volume.entry("docs/names/a_rather_long_name_of_a_file_050") + 4, 2, 0)
    at_stake_in_names(case)
    report = case.report("DIRECTORY CORRUPTED", "UNREF")
    mend_lengths(case, report.first("DIRECTORY CORRUPTED")["inode"])


@damage("an entry's record length became more than a chunk")
def length_beyond_chunk(case):
    case.volume.put(case.volume.entry("mail/in/two") + 4, 2, 0x8000 + 480)
    case.at_stake("mail/in/two")
    report = case.report("DIRECTORY CORRUPTED", "UNREF")
    mend_lengths(case, report.first("DIRECTORY CORRUPTED")["inode"])


@damage("an entry's record length became that of several entries")
def length_too_large(case):
    place = case.volume.entry("docs/names/a_rather_long_name_of_a_file_050")
    case.volume.put(place + 4, 2, 512 - place % 512)
    at_stake_in_names(case)
    case.report("UNREF")
    mend_lengths(case, case.run("number-of", path="docs/names").strip())


def at_stake_in_names(case):
    case.at_stake(*[path for path in case.tree if path.startswith("docs/names/")])


def mend_lengths(case, i):
    """Puts record lengths that don't reach the next entry, or the chunk's end, into a further copy, and checks it."""
    entries = entries_of_inode(case, i)
    case.run("further")
    for this, after in zip(entries, [*entries[1:], None]):
        end = this.byte - this.byte % 512 + 512
        right = min(end, after.byte if after and after.byte > this.byte else end) - this.byte
        if this.length != right:
            case.run("length", e=this.byte, length=right)
    return case.run("check")


@damage("an entry's length of name passes its record")
def name_too_long(case):
    place = case.volume.entry("docs/names/a_rather_long_name_of_a_file_120")
    case.volume.put(place + 7, 1, 250)
    at_stake_in_names(case)
    mend_names(case, case.report("DIRECTORY CORRUPTED", "UNREF"))


def mend_names(case, report):
    """Puts lengths of names that aren't those of the names into a further copy, and checks it."""
    case.run("further")
    for entry in entries_of_inode(case, report.first("DIRECTORY CORRUPTED")["inode"]):
        if entry.name_length != len(entry.name):
            case.run("name-length check", e=entry.byte, n=len(entry.name))


@damage("the length of name of the last entry in its chunk became more than the chunk")
def last_name_too_long(case):
    case.volume.put(case.volume.entry("mail/in/two") + 7, 1, 255)
    case.at_stake("mail/in/two")
    mend_names(case, case.report("DIRECTORY CORRUPTED", "UNREF"))


@damage("a byte of an entry's name became a slash")
def name_slash(case):
    case.volume.image[case.volume.entry("docs/names/a_rather_long_name_of_a_file_050") + 8 + 15] = ord("/")
    at_stake_in_names(case)
    del case.stakes["docs/names/a_rather_long_name_of_a_file_050"]
    mend_slashes(case, case.report("DIRECTORY CORRUPTED", "UNREF"))


@damage("a byte of an entry's name became 0")
def name_nul(case):
    case.volume.image[case.volume.entry("docs/names/a_rather_long_name_of_a_file_050") + 8 + 15] = 0
    at_stake_in_names(case)
    del case.stakes["docs/names/a_rather_long_name_of_a_file_050"]
    report = case.report("DIRECTORY CORRUPTED", "UNREF")
    case.run("further name-byte check", e=place_not_shown(case, report), k=15, byte=ord("_"))


@damage("an entry's type became one that there isn't")
def type_unknown(case):
    case.volume.put(case.volume.entry("docs/names/a_rather_long_name_of_a_file_050") + 6, 1, 200)
    at_stake_in_names(case)
    report = case.report("DIRECTORY CORRUPTED", "UNREF")
    case.run("further type check", e=place_not_shown(case, report), type=8)


def place_not_shown(case, report):
    """The byte of an entry that the recipe `entries` doesn't show: where one ends and the next doesn't begin."""
    entries = entries_of_inode(case, report.first("DIRECTORY CORRUPTED")["inode"])
    return next(this.byte + this.length for this, after in zip(entries, entries[1:])
                if this.byte // 512 == after.byte // 512 and this.byte + this.length != after.byte)


@damage("a byte of the second entry of a directory, `..`, became another one")
def dotdot_named(case):
    place = [entry[0] for entry in case.volume.entries(case.volume.find("mail/in"))][1]
    case.volume.image[place + 8] = ord("x")
    case.at_stake("mail/in", "mail/in/one", "mail/in/two")
    report = case.report("MISSING '..', CANNOT FIX", "IS AN EXTRANEOUS HARD LINK TO DIRECTORY")
    e = entries_of_inode(case, report.first("MISSING '..', CANNOT FIX")["inode"])[1].byte
    if case.run("further name-byte check", e=e, k=0, byte=ord(".")).status:
        raise Wrong("it isn't consistent")


@damage("the record length of `.` covers `..`")
def dot_covers(case):
    place = [entry[0] for entry in case.volume.entries(case.volume.find("mail/in"))][0]
    case.volume.put(place + 4, 2, 24)
    case.at_stake("mail/in", "mail/in/one", "mail/in/two")
    i = case.report("MISSING '..', CANNOT FIX").first("MISSING '..', CANNOT FIX")["inode"]
    if mend_lengths(case, i).status:
        raise Wrong("it isn't consistent")


@damage("an entry's name leads to the copy that was kept")
def name_leads_away(case):
    away = b"../../../kept.img"
    place = case.volume.entry("docs/names/a_rather_long_name_of_a_file_050")
    case.volume.image[place + 7:place + 8 + 33] = bytes([len(away)]) + away + bytes(33 - len(away))
    case.at_stake(*[path for path in case.tree if path not in SHORT_LINKS and not path.endswith("_050")])
    report = case.report("DIRECTORY CORRUPTED", "UNREF")
    with open(f"{case.place}/kept.img", "wb") as it:
        it.write(b"kept")
    for recipes in ("all", "every"):
        if "leads out of" not in case.complaints(recipes):
            raise Wrong(f"{recipes} follows the name")
    if case.bytes_of("kept.img") != b"kept":
        raise Wrong("the copy that was kept was overwritten")
    mend_slashes(case, report)
    case.run("keep all")


def mend_slashes(case, report):
    """Puts another byte for each slash of a name, and checks that."""
    case.run("further")
    for entry in entries_of_inode(case, report.first("DIRECTORY CORRUPTED")["inode"]):
        for k, byte in enumerate(entry.name):
            if byte == "/":
                case.run("name-byte", e=entry.byte, k=k, byte=ord("_"))
    case.run("check")


@damage("a directory's chunk became zeros")
def chunk_zeroed(case):
    place = case.volume.entry("docs/names/a_rather_long_name_of_a_file_050")
    start = place - place % 512
    gone = [f"docs/names/{name}" for at, _, _, _, name in case.volume.entries(case.volume.find("docs/names")) if start <= at < start + 512]
    case.volume.zero(start, 512)
    case.at_stake(*[path for path in gone if path in case.tree], name=False)
    report = case.report("DIRECTORY CORRUPTED", "UNREF")
    for message in report.of("UNREF"):
        case.run("bytes", i=message["inode"])


@damage("the number of a directory's entry became 0")
def directory_number_zero(case):
    i = case.volume.find("mail/in")
    set_number(case, "mail/in", 0)
    case.at_stake("mail/in", "mail/in/one", "mail/in/two")
    case.report("UNREF")
    case.run("deleted")
    for entry in entries_in(case, "mail"):
        if entry.number == 0 and mend_number(case, f"mail/{entry.name}", i).status:
            raise Wrong("it isn't consistent")


@damage("the numbers of two directories' entries were exchanged")
def directory_numbers_exchanged(case):
    volume, paths = case.volume, ("mail/in", "docs/pages")
    i, j = (volume.find(path) for path in paths)
    set_number(case, paths[0], j)
    set_number(case, paths[1], i)
    case.at_stake(*[path for path in case.tree if path.startswith(paths)])
    first, second = case.report("BAD INODE NUMBER FOR '..'").of("BAD INODE NUMBER FOR '..'")
    case.run("further number keep", e=place_of(case, first["path"]), i=second["inode"])
    mend_number(case, second["path"], first["inode"])


@damage("an entry's type became 0, and its number none of the volume's")
def type_and_number(case):
    case.in_one_order()
    case.volume.put(case.volume.entry("docs/letter") + 6, 1, 0)
    set_number(case, "docs/letter", 99999)
    case.at_stake("docs/letter")
    report = case.report("I OUT OF RANGE", "UNREF")
    i = report.first("UNREF")["inode"]
    case.run("bytes", i=i)
    # Its entry isn't shown: it begins where the one before it ends
    shown = sorted(entries_in(case, "docs"))
    ends = [entry.byte + entry.length for entry in shown if (entry.byte + entry.length) % 512 and entry.byte + entry.length not in {one.byte for one in shown}]
    if not any(case.run("further number type check", e=e, i=i, type=8).status == 0 for e in ends):
        raise Wrong("it isn't consistent")
