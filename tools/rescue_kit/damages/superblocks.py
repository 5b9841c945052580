"""Damaged superblocks, images that were cut, and images of another kind."""
import os
import re
import tempfile

from images import formats

from .. import sources
from ..case import TOOLS, NotHere, Wrong, tree_of
from .all import damage

SECTOR = 512


def all_at_stake(case):
    case.at_stake(*case.tree)


def adopt(case):
    """The tree of the further copy counts as had, where the check of it ended, with counts of the superblock alone."""
    case.trees.append(tree_of(f"{case.place}/further.img"))


COUNTS = {"FREE BLK COUNT(S) WRONG IN SUPERBLK"}


def mend_from(case, sector, *words):
    found = case.run("further superblock check", sector=sector, *words)
    if {message["kind"] for message in found} <= COUNTS:
        adopt(case)
    case.run("keep names")


@damage("the superblock became zeros")
def lost(case):
    case.volume.zero(formats.SUPERBLOCK_AT, 8192)
    all_at_stake(case)
    case.report("BAD SUPER BLOCK")
    sectors = case.run("copies").split("\n")
    mend_from(case, sectors[0].split()[0])


@damage("the superblock's number of fragments in a group is wrong")
def disagrees(case):
    case.volume.put_superblock("fpg", case.volume.layout.fpg)
    case.volume.put_superblock("cgoffset", 8)
    all_at_stake(case)
    case.report("BAD SUPER BLOCK")
    mend_from(case, 32)


@damage("the superblock's size of a block is wrong")
def geometry(case):
    case.volume.put_superblock("bsize", 4097)
    all_at_stake(case)
    case.report("BAD SUPER BLOCK")
    mend_from(case, 32)


@damage("the superblock's size of the volume is wrong")
def size(case):
    case.volume.put_superblock("size", case.volume.layout.size * 2)
    all_at_stake(case)
    case.report("BAD SUPER BLOCK")
    mend_from(case, case.run("copies").split()[0])


@damage("the superblock became that of a volume with blocks of another size")
def of_other(case):
    with tempfile.TemporaryDirectory() as place:
        other = sources.Kind(case.kind.order, case.kind.size, "version=1,bsize=16384,fsize=2048", sources.make_long_directory).make(place)
    case.volume.image[formats.SUPERBLOCK_AT:formats.SUPERBLOCK_AT + 8192] = other[formats.SUPERBLOCK_AT:formats.SUPERBLOCK_AT + 8192]
    all_at_stake(case)
    case.report("BAD SUPER BLOCK")
    sector = next(line.split()[0] for line in case.run("copies").splitlines() if " primary" not in line)
    if len(case.check_again(words=("-b", "16"))) <= len(case.check_again(words=("-b", sector))):
        raise Wrong("the report of the first copy isn't the shorter one")
    mend_from(case, sector)


@damage("the last copy of the superblock is damaged")
def last_copy(case):
    case.volume.put_superblock("cgoffset", 8, copy=case.volume.layout.ncg - 1)
    mend_last(case)


@damage("the last copy of the superblock became zeros")
def last_copy_lost(case):
    case.volume.zero(case.volume.layout.copy_place(case.volume.layout.ncg - 1), 3 * SECTOR)
    mend_last(case)


@damage("the last copy of the superblock became zeros, and a file has an image of another volume in it")
def last_copy_and_image(case):
    volume, fsize = case.volume, case.volume.layout.fsize
    with open(f"{os.path.dirname(TOOLS)}/examples/clean.img", "rb") as it:
        inner = it.read()[8192:8192 + 1376]
    at = volume.blocks(volume.find("big/film"))[3] * fsize
    volume.image[at:at + len(inner)] = inner
    case.tree = volume.tree()
    volume.zero(volume.layout.copy_place(volume.layout.ncg - 1), 3 * SECTOR)
    lines = mend_last(case)
    if not any(line[4] == "other" for line in lines) or any(line[4] == "other" and line[3] == lines[0][3] for line in lines):
        raise Wrong("the image in the file isn't called other, or has the size of the volume")


def mend_last(case):
    """Writes the last copy anew where two checks by -b agree, also over a further damage, which is mended without -b."""
    case.volume.put_inode(case.volume.find("docs/letter"), mode=0)
    all_at_stake(case)
    case.report("BAD SUPER BLOCK")
    lines = [line.split() for line in case.run("copies").splitlines()]
    case.refuses("lost")
    case.refuses("further place mode", i=4, mode=100644)
    reports = [case.check_again("PARTIALLY ALLOCATED INODE", words=("-b", sector)) for sector in ("16", "32")]
    first, second = ([message["kind"] for message in report if message["kind"] not in COUNTS] for report in reports)
    if first != second:
        raise Wrong(f"the reports of -b 16 and of -b 32 differ: {first} and {second}")
    i = case.run("further last-copy check").first("PARTIALLY ALLOCATED INODE")["inode"]
    case.run("keep")
    case.run("further place mode check", i=i, mode="100644")
    return lines


@damage("the superblock and all of its copies became zeros")
def no_copy(case):
    volume = case.volume
    volume.zero(formats.SUPERBLOCK_AT, 8192)
    for c in range(volume.layout.ncg):
        volume.zero(volume.layout.copy_place(c), SECTOR * 3)
    all_at_stake(case)
    case.report("BAD SUPER BLOCK")
    case.refuses("further twin", order=volume.order, words=case.kind.words)
    found = case.run("further twin", order=volume.order, words=case.kind.words, size=case.kind.size)
    if "FREE BLK COUNT(S)" in found and found.count("? no") == 1:
        case.run("keep")
        if {message["kind"] for message in case.run("further last-copy check")} <= COUNTS:
            adopt(case)
    case.run("names")


@damage("the image was cut short")
def cut(case):
    volume = case.volume
    used = max(run.start + run.length for path, data in case.tree.items() if isinstance(data, bytes)
               for run in volume.runs(volume.find(path))) * volume.layout.fsize
    del volume.image[used:]
    volume.put_inode(volume.find("docs/letter"), mode=0)
    case.at_stake(*[path for path in case.tree if path not in sources.SHORT_LINKS])
    case.report("BAD SUPER BLOCK")
    if case.run("copies"):
        raise Wrong("a copy is found in an image that was cut short")
    case.run("further longer check")
    case.run("keep")
    found = case.check_again("PARTIALLY ALLOCATED INODE")
    case.run("further place mode check", i=found.first("PARTIALLY ALLOCATED INODE")["inode"], mode="100644")
    case.run("keep names all")


def end_of(volume, i):
    """The byte after what a file has: its inode, and its fragments."""
    return max([volume.layout.inode_place(i) + 128] + [(run.start + run.length) * volume.layout.fsize for run in volume.runs(i)])


@damage("the image was cut short, within its files")
def cut_files(case):
    volume = case.volume
    ends = {path: end_of(volume, volume.find(path)) for path, it in case.tree.items() if isinstance(it, bytes) and path not in sources.SHORT_LINKS}
    at = sorted(ends.values())[len(ends) // 2] // volume.layout.bsize * volume.layout.bsize
    del volume.image[at:]
    case.at_stake(*[path for path, end in ends.items() if end <= at])
    case.report("BAD SUPER BLOCK")
    said = re.findall(r"Error writing file: saved\.d//?(\S+)", case.complaints("all"))
    said += re.findall(r"^./- .*:\t(.*)", case.run("names"), re.M)
    gone = {path for path, end in ends.items() if end > at}
    if {path for path in said if path in ends} != gone:
        raise Wrong(f"{len(said)} files are said to be past the end, of {len(gone)}")
    case.run("further longer check")
    case.run("keep names all")


@damage("the image was cut short, and the superblock became zeros")
def cut_and_lost(case):
    volume = case.volume
    del volume.image[-8 * SECTOR:]
    volume.zero(formats.SUPERBLOCK_AT, 8192)
    all_at_stake(case)
    case.report("BAD SUPER BLOCK")
    if case.run("copies"):
        raise Wrong("a copy is found in an image that was cut short")
    case.run("further superblock keep", sector=case.run("look").split()[0])
    found = case.run("further longer check")
    if {message["kind"] for message in found} <= COUNTS:
        adopt(case)


GAP = 8


@damage("the begin of the image is missing")
def begin_missing(case):
    del case.volume.image[:GAP * SECTOR]
    all_at_stake(case)
    case.report("BAD SUPER BLOCK")
    if case.run("copies"):
        raise Wrong("a copy is found in an image without its begin")
    first, second = (int(line.split()[0]) for line in case.run("look").splitlines()[:2])
    if second - first != 16:
        raise Wrong(f"copies at {first} and {second}")
    case.run("further gap check", at=0, n=16 - first)


@damage("more of the begin of the image is missing than its superblock")
def begin_far(case):
    begin_without(case, 40)


@damage("as much of the begin of the image is missing as makes the first copy the superblock")
def begin_16(case):
    begin_without(case, 16)


def begin_without(case, count):
    """Takes the begin, and puts in as many sectors as the image is shorter than the volume, and a copy in the superblock's place."""
    volume = case.volume
    case.at_stake(*files_clear_of(case, 0, count * SECTOR))
    del volume.image[:count * SECTOR]
    case.report("BAD SUPER BLOCK")
    lines = [line.split() for line in case.run("look").splitlines()]
    if any(line[4] == "group" for line in lines):
        raise Wrong("a copy is called that of a group")
    n = int(lines[0][3]) * volume.layout.fsize // SECTOR - len(volume.image) // SECTOR
    case.run("further gap keep", at=0, n=n)
    case.run("further superblock check", sector=next(line.split()[0] for line in case.run("copies").splitlines() if " group " in line))
    adopt(case)


@damage("the copy has more sectors in its middle than the disk")
def surplus(case):
    at = case.volume.layout.copy_place(3) // SECTOR - 20
    case.volume.image[at * SECTOR:at * SECTOR] = bytes(GAP * SECTOR)
    all_at_stake(case)
    case.report("BAD SUPER BLOCK")
    lines = [line.split() for line in case.run("copies").splitlines()]
    k = next(k for k, line in enumerate(lines) if line[4] == "other")
    n = int(lines[k][0]) - 2 * int(lines[k - 1][0]) + int(lines[k - 2][0])
    case.run("further surplus check", at=at, n=n)


def files_clear_of(case, begin, end):
    """The paths that have neither their inode nor bytes between two bytes of the image."""
    volume, fsize = case.volume, case.volume.layout.fsize
    out = []
    for path in case.tree:
        i = volume.find(path)
        places = [(volume.layout.inode_place(i), 128)] + [(run.start * fsize, run.length * fsize) for run in volume.runs(i)]
        if all(at + length <= begin or at >= end for at, length in places):
            out.append(path)
    return out


def leave_out(case, at, padded=False):
    """Takes sectors out of the image, and finds by the copies how many and where they are missing: the step from one copy to the next, the
    first copy at a wrong place, and how many sectors that lies too early."""
    del case.volume.image[at * SECTOR:(at + GAP) * SECTOR]
    if padded:
        case.volume.image += bytes(GAP * SECTOR)
    case.report("BAD SUPER BLOCK")
    lines = [line.split() for line in case.run("copies" if padded else "look").splitlines()]
    k = next(k for k, line in enumerate(lines) if line[4] == "other")
    before, first = int(lines[k - 1][0]), int(lines[k][0])
    return first, before + int(lines[k - 1][0]) - int(lines[k - 2][0]) - first


@damage("sectors in the middle were left out, at a place that is known")
def gap(case):
    layout = case.volume.layout
    at = (layout.copy_place(3) - 20 * layout.fsize) // SECTOR
    case.at_stake(*files_clear_of(case, at * SECTOR, (at + GAP) * SECTOR))
    _, n = leave_out(case, at)
    case.run("further gap check", at=at, n=n)


@damage("sectors in the middle were left out, and the image has its length")
def gap_padded(case):
    layout = case.volume.layout
    at = (layout.copy_place(3) - 20 * layout.fsize) // SECTOR
    case.at_stake(*files_clear_of(case, at * SECTOR, (at + GAP) * SECTOR))
    _, n = leave_out(case, at, padded=True)
    case.run("further gap check", at=at, n=n)


@damage("sectors in the middle were left out, and nobody knows where")
def gap_somewhere(case):
    layout = case.volume.layout
    at = (layout.copy_place(3) - 20 * layout.fsize) // SECTOR
    case.at_stake(*files_clear_of(case, at * SECTOR, layout.copy_place(3)))
    first, n = leave_out(case, at)
    reports = {}
    for place in range(first, layout.copy_place(2) // SECTOR, -(first - layout.copy_place(2) // SECTOR) // 16):
        reports.setdefault(len(case.run("further gap check", at=place, n=n)), place)
    case.run("further gap keep all", at=reports[min(reports)], n=n)


@damage("the superblock's format of inodes is that of an older system")
def inode_format(case):
    case.volume.put(formats.SUPERBLOCK_AT + 1324, 4, -1)
    all_at_stake(case)
    case.report("BAD SUPER BLOCK")
    mend_from(case, case.run("copies").split()[0])


@damage("fields of the superblock that a kernel computes with are wrong")
def fields(case):
    right = bytes(case.volume.image)
    for byte, width, number in ((72, 4, 7), (84, 4, 12), (96, 4, 0), (1008, 8, -3), (1032, 8, 99)):
        case.volume.put(formats.SUPERBLOCK_AT + byte, width, number)
    all_at_stake(case)
    case.report()
    case.run("further fields check")
    with open(f"{case.place}/further.img", "rb") as it:
        if it.read() != right:
            raise Wrong("the fields aren't as they were")


@damage("there are traces of a UFS2 that was there before")
def other_before(case):
    magic = 262144 + 1372
    clear = files_clear_of(case, magic, magic + 4)
    below = tuple(path + "/" for path in case.tree if path not in clear)
    case.volume.put(magic, 4, 0x19540119)
    case.at_stake(*[path for path in clear if path not in sources.SHORT_LINKS and not path.startswith(below)], name=False)
    case.report()
    if "Invalid magic value" not in case.complaints("all"):
        raise Wrong("Sleuthkit isn't led astray")
    case.run("further older-magic keep all")
    case.refuses("further older-magic")


@damage("the superblock's own size is wrong in all copies")
def own_size(case):
    volume = case.volume
    for c in (None, *range(volume.layout.ncg)):
        volume.put_superblock("sbsize", volume.layout.fsize + 1376, copy=c)
    all_at_stake(case)
    case.report()
    case.run("further fields keep further last-copy check")


@damage("of fragments of 16,384 bytes the superblock can't have the size that a kernel wants")
def large_fragments(case):
    if case.volume.layout.fsize != 16384:
        raise NotHere
    all_at_stake(case)
    case.report()
    case.run("further fields check")


@damage("the image is a partition of a whole disk")
def partition(case):
    cut_out(case, lambda first, second: first - 16)


@damage("the image is a partition of a whole disk, whose superblock became zeros")
def partition_lost(case):
    case.volume.zero(formats.SUPERBLOCK_AT, 8192)
    cut_out(case, lambda first, second: first - 32)


@damage("the image is the second partition of a whole disk, right after another one")
def second_partition(case):
    case.in_one_order()
    right = bytes(case.volume.image)
    all_at_stake(case)
    case.volume.image[:] = bytes(START * SECTOR) + right + right
    case.report("BAD SUPER BLOCK")
    lines = [line.split() for line in case.run("copies").splitlines()]
    sectors = int(lines[0][3]) * int(lines[0][2].split("/")[1]) // SECTOR
    first, second = [int(line[0]) for line in lines if int(line[0]) >= int(lines[0][0]) - 16 + sectors][:2]
    if second - first != 16:
        raise Wrong(f"the second partition's first copies are at {first} and {second}")
    case.run("partition", start=first - 16, sectors=sectors)
    if case.bytes_of("part.img") != right:
        raise Wrong("what was cut out isn't the second partition")
    os.rename(f"{case.place}/part.img", f"{case.place}/copy.img")
    case.run("further check")


START = 2048


def cut_out(case, start_of):
    """Cuts a partition out of a disk that has another one, mends it, and writes it back. Its begin follows from the first two copies."""
    volume = case.volume
    all_at_stake(case)
    volume.put_inode(volume.find("docs/letter"), mode=0)
    length = len(volume.image)
    disk = bytes(START * SECTOR) + volume.image + bytes(range(256)) * 512
    volume.image[:] = disk
    case.report("BAD SUPER BLOCK")
    lines = [line.split() for line in case.run("copies").splitlines()]
    first, second = (int(line[0]) for line in lines[:2])
    if (second - first == 16) != (first - 16 == START):
        raise Wrong(f"sectors {first} and {second}, and the partition begins at {START}")
    sectors = int(lines[0][3]) * int(lines[0][2].split("/")[1]) // SECTOR
    case.run("partition", start=start_of(first, second), sectors=sectors)
    # The disk stays, and what was cut out is the copy.
    os.rename(f"{case.place}/copy.img", f"{case.place}/disk.img")
    os.rename(f"{case.place}/part.img", f"{case.place}/copy.img")
    found = case.check_again()
    if found.status == 8:
        case.run("further superblock check", sector=32)
        case.run("keep")
    found = case.check_again("PARTIALLY ALLOCATED INODE")
    case.run("further place mode check", i=found.first("PARTIALLY ALLOCATED INODE")["inode"], mode="100644")
    case.run("keep")
    write_back(case, disk, length, sectors)


def write_back(case, disk, length, sectors):
    """Writes the copy back, and compares the whole disk: nothing but the partition may differ, and a disk that isn't there isn't made."""
    case.refuses("back", disk="nothing.img", start=START, sectors=sectors)
    os.rename(f"{case.place}/disk.img", f"{case.place}/a disk.img")
    case.refuses("back", disk="a disk.img", start=START)
    case.run("back", disk="a disk.img", start=START, sectors=sectors)
    begin = START * SECTOR
    if case.bytes_of("a disk.img") != disk[:begin] + case.bytes_of("copy.img") + disk[begin + length:]:
        raise Wrong("something beside the partition was written")


@damage("each two bytes of the image were exchanged")
def swapped(case):
    image = case.volume.image
    image[::2], image[1::2] = image[1::2], image[::2]
    all_at_stake(case)
    case.report("BAD SUPER BLOCK")
    if case.run("further swapped check").status == 0:
        case.run("keep names")


@damage("each four bytes of the image were exchanged")
def reversed_words(case):
    image = case.volume.image
    image[::4], image[1::4], image[2::4], image[3::4] = image[3::4], image[2::4], image[1::4], image[::4]
    all_at_stake(case)
    case.report("ROOT INODE UNALLOCATED", "PARTIALLY ALLOCATED INODE")
    case.run("further reversed check")


@damage("the file system is of a system before 4.4BSD")
def older(case):
    """Its entries have a length of the name of two bytes, and no type: read are those of the other order alone."""
    volume = case.volume
    if volume.order == "little":
        raise NotHere
    folders = [2] + [volume.find(path) for path, it in case.tree.items() if it == "directory"]
    for place in [place for i in folders for place, *_ in volume.entries(i)]:
        volume.put(place + 6, 1, 0)
    case.at_stake(*[path for path in case.tree if path not in sources.SHORT_LINKS])
    volume.put(formats.SUPERBLOCK_AT + 1324, 4, -1)
    for c in range(volume.layout.ncg):
        volume.put(volume.layout.copy_place(c) + 1324, 4, -1)
    case.report("BAD SUPER BLOCK")
    if case.run("copies"):
        raise Wrong("a copy is accepted")
    case.run("names all")


@damage("the image begins within a sector of a larger file")
def within_sector(case):
    right = bytes(case.volume.image)
    all_at_stake(case)
    case.volume.image[:] = b"a header " * 11 + right
    case.report("BAD SUPER BLOCK")
    case.run("further within check")
    if case.bytes_of("further.img") != right:
        raise Wrong("what was cut out isn't the volume")


@damage("the image is a partition of a whole disk, and its superblock and first copies were overwritten")
def partition_groups_lost(case):
    volume = case.volume
    right = bytes(volume.image)
    count = 2
    lost_bytes = volume.layout.copy_place(count)
    case.volume.image[:] = bytes(START * SECTOR) + b"text" * (lost_bytes // 4) + right[lost_bytes:] + bytes(START * SECTOR)
    case.report("BAD SUPER BLOCK")
    lines = [line.split() for line in case.run("copies").splitlines()]
    first, second = int(lines[0][0]), int(lines[1][0])
    sectors = int(lines[0][3]) * int(lines[0][2].split("/")[1]) // SECTOR
    missing = -(-sectors // (second - first)) - len(lines)
    if missing != count or first - 32 - missing * (second - first) != START:
        raise Wrong(f"{missing} lines are missing")


@damage("the superblock's limit for the text of a link in its inode became 0")
def link_limit(case):
    volume = case.volume
    volume.put_superblock("maxsymlinklen", 0)
    for c in range(volume.layout.ncg):
        volume.put_superblock("maxsymlinklen", 0, copy=c)
    all_at_stake(case)
    if case.report("UNKNOWN FILE TYPE", "INCORRECT BLOCK COUNT") and case.run("further link-limit check").status:
        raise Wrong("it isn't consistent")
