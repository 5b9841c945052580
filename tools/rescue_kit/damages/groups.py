"""Damaged groups, maps and counts: no file is touched."""
from images import formats

from .. import sources
from ..case import Wrong
from .all import damage


def all_at_stake(case):
    """All but the short links, which the recipe `all` leaves out."""
    case.at_stake(*[path for path in case.tree if path not in sources.SHORT_LINKS])


def files_at_stake(case):
    """All files, which the recipe `every` brings back."""
    case.at_stake(*[path for path, it in case.tree.items() if isinstance(it, bytes) and path not in sources.SHORT_LINKS])


@damage("a cylinder group's magic is lost")
def group_magic(case):
    case.volume.put(case.volume.layout.group_place(3) + formats.GROUP["magic"][0], 4, 0)
    all_at_stake(case)
    case.report("CG: BAD MAGIC NUMBER")
    case.run("names all attributes")
    case.run("every")
    attributes = case.bytes_of("saved.list").decode()
    missing = [path for path, text in sources.SHORT_LINKS.items() if f"/{path} -> {text}|" not in attributes]
    if missing or "|/pipe|" not in attributes:
        raise Wrong(f"no text of the link {missing} is in saved.list, or no FIFO")


@damage("a cylinder group's block became zeros: its inode map calls all inodes free")
def group_zeroed(case):
    case.volume.zero(case.volume.layout.group_place(0), case.volume.layout.bsize)
    all_at_stake(case)
    case.report("CG: BAD MAGIC NUMBER")
    case.run("names")
    case.run("every")
    numbers = case.run("inodes").split()
    case.run("bytes", i=case.run("number-of", path="docs/letter").strip())
    if len(numbers) != len(set(numbers)) or str(case.volume.find("docs/letter")) not in numbers:
        raise Wrong(f"the recipe inodes has {len(numbers)} inodes")


@damage("a cylinder group's block became zeros, and a file was mended in a further copy that isn't kept yet")
def group_and_further(case):
    volume = case.volume
    volume.zero(volume.layout.group_place(0), volume.layout.bsize)
    volume.put_inode(volume.find("docs/letter"), mode=0)
    files_at_stake(case)
    i = case.report("CG: BAD MAGIC NUMBER").first("PARTIALLY ALLOCATED INODE")["inode"]
    case.run("further place mode", i=i, mode="100644")
    further = case.bytes_of("further.img")
    case.on_full_disk("every")
    case.run("every")
    if case.bytes_of("further.img") != further:
        raise Wrong("the further copy isn't what it was")
    case.run("keep every")


@damage("the disk is full when the list of attributes is made")
def attributes_full(case):
    case.at_stake("docs/letter")
    case.report()
    if "No space" not in case.complaints("attributes", first="mkdir -p full && cd full && cp ../rescue.sh . && ln -s ../copy.img . && ln -s /dev/full saved.list\n"):
        raise Wrong("a list that can't be written isn't said to be one")
    case.run("names all")


@damage("the disk is full when small files are copied")
def files_full(case):
    files_at_stake(case)
    case.report()
    if "the disk is full" not in case.complaints("all", first='mktemp() { ln -s /dev/full saved.d/full && echo saved.d/full; }\n'):
        raise Wrong("nothing says that the disk is full")
    case.run("all")


@damage("a cylinder group's block and a file's inode became zeros")
def group_and_inode_zeroed(case):
    volume, path = case.volume, "docs/report"
    c = volume.blocks(volume.find(path))[0] // volume.layout.fpg
    volume.zero(volume.layout.group_place(c), volume.layout.bsize)
    volume.zero(volume.layout.inode_place(volume.find(path)), 128)
    case.at_stake(path)
    case.report("CG: BAD MAGIC NUMBER")
    case.run("every")
    case.run("rest", **{"from": "every.img"})


@damage("the blocks of two cylinder groups were overwritten by text")
def groups_overwritten(case):
    volume = case.volume
    text = (b"All work and no play makes Jack a dull boy. " * volume.layout.bsize)[:volume.layout.bsize]
    for c in (0, 2):
        volume.image[volume.layout.group_place(c):volume.layout.group_place(c) + volume.layout.bsize] = text
    files_at_stake(case)
    case.report("CG: BAD MAGIC NUMBER")
    case.run("every")


@damage("a cylinder group's block became zeros, and fls is killed within a line of its list")
def list_killed(case):
    case.volume.zero(case.volume.layout.group_place(0), case.volume.layout.bsize)
    files_at_stake(case)
    case.report("CG: BAD MAGIC NUMBER")
    for recipe in ("names", "all"):
        if "isn't whole" not in case.complaints(recipe, first='fls() { command fls "$@" | head -c 60; return 1; }\n'):
            raise Wrong(f"the recipe {recipe} doesn't say that a list isn't whole")
    case.run("every")


@damage("the blocks of two cylinder groups changed places")
def groups_exchanged(case):
    layout, image = case.volume.layout, case.volume.image
    a, b = (slice(layout.group_place(c), layout.group_place(c) + layout.bsize) for c in (0, 3))
    image[a], image[b] = image[b], image[a]
    files_at_stake(case)
    case.report("SUMMARY INFORMATION BAD", "BLK(S) MISSING IN BIT MAPS")
    case.run("every")


@damage("a byte of an inode map became zeros")
def inode_map_byte(case):
    volume = case.volume
    place = volume.layout.group_place(0)
    volume.zero(place + volume.number(place + formats.GROUP["iusedoff"][0], 4), 1)
    files_at_stake(case)
    case.report("BLK(S) MISSING IN BIT MAPS")
    case.run("every")


@damage("a bit of a map of fragments was cleared")
def map_bit(case):
    volume = case.volume
    place, bit = volume.mark(volume.blocks(volume.find("docs/letter"))[0])
    volume.image[place] ^= 1 << bit
    all_at_stake(case)
    case.report("BLK(S) MISSING IN BIT MAPS")
    case.run("names all")


@damage("a link count is wrong")
def links(case):
    case.volume.put_inode(case.volume.find("docs/letter"), nlink=3)
    case.at_stake("docs/letter")
    found = case.report("LINK COUNT").first("LINK COUNT")
    case.run("further place links check", i=found["inode"], links=found["right_count"])
