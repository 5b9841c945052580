"""Volumes with one number changed, or an entry added, and whether what a reader makes of one is explained by what was changed."""
import re

from images import formats

SUPERBLOCK_PLACES = {formats.SUPERBLOCK_AT + 4 * k for k in range(formats.SUPERBLOCK_BYTES // 4)}
KINDS = ("superblock", "superblock", "field", "group", "inode", "directory", "entry", "anywhere")
WAYS = ("one more", "one bit", "zero", "all ones", "random")
ENTRY_BYTES = 8
WHITEOUT = (1, 14)
# What may be read otherwise, where it is what was changed; the names of fields are those of docs/RULES.md.
NOTHING, INODE, BYTES, NAME, FREE_ENTRY = "nothing", "an inode", "the bytes of a file", "a name", "a free entry"


class Base:
    """A volume that makefs made, with what is needed to say what lies at a byte."""

    def __init__(self, volume, read):
        self.volume, self.read = volume, read
        with open(volume.image, "rb") as file:
            self.bytes = file.read()
        self.order = "little" if volume.order == "le" else "big"
        number = lambda name: self.number(formats.SUPERBLOCK_AT + formats.SUPERBLOCK[name][0])
        names = ("fsize", "ipg", "fpg", "ncg", "iblkno", "cblkno", "cgsize", "cgoffset", "cgmask")
        self.layout = {name: number(name) for name in names}
        # Each directory with the (place, length) of its bytes; no reader lists the root itself, "" here, which has one block.
        self.directories = {path: value["places"] for path, value in read.items() if value["type"] == "d" and value["places"]}
        self.directories[""] = self.root_places()

    def number(self, place, width=4):
        return int.from_bytes(self.bytes[place:place + width], self.order)

    def start(self, group):
        held = self.layout
        return held["fpg"] * group + held["cgoffset"] * (group & ~held["cgmask"] & 0xFFFFFFFF)

    def inode_place(self, inode):
        held = self.layout
        group, index = divmod(inode, held["ipg"])
        return (self.start(group) + held["iblkno"]) * held["fsize"] + formats.INODE_BYTES * index

    def root_places(self):
        inode = self.inode_place(formats.ROOT_INODE)
        sizes = self.number(inode + formats.INODE["size"][0], 8)
        return [(self.number(inode + formats.INODE["direct0"][0]) * self.layout["fsize"], sizes)]

    def group_place(self, group):
        return (self.start(group) + self.layout["cblkno"]) * self.layout["fsize"]

    def last_entry(self, chunk):
        """The last entry of a chunk of names: its place, how many bytes it needs, and how many it has."""
        place = chunk
        while place + self.number(place + 4, 2) < chunk + formats.CHUNK_BYTES:
            place += self.number(place + 4, 2)
        return place, ENTRY_BYTES + (self.bytes[place + 7] + 4 & ~3), self.number(place + 4, 2)


class Mutant:
    """A base with some bytes changed: where, and to what; and whether that is a free entry."""

    def __init__(self, base, place, value, about, is_free_entry=False):
        self.base, self.place, self.value, self.about, self.is_free_entry = base, place, value, about, is_free_entry

    def write(self, path):
        held = bytearray(self.base.bytes)
        held[self.place:self.place + len(self.value)] = self.value
        with open(path, "wb") as file:
            file.write(held)

    def covers(self, place, length):
        return place < self.place + len(self.value) and self.place < place + length


def draw(base, numbers, listed):
    """A mutant: a field of the superblock, one of those that are listed, a field of a group block, of an inode, a word of a
    directory, or a word anywhere; or an entry behind the last one of a chunk."""
    kind = numbers.choice(KINDS)
    if kind == "entry":
        return draw_entry(base, numbers)
    if kind == "superblock":
        place = numbers.choice(sorted(SUPERBLOCK_PLACES))
    elif kind == "field":
        place = formats.SUPERBLOCK_AT + numbers.choice(sorted(key for key in listed if key != FREE_ENTRY))
    elif kind == "group":
        place = base.group_place(numbers.randrange(base.layout["ncg"])) + 4 * numbers.randrange(base.layout["cgsize"] // 4)
    elif kind == "inode":
        place = base.inode_place(numbers.choice(list(base.read.values()))["inode"]) + 4 * numbers.randrange(formats.INODE_BYTES // 4)
    elif kind == "directory":
        start, length = numbers.choice(numbers.choice(list(base.directories.values())))
        place = start + 4 * numbers.randrange(max(1, length // 4))
    else:
        place = 4 * numbers.randrange(len(base.bytes) // 4)
    old = base.number(place)
    way = numbers.choice(WAYS)
    new = {"one more": old + 1, "one bit": old ^ 1 << numbers.randrange(32), "zero": 0, "all ones": 0xFFFFFFFF,
           "random": numbers.getrandbits(32)}[way] & 0xFFFFFFFF
    return Mutant(base, place, new.to_bytes(4, base.order), f"{kind}, byte {place}: {way}")


def draw_entry(base, numbers):
    """A mutant with a further entry in the room that the last one of a chunk leaves: a free one of 8 bytes, a free one whose
    length of name passes its record, or a whiteout."""
    while True:
        start, length = numbers.choice(numbers.choice(list(base.directories.values())))
        place, needed, had = base.last_entry(start + formats.CHUNK_BYTES * numbers.randrange(length // formats.CHUNK_BYTES))
        if had - needed >= ENTRY_BYTES + 4:
            break
    way = numbers.choice(("free, 8 bytes", "free, a long name", "whiteout"))
    record = ENTRY_BYTES if way == "free, 8 bytes" else had - needed
    inode, kind = WHITEOUT if way == "whiteout" else (0, 0)
    name = b"w\0\0\0" if way == "whiteout" else b""
    count = {"whiteout": 1, "free, a long name": 255}.get(way, 0)
    value = bytearray(base.bytes[place:place + had - record])
    value[4:6] = (had - record).to_bytes(2, base.order)
    value += inode.to_bytes(4, base.order) + record.to_bytes(2, base.order) + bytes((kind, count)) + name
    return Mutant(base, place, bytes(value), f"entry, byte {place + had - record}: {way}", way != "whiteout")


def listed_fields(rules):
    """What docs/RULES.md says that a kernel computes with and no rule looks at: the fields of the superblock by the place of their
    word, and a free entry by itself."""
    with open(rules) as file:
        text = file.read()
    section = text[text.index("## What status 0 doesn't say"):]
    section = section[:section.index("\n## ", 4)]
    found = {}
    for line in section.splitlines():
        cell = line.split("|")[1] if line.startswith("|") else ""
        if cell.startswith(" superblock"):
            for name, place in re.findall(r"`(\w+)` \((\d+)\)", cell):
                found[int(place) // 4 * 4] = name
            for first, last in re.findall(r"\((\d+) to (\d+)\)", cell):
                found.update({place: "a 64-bit total" for place in range(int(first), int(last), 4)})
        elif FREE_ENTRY in cell:
            found[FREE_ENTRY] = FREE_ENTRY
    return found


def without_places(value):
    return value and {name: part for name, part in value.items() if name != "places"}


def with_those_above(path):
    """A path, and each directory above it, the root's "" left out."""
    return [path] + [path.rsplit("/", count)[0] for count in range(1, path.count("/") + 1)]


def is_of_inode(mutant, path, before, found):
    """Whether what was changed is the inode of this path, or of a directory above it."""
    values = [read[name] for name in with_those_above(path) for read in (before, found) if "inode" in (read.get(name) or {})]
    return any(mutant.covers(mutant.base.inode_place(value["inode"]), formats.INODE_BYTES) for value in values)


def is_of_file(mutant, path):
    """Whether what was changed is the bytes of this file."""
    held = mutant.base.read.get(path)
    return held is not None and held["type"] != "d" and any(mutant.covers(*place) for place in held["places"])


def directory_of(mutant):
    """The directory that has what was changed."""
    return next((path for path, places in mutant.base.directories.items() if any(mutant.covers(*place) for place in places)), None)


def is_one_name(top, paths, before, found):
    """Whether one name of a directory was read as another one, or there is one more: the only paths that differ are below these."""
    gone, come = set(), set()
    for path in paths:
        if path in before and path in found or not path.startswith(top and top + "/"):
            return False
        child = path[len(top and top + "/"):].split("/")[0]
        (gone if path in before else come).add(child)
    return len(gone) <= 1 and len(come) <= 1


def reason(mutant, paths, before, found, listed):
    """Why those paths are read otherwise: what was changed, or a field that is listed; None where it is neither."""
    if not paths:
        return NOTHING
    offset = mutant.place - formats.SUPERBLOCK_AT
    if 0 <= offset < formats.SUPERBLOCK_BYTES:
        return listed.get(offset // 4 * 4)
    if all(is_of_inode(mutant, path, before, found) for path in paths):
        return INODE
    if all(is_of_file(mutant, path) for path in paths):
        return BYTES
    top = directory_of(mutant)
    if top is not None and is_one_name(top, paths, before, found):
        return NAME
    if mutant.is_free_entry and all(top in ("", *with_those_above(path)) for path in paths):
        return listed.get(FREE_ENTRY)
    return None


def explained(mutant, found, listed, counts, before=None):
    """None where nothing is read otherwise, or what is read otherwise is what was changed, or a field that is listed, which is
    counted; else what is read otherwise."""
    before = mutant.base.read if before is None else before
    paths = [path for path in sorted(set(before) | set(found))
             if without_places(before.get(path)) != without_places(found.get(path))]
    why = reason(mutant, paths, before, found, listed)
    if why is None:
        return f"{len(paths)} names are read otherwise, as {paths[0]}"
    counts[why] += 1
    return None
