"""Which superblocks are accepted, and the first fault of one that isn't; docs/RULES.md has the same rules."""

from . import formats
from .reading import cover, order_of, signed_at


def superblock_place(sector):
    return formats.SUPERBLOCK_AT if sector is None else sector * formats.SECTOR


def values_at(image, place, order):
    values = {
        name: signed_at(image, place + at, width, order) for name, (at, width) in formats.SUPERBLOCK.items()}
    values["cgmask"] %= 1 << 32
    return values


def is_power(n):
    return n > 0 and n & (n - 1) == 0


def start(s, c):
    return s["fpg"] * c + s["cgoffset"] * (c & ~s["cgmask"])


def each_group(s, holds):
    return s["ncg"] < 1 << 20 and all(holds(c) for c in range(s["ncg"]))


INODE_FORMAT, NCG, CPG = "INODE FORMAT NOT SUPPORTED", "NCG OUT OF RANGE", "CPG OUT OF RANGE"
NCYL, LARGE = "NCYL DOES NOT JIVE WITH NCG*CPG", "SIZE PREPOSTEROUSLY LARGE"
SHAPE, SHORT = "GEOMETRY OUT OF RANGE", "SIZE LARGER THAN IMAGE"
DISAGREE = "VALUES DISAGREE WITH LAST ALTERNATE"

# Each condition of an accepted layout, in the order in which they are looked at: its name, the fault where it doesn't
# hold, and the condition of the superblock's numbers.
CONDITIONS = [
    ("inode format", INODE_FORMAT, lambda s: s["inodefmt"] == 2),
    ("a group", NCG, lambda s: s["ncg"] >= 1),
    ("a cylinder", CPG, lambda s: s["cpg"] >= 1),
    ("few cylinders", NCYL, lambda s: s["ncyl"] <= s["ncg"] * s["cpg"]),
    ("many cylinders", NCYL, lambda s: (s["ncg"] - 1) * s["cpg"] < s["ncyl"]),
    ("sbsize large", LARGE, lambda s: s["sbsize"] <= 8192),
    ("bsize", SHAPE, lambda s: is_power(s["bsize"]) and 4096 <= s["bsize"] <= 65536),
    ("fsize", SHAPE, lambda s: is_power(s["fsize"]) and s["fsize"] >= 512),
    ("frag", SHAPE, lambda s: s["frag"] in (1, 2, 4, 8)),
    ("bsize by frag", SHAPE, lambda s: s["bsize"] == s["frag"] * s["fsize"]),
    ("nindir", SHAPE, lambda s: s["nindir"] == s["bsize"] // 4),
    ("inopb", SHAPE, lambda s: s["inopb"] == s["bsize"] // 128),
    ("ipg positive", SHAPE, lambda s: s["ipg"] > 0),
    ("ipg by inopb", SHAPE, lambda s: s["inopb"] > 0 and s["ipg"] % s["inopb"] == 0),
    ("fpg positive", SHAPE, lambda s: s["fpg"] > 0),
    ("fpg by frag", SHAPE, lambda s: s["frag"] > 0 and s["fpg"] % s["frag"] == 0),
    ("dsize", SHAPE, lambda s: s["dsize"] >= 1),
    ("maxsymlinklen", SHAPE, lambda s: 0 <= s["maxsymlinklen"] <= 60),
    ("postblformat", SHAPE, lambda s: s["postblformat"] == 1),
    ("sbsize small", SHAPE, lambda s: s["sbsize"] >= 1376),
    ("size in the last group", SHAPE, lambda s: (s["ncg"] - 1) * s["fpg"] < s["size"]),
    ("size within the groups", SHAPE, lambda s: s["size"] <= s["ncg"] * s["fpg"]),
    ("inodes", SHAPE, lambda s: s["ncg"] * s["ipg"] < 2 ** 31),
    ("sblkno", SHAPE, lambda s: s["sblkno"] > 0),
    ("cblkno", SHAPE, lambda s: s["fsize"] > 0 and s["sblkno"] + cover(s["sbsize"], s["fsize"]) <= s["cblkno"]),
    ("iblkno", SHAPE, lambda s: s["fsize"] > 0 and s["cblkno"] + cover(s["cgsize"], s["fsize"]) <= s["iblkno"]),
    ("dblkno", SHAPE, lambda s: s["fsize"] > 0 and s["iblkno"] + s["ipg"] * 128 // s["fsize"] <= s["dblkno"]),
    ("cgsize small", SHAPE, lambda s: s["cgsize"] >= 168),
    ("cgsize large", SHAPE, lambda s: s["cgsize"] <= s["bsize"]),
    ("groups begin", SHAPE, lambda s: each_group(s, lambda c: start(s, c) >= s["fpg"] * c)),
    ("groups end in themselves", SHAPE,
     lambda s: each_group(s, lambda c: start(s, c) + s["dblkno"] <= s["fpg"] * (c + 1))),
    ("groups end in the volume", SHAPE, lambda s: each_group(s, lambda c: start(s, c) + s["dblkno"] <= s["size"])),
    ("csaddr", SHAPE, lambda s: s["csaddr"] == s["dblkno"]),
    ("cssize", SHAPE, lambda s: s["cssize"] >= 16 * s["ncg"]),
    ("summaries in the group", SHAPE,
     lambda s: s["fsize"] > 0 and s["csaddr"] + cover(s["cssize"], s["fsize"]) <= s["fpg"]),
    ("summaries in the volume", SHAPE,
     lambda s: s["fsize"] > 0 and s["csaddr"] + cover(s["cssize"], s["fsize"]) <= s["size"]),
]

# What holds wherever the others do: an image in which one of these alone fails can't be.
IMPLIED = {
    "fsize": "bsize = frag*fsize with both in their lists makes fsize a power of two, at least 512",
    "fpg positive": "size <= ncg*fpg, and the first group's parts end within size",
    "size in the last group": "the last group's parts end within size",
}


def fault(image, sector, without=None):
    """The first fault of a superblock, or none. `without` names a condition, or by `copy's FIELD` a number that the copy
    must agree in, which is left out."""
    place = superblock_place(sector)
    if place + formats.SUPERBLOCK_BYTES > len(image):
        return "CAN NOT READ"
    order = order_of(image, place)
    if order is None:
        return "MAGIC NUMBER WRONG"
    s = values_at(image, place, order)
    for name, text, condition in CONDITIONS:
        if name != without and not condition(s):
            return text
    if s["size"] * s["fsize"] > len(image):
        return SHORT
    if sector is not None:
        return None
    copy_at = (start(s, s["ncg"] - 1) + s["sblkno"]) * s["fsize"]
    copy = values_at(image, copy_at, order)
    if any(s[name] != copy[name] for name in formats.COMPARED if f"copy's {name}" != without):
        return DISAGREE
    return None


def is_readable(image, sector):
    """Whether all conditions on the superblock alone hold, and the volume lies in the image."""
    return fault(image, sector) in (None, DISAGREE)
