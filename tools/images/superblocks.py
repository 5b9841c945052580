"""Worked images of superblocks that are refused: one for each condition of a layout, violated alone, and one for each
number that the last copy must agree in. They hold the two superblocks and little else, 9,568 bytes each."""

from . import formats
from .worked import image

BYTES = formats.SUPERBLOCK_AT + formats.SUPERBLOCK_BYTES


def cut(v, **values):
    """The clean volume's primary with other numbers, and nothing after it. The image is shorter than the volume, which
    is looked at after the conditions."""
    v.superblock(**values)
    del v.image[BYTES:]


TWO_GROUPS = {"size": 250, "dsize": 201, "ncg": 2, "ncyl": 2, "cgmask": 0}
LARGE_BLOCKS = {"bsize": 65536, "fsize": 65536, "frag": 1, "nindir": 16384, "inopb": 512, "sblkno": 1, "cblkno": 2,
                "iblkno": 3}

# Each condition of a layout: what its image is called, the numbers that violate it alone, and how.
VIOLATED = {
    "inode_format_1": ({"inodefmt": 1}, "the inode format is 1"),
    "no_group": ({"ncg": 0}, "no group"),
    "no_cylinder": ({"cpg": 0}, "no cylinder in a group"),
    "cylinders_many": ({"ncyl": 2}, "more cylinders than the groups hold"),
    "cylinders_few": ({"ncyl": 0}, "the cylinders leave the last group empty"),
    "superblock_large": ({"sbsize": 8193, "sblkno": 15}, "sbsize is over 8,192"),
    "block_small": ({"bsize": 2048, "fsize": 512, "nindir": 512, "inopb": 16, "iblkno": 26, "dblkno": 40,
                     "csaddr": 40}, "blocks of 2,048 bytes"),
    "block_large": ({"bsize": 131072, "fsize": 16384, "frag": 8, "nindir": 32768, "inopb": 1024, "ipg": 1024,
                     "dblkno": 36, "csaddr": 36}, "blocks of 131,072 bytes"),
    "frag_16": ({"bsize": 8192, "fsize": 512, "frag": 16, "nindir": 2048, "inopb": 64, "ipg": 64, "dblkno": 44,
                 "csaddr": 44}, "sixteen fragments in a block"),
    "frag_wrong": ({"frag": 2}, "bsize is not frag*fsize"),
    "nindir_wrong": ({"nindir": 1023}, "nindir is not bsize/4"),
    "inopb_wrong": ({"inopb": 16}, "inopb is not bsize/128"),
    "ipg_zero": ({"ipg": 0}, "no inode in a group"),
    "ipg_odd": ({"ipg": 16}, "ipg is no multiple of inopb"),
    "fpg_odd": ({"fpg": 130}, "fpg is no multiple of frag"),
    "dsize_zero": ({"dsize": 0}, "no data fragment"),
    "short_links_long": ({"maxsymlinklen": 61}, "maxsymlinklen is over 60"),
    "short_links_negative": ({"maxsymlinklen": -1}, "maxsymlinklen is negative"),
    "postblformat_0": ({"postblformat": 0}, "the format of the tables is 0"),
    "superblock_small": ({"sbsize": 1375}, "sbsize is less than what is read"),
    "size_past_groups": ({"size": 132}, "the volume is larger than its groups"),
    "inodes_many": ({**LARGE_BLOCKS, "cgsize": 1024, "ipg": 1 << 19, "dblkno": 1027, "csaddr": 1027, "fpg": 2048,
                     "ncg": 4096, "ncyl": 4096, "size": 4096 * 2048, "cssize": 65536}, "2^31 inodes"),
    "sblkno_zero": ({"sblkno": 0}, "the copy of the superblock at the group's first fragment"),
    "cblkno_low": ({"sblkno": 23}, "the superblock's copy reaches into the group block"),
    "iblkno_low": ({"cblkno": 28}, "the group block reaches into the inodes"),
    "dblkno_low": ({"iblkno": 29}, "the inodes reach into the data"),
    "cgsize_small": ({"cgsize": 167}, "the group block is smaller than its numbers"),
    "cgsize_large": ({"cgsize": 4097, "iblkno": 29, "dblkno": 33, "csaddr": 33}, "the group block is over a block"),
    "group_before_base": ({**TWO_GROUPS, "cgoffset": -1}, "the second group's parts begin before its base"),
    "group_past_end": ({**TWO_GROUPS, "ncg": 3, "ncyl": 3, "size": 384, "cgoffset": 97, "cgmask": 0xFFFFFFFE},
                       "the second group's parts end in the third"),
    "group_past_volume": ({**TWO_GROUPS, "cgoffset": 91}, "the last group's parts end past the volume"),
    "csaddr_wrong": ({"csaddr": 33}, "the summary area is not at the first group's data"),
    "summaries_short": ({"cssize": 15}, "the summary area has no room for each group"),
    "summaries_past_group": ({**TWO_GROUPS, "cssize": 97 * 1024}, "the summary area ends in the second group"),
    "summaries_past_volume": ({"fpg": 256, "cssize": 97 * 1024}, "the summary area ends past the volume"),
}

for _name, (_values, _shows) in VIOLATED.items():
    image(f"refused_{_name}", _shows)(lambda v, values=_values: cut(v, **values))


def small(v):
    """A volume of sixteen fragments of 512 bytes, whose copy of the superblock is at byte 512."""
    v.image[:] = bytes(BYTES)
    v.superblock(
        sblkno=1, cblkno=4, iblkno=5, dblkno=13, cgoffset=0, cgmask=0xFFFFFFFF, size=16, dsize=2, ncg=1, bsize=4096,
        fsize=512, frag=8, minfree=10, sbsize=1376, nindir=1024, inopb=32, optim=0, csaddr=13, cssize=16, cgsize=256,
        ncyl=1, cpg=1, ipg=32, fpg=16, maxsymlinklen=60, inodefmt=2, postblformat=1, magic=formats.FS_MAGIC,
        mount=b"/mnt")
    v.copy_superblock(to=512)


def differs(v, name):
    """The small volume, whose copy differs in one number."""
    small(v)
    at, width = formats.SUPERBLOCK[name]
    value = int.from_bytes(v.image[512 + at:512 + at + width], v.order)
    v.number(512 + at, width, value ^ 64)


for _name in formats.COMPARED:
    image(f"copy_differs_{_name}", f"{_name} differs in the copy alone")(lambda v, name=_name: differs(v, name))


@image("copy_differs_minfree", "what isn't compared differs in the copy: minfree and the totals. Inode 2 is all zero")
def _(v):
    small(v)
    v.superblock(at=512, minfree=11, optim=1, ndir=7, maxsymlinklen=59, mount=b"/other")
