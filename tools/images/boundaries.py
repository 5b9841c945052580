"""Worked images of superblocks that are accepted: each has a number at the greatest or the least value that the
conditions of a layout leave it, or a size that no other image has.

Those of `ACCEPTED` hold the superblocks and little else: their root is all zero, so the run stops after it. Those of
`SHAPED` meet each condition too, but describe volumes that no small image holds, which is looked at last.
"""

from . import formats
from .superblocks import LARGE_BLOCKS, cut, small
from .worked import image

FIRST_COPY = 512


def accepted(v, **values):
    """The small volume with other numbers, in an image of just its length, or up to the primary's end."""
    small(v)
    v.bytes_at(FIRST_COPY, bytes(formats.SUPERBLOCK_BYTES))
    v.superblock(**values)
    layout = v.layout
    length = max(layout.size * layout.fsize, len(v.image))
    v.image.extend(bytes(length - len(v.image)))
    v.copy_superblock(to=layout.copy_place(layout.ncg - 1))


# Two groups of 24 fragments: the copy in the second one lies behind the primary.
TWO_GROUPS = {"fpg": 24, "size": 48, "ncg": 2, "ncyl": 2, "cssize": 32}
THREE_GROUPS = {"fpg": 24, "size": 72, "ncg": 3, "ncyl": 3, "cssize": 48}
GREATEST = (1 << 31) - 1

# Each number at the end of its range: what its image is called, the numbers that differ from the small volume, and how.
# No inode lies in the bytes of the primary.
ACCEPTED = {
    "fragments_of_2048": ({"bsize": 16384, "fsize": 2048, "nindir": 4096, "inopb": 128, "ipg": 128, "sblkno": 1,
                           "cblkno": 2, "cgsize": 16384, "iblkno": 10, "dblkno": 18, "csaddr": 18, "size": 19,
                           "fpg": 24}, "blocks of 16,384 bytes, fragments of 2,048, a group block of a whole block"),
    "fragments_of_4096": ({"bsize": 8192, "fsize": 4096, "frag": 2, "nindir": 2048, "inopb": 64, "ipg": 64, "sblkno": 1,
                           "cblkno": 2, "cgsize": 168, "iblkno": 3, "dblkno": 5, "csaddr": 5, "size": 6, "fpg": 6},
                          "blocks of 8,192 bytes, fragments of 4,096, a group block of its numbers alone"),
    "fragments_of_8192": ({"bsize": 65536, "fsize": 8192, "nindir": 16384, "inopb": 512, "ipg": 512, "sblkno": 1,
                           "cblkno": 2, "cgsize": 168, "iblkno": 3, "dblkno": 11, "csaddr": 11, "size": 12, "fpg": 16},
                          "blocks of 65,536 bytes, fragments of 8,192; the copy is the primary itself"),
    "dsize_1": ({"dsize": 1}, "one data fragment"),
    "dsize_greatest": ({"dsize": GREATEST}, "2^31-1 data fragments"),
    "short_links_0": ({"maxsymlinklen": 0}, "no symlink is short"),
    "minfree_0": ({"minfree": 0}, "nothing is kept free"),
    "minfree_99": ({"minfree": 99, "optim": 1}, "99 percent are kept free, and space is asked for"),
    "sbsize_8192": ({"sbsize": 8192, "cblkno": 17, "iblkno": 19, "dblkno": 27, "csaddr": 27, "size": 28, "fpg": 32},
                    "sbsize is 8,192"),
    "cgsize_168": ({"cgsize": 168}, "the group block has no room for a map"),
    "cgsize_4096": ({"cgsize": 4096, "iblkno": 19, "dblkno": 27, "csaddr": 27, "size": 28, "fpg": 32},
                    "the group block has a whole block"),
    "cylinders_least": ({"cpg": 16, "ncyl": 1}, "one cylinder of the sixteen of the group"),
    "cylinders_all": ({"cpg": 16, "ncyl": 16}, "all sixteen cylinders of the group"),
    "cylinders_in_last": ({**TWO_GROUPS, "cpg": 16, "ncyl": 17}, "one cylinder in the last of two groups"),
    "cylinders_greatest": ({"cpg": GREATEST, "ncyl": GREATEST}, "2^31-1 cylinders in the group"),
    "fpg_greatest": ({"fpg": GREATEST - 7}, "a group of 2^31-8 fragments, of which the volume has sixteen"),
    "size_least": ({"size": 14}, "the summary area ends with the volume"),
    "last_group_least": ({**TWO_GROUPS, "size": 37}, "the last group's parts end with the volume"),
    "summaries_least": (TWO_GROUPS, "the summary area has sixteen bytes for each group"),
    "summaries_fill_group": ({**TWO_GROUPS, "cssize": 11 * 512}, "the summary area ends with the first group"),
    "group_filled": ({**THREE_GROUPS, "cgoffset": 11, "cgmask": 0xFFFFFFFE},
                     "the second group's parts end with the group"),
    "last_group_filled": ({**TWO_GROUPS, "cgoffset": 11, "cgmask": 0},
                          "the last group's parts end with the volume and the group"),
    "cgoffset_least": ({**TWO_GROUPS, "cgoffset": -GREATEST - 1}, "cgoffset is -2^31, and cgmask leaves nothing of it"),
    "cgoffset_greatest": ({**TWO_GROUPS, "cgoffset": GREATEST}, "cgoffset is 2^31-1, and cgmask leaves nothing of it"),
}

# The same of volumes that the image is too short for.
SHAPED = {
    "fragments_of_16384": ({**LARGE_BLOCKS, "bsize": 32768, "fsize": 16384, "frag": 2, "nindir": 8192, "inopb": 256,
                            "ipg": 256, "dblkno": 5, "csaddr": 5}, "blocks of 32,768 bytes, fragments of 16,384"),
    "fragments_of_32768": ({**LARGE_BLOCKS, "bsize": 32768, "fsize": 32768, "nindir": 8192, "inopb": 256, "ipg": 256,
                            "dblkno": 4, "csaddr": 4}, "blocks and fragments of 32,768 bytes"),
    "fragments_of_65536": ({**LARGE_BLOCKS, "ipg": 512, "dblkno": 4, "csaddr": 4},
                           "blocks and fragments of 65,536 bytes"),
    "size_greatest": ({**LARGE_BLOCKS, "ipg": 512, "dblkno": 4, "csaddr": 4, "fpg": GREATEST, "size": GREATEST},
                      "2^31-1 fragments of 65,536 bytes"),
    "inodes_greatest": ({**LARGE_BLOCKS, "ipg": (1 << 31) - 512, "dblkno": 3 + (1 << 22) - 1,
                         "csaddr": 3 + (1 << 22) - 1, "fpg": 1 << 23, "size": 1 << 23}, "2^31-512 inodes"),
}

for _name, (_values, _shows) in ACCEPTED.items():
    image(f"accepted_{_name}", _shows)(lambda v, values=_values: accepted(v, **values))

for _name, (_values, _shows) in SHAPED.items():
    image(f"shaped_{_name}", _shows)(lambda v, values=_values: cut(v, **values))


@image("accepted_mount_full", "the mount point fills its 512 bytes, and no NUL ends it")
def _(v):
    accepted(v)
    v.superblock(mount=b"/" + b"m" * 511)


@image("accepted_mount_empty", "no mount point")
def _(v):
    accepted(v)
    v.superblock(mount=b"")


@image("settings_negative", "optim and minfree are -1")
def _(v):
    accepted(v)
    v.superblock(optim=-1, minfree=-1)


@image("large_blocks", "blocks of 65,536 bytes, all in one group of two blocks: nothing is wrong")
def _(v):
    v.image[:] = bytes(131072)
    v.superblock(
        sblkno=1, cblkno=2, iblkno=3, dblkno=11, cgoffset=0, cgmask=0xFFFFFFFF, size=16, dsize=4, ncg=1, bsize=65536,
        fsize=8192, frag=8, minfree=10, sbsize=2048, nindir=16384, inopb=512, optim=0, csaddr=11, cssize=16,
        cgsize=8192, ncyl=1, cpg=1, ipg=512, fpg=16, maxsymlinklen=60, inodefmt=2, postblformat=1,
        magic=formats.FS_MAGIC, mount=b"/mnt")
    v.group(0, magic=formats.CG_MAGIC, cgx=0, ndblk=16, iusedoff=168, freeoff=232)
    v.inode(2, mode=0o040755, nlink=2, size=512, direct=[12], blocks=16)
    v.chunk(12, [(2, 4, b"."), (2, 4, b"..")])
    v.book()
