"""Where the numbers of a UFS1 volume stand, after fs(5) and dir(5); docs/FORMATS.md has the same tables."""

LITTLE, BIG = "little", "big"

SECTOR = 512
SUPERBLOCK_AT = 8192
SUPERBLOCK_BYTES = 1376
GROUP_HEADER_BYTES = 168
INODE_BYTES = 128
CHUNK_BYTES = 512

FS_MAGIC = 0x011954
CG_MAGIC = 0x090255
ROOT_INODE = 2

# Each field: its place, and the width of its number in bytes.
SUPERBLOCK = {
    "sblkno": (8, 4), "cblkno": (12, 4), "iblkno": (16, 4), "dblkno": (20, 4), "cgoffset": (24, 4),
    "cgmask": (28, 4), "size": (36, 4), "dsize": (40, 4), "ncg": (44, 4), "bsize": (48, 4),
    "fsize": (52, 4), "frag": (56, 4), "minfree": (60, 4), "sbsize": (104, 4), "nindir": (116, 4),
    "inopb": (120, 4), "optim": (128, 4), "csaddr": (152, 4), "cssize": (156, 4), "cgsize": (160, 4),
    "ncyl": (176, 4), "cpg": (180, 4), "ipg": (184, 4), "fpg": (188, 4), "maxsymlinklen": (1320, 4),
    "inodefmt": (1324, 4), "postblformat": (1356, 4), "magic": (1372, 4),
    # the totals of the volume
    "ndir": (192, 4), "nbfree": (196, 4), "nifree": (200, 4), "nffree": (204, 4),
}
MOUNT_AT, MOUNT_BYTES = 212, 512

GROUP = {
    "magic": (4, 4), "cgx": (12, 4), "ndblk": (20, 4),
    "ndir": (24, 4), "nbfree": (28, 4), "nifree": (32, 4), "nffree": (36, 4),
    **{f"frsum{k}": (52 + 4 * k, 4) for k in range(8)},
    "iusedoff": (92, 4), "freeoff": (96, 4),
}

# The summary record of a group; the same four numbers stand in the superblock and in the group.
SUMMARY = {"ndir": (0, 4), "nbfree": (4, 4), "nifree": (8, 4), "nffree": (12, 4)}

INODE = {
    "mode": (0, 2), "nlink": (2, 2), "size": (8, 8), "mtime": (24, 4),
    **{f"direct{k}": (40 + 4 * k, 4) for k in range(12)},
    "single": (88, 4), "double": (92, 4), "triple": (96, 4), "blocks": (104, 4), "uid": (112, 4),
}
ADDRESSES = [f"direct{k}" for k in range(12)] + ["single", "double", "triple"]

ENTRY = {"number": (0, 4), "length": (4, 2)}

STRUCTURES = {"superblock": SUPERBLOCK, "group": GROUP, "summary": SUMMARY, "inode": INODE, "entry": ENTRY}

# The fields of a superblock that its last alternate must agree with.
COMPARED = [
    "sblkno", "cblkno", "iblkno", "dblkno", "cgoffset", "cgmask", "size", "dsize", "ncg", "bsize", "fsize",
    "frag", "sbsize", "nindir", "inopb", "csaddr", "cssize", "cgsize", "ncyl", "cpg", "ipg", "fpg",
    "inodefmt", "postblformat", "magic",
]

DIRECTORY, REGULAR = 0o040000, 0o100000
TYPES = {0o010000, 0o020000, 0o040000, 0o060000, 0o100000, 0o120000, 0o140000}
