"""The worked images of `crates/ffs_rows/data`, each as a few lines that change the clean volume.

Each description is run twice, once in each byte order: the big-endian twin of NAME is big_NAME, and its report is the
same text. Reports and statuses are written by hand from docs/RULES.md; nothing here makes one.
"""

from . import formats
from .volume import Volume

DESCRIPTIONS = {}


def image(name, shows):
    """Registers a description: the name of its image, and what the image shows."""

    def register(describe):
        DESCRIPTIONS[name] = (shows, describe)
        return describe

    return register


def make(name, order):
    """The bytes of a worked image."""
    volume = clean(order)
    _, describe = DESCRIPTIONS[name]
    describe(volume)
    return bytes(volume.image)


def clean(order):
    """The clean volume: 128 KiB, one group, a root with its own two entries, all else free."""
    v = Volume(order, 131072)
    v.superblock(
        sblkno=16, cblkno=24, iblkno=28, dblkno=32, cgoffset=0, cgmask=0xFFFFFFFF, size=128, dsize=95, ncg=1,
        bsize=4096, fsize=1024, frag=4, minfree=10, sbsize=2048, nindir=1024, inopb=32, optim=0, csaddr=32,
        cssize=1024, cgsize=1024, ncyl=1, cpg=1, ipg=32, fpg=128, ndir=1, nbfree=22, nifree=29, nffree=6,
        maxsymlinklen=60, inodefmt=2, postblformat=1, magic=formats.FS_MAGIC, mount=b"/mnt")
    v.copy_superblock(to=16384)
    v.group(0, magic=formats.CG_MAGIC, cgx=0, ndblk=128, iusedoff=168, freeoff=172)
    v.inode(2, mode=0o040755, nlink=2, size=512, direct=[36], blocks=2)
    v.chunk(36, [(2, 4, b"."), (2, 4, b"..")])
    v.book()
    return v


def two_groups_of(v):
    """The clean volume with a second group: 250 fragments, whose second group begins four fragments late."""
    v.bytes_at(131072, bytes(256000 - 131072))
    v.superblock(size=250, dsize=201, ncg=2, cgoffset=4, cgmask=0, ncyl=2)
    v.group(1, magic=formats.CG_MAGIC, cgx=1, ndblk=122, iusedoff=168, freeoff=172)
    v.book()
    v.copy_superblock(to=151552)


def small_file(v, i, fragment=37):
    """A regular file of 100 bytes."""
    v.regular(i, size=100, direct=[fragment], blocks=2)


# --- the opening ---

@image("clean", "the clean volume")
def _(v):
    pass


@image("empty_image", "an image of no bytes has no superblock")
def _(v):
    v.image.clear()


@image("magic_wrong", "the primary's magic is 0")
@image("alternate_used", "the primary's magic is 0; the copy at sector 32 is asked for and used")
def _(v):
    v.superblock(magic=0)


@image("image_short", "the last byte is missing")
def _(v):
    del v.image[-1]


@image("opening_defects", "optim is 2 and minfree is 100")
def _(v):
    v.superblock(optim=2, minfree=100)


@image("alternate_disagrees", "dsize differs in the copy alone")
@image("alternate_disagrees_asked", "dsize differs in the copy alone, which is asked for: nothing is compared")
def _(v):
    v.superblock(at=16384, dsize=94)


@image("orders_disagree", "the copy alone is in the other byte order")
@image("orders_disagree_asked", "the copy alone is in the other byte order and is asked for: all else is read in the wrong order")
def _(v):
    other = clean(formats.BIG if v.order == formats.LITTLE else formats.LITTLE)
    v.bytes_at(16384, other.image[16384:16384 + formats.SUPERBLOCK_BYTES])


@image("trailing_bytes", "700 bytes of 255 follow the volume")
def _(v):
    v.bytes_at(131072, b"\xff" * 700)


@image("two_groups", "two groups, the second one placed by cgoffset and cgmask")
def _(v):
    two_groups_of(v)


# --- the block check ---

@image("shared_fragment", "two files claim the same fragment")
def _(v):
    small_file(v, 3)
    small_file(v, 4)
    v.root((3, 8, b"a"), (4, 8, b"b"))
    v.book()


@image("root_suspect", "a file claims the root's fragment")
def _(v):
    small_file(v, 3)
    small_file(v, 4, fragment=36)
    v.root((3, 8, b"a"), (4, 8, b"b"))
    v.book()


@image("reserved_fragment", "a file claims a fragment of the boot area")
def _(v):
    small_file(v, 3, fragment=5)
    v.root((3, 8, b"a"))
    v.book()


@image("twelve_bad_runs", "twelve blocks past the volume's end: the check of the inode stops at the eleventh")
def _(v):
    v.regular(3, size=49152, direct=[200] * 12, blocks=0)
    v.root((3, 8, b"a"))
    v.book()


@image("ten_bad_runs", "ten blocks past the end, then two good ones: all are looked at")
def _(v):
    v.regular(3, size=49152, direct=[200] * 10 + [40, 44], blocks=16)
    v.root((3, 8, b"a"))
    v.book()


@image("run_past_end", "a block whose last two fragments are past the volume's end")
def _(v):
    v.regular(3, size=4096, direct=[126], blocks=8)
    v.root((3, 8, b"a"))
    v.book()


@image("run_crosses_groups", "a block that begins in one group and ends in the next")
def _(v):
    two_groups_of(v)
    v.regular(3, size=4096, direct=[126], blocks=8)
    v.root((3, 8, b"a"))
    v.book()
    v.copy_superblock(to=151552)


@image("indirect_claims_itself", "an indirect block whose first word is its own address")
def _(v):
    v.regular(3, size=53248, direct=[], single=40, blocks=16)
    v.words(40, [40])
    v.root((3, 8, b"a"))
    v.book()


@image("triple_tree_self", "a triple indirect block all of whose words are its own address")
def _(v):
    v.regular(3, size=4402345721856, direct=[], triple=40, blocks=0)
    v.words(40, [40] * 1024)
    v.root((3, 8, b"a"))
    v.book()


@image("partially_truncated", "an indirect block with an address past the file's size")
def _(v):
    v.regular(3, size=53248, direct=[], single=40, blocks=16)
    v.words(40, [44, 0, 0, 0, 0, 99])
    v.root((3, 8, b"a"))
    v.book()


@image("indirect_zeroed", "an indirect block of zeros, as a hole of a copy is: the maps still mark the three blocks that it named")
def _(v):
    v.regular(3, size=61440, direct=range(40, 88, 4), single=88, blocks=128)
    v.words(88, [92, 96, 100])
    v.root((3, 8, b"a"))
    v.book()
    v.words(88, [0, 0, 0])


# --- directories ---

@image("root_unallocated", "inode 2 is all zero")
def _(v):
    v.clear_inode(2)


@image("directory_short", "the root's size is 12, less than its own two entries take")
def _(v):
    v.inode(2, size=12)


@image("entry_length_zero", "the root's second entry has record length 0")
def _(v):
    v.number(36864 + 12 + 4, 2, 0)


@image("first_entry_named", "the root's first entry is called a, and not .")
def _(v):
    v.bytes_at(36864 + 8, b"a")


@image("second_entry_named", "the root's second entry is called ab, and not ..")
def _(v):
    v.bytes_at(36864 + 20, b"ab")


@image("kind_of_dot", "the type of the root's . is that of a regular file")
def _(v):
    v.bytes_at(36864 + 6, bytes([8]))


@image("kind_of_dotdot", "the type of the root's .. is that of a regular file")
def _(v):
    v.bytes_at(36864 + 18, bytes([8]))


@image("file_as_directory", "a file of 100 bytes whose mode was turned into a directory's")
def _(v):
    small_file(v, 3)
    v.bytes_at(37 * 1024, b"The first sentence of a letter. " * 3 + b"End.")
    v.root((3, 8, b"a"))
    v.book()
    v.inode(3, mode=0o040644)


@image("number_out_of_range", "an entry names inode 32 of 32; its name holds a newline and a DEL, shown as ?")
def _(v):
    v.root((32, 8, b"c\n\x7f"))


@image("extra_directory_link", "a directory is entered twice")
def _(v):
    v.directory(3, 37, 2)
    v.root((3, 4, b"a"), (3, 4, b"b"), nlink=3)
    v.book()


@image("empty_directory", "a directory of size 0 that no entry names")
def _(v):
    v.inode(3, mode=0o040755)
    v.book()


@image("empty_directory_named", "a directory of size 0 with an entry")
def _(v):
    small_file(v, 3)
    v.inode(4, mode=0o040755, nlink=1)
    v.root((3, 8, b"a"), (4, 4, b"b"))
    v.book()


@image("directory_deep", "a file in a directory of the root: nothing is wrong")
def _(v):
    v.directory(3, 37, 2, (4, 8, b"f"))
    small_file(v, 4, fragment=38)
    v.root((3, 4, b"a"), nlink=3)
    v.book()


@image("directory_holds_block_twice", "a directory holds the same block twice: its entries are there twice")
def _(v):
    v.chunk(40, [(3, 4, b"."), (2, 4, b".."), (4, 8, b"f")])
    for k in range(1, 8):
        v.chunk(40, [(0, 0, b"")], at=512 * k)
    v.inode(3, mode=0o040755, nlink=2, size=8192, direct=[40, 40], blocks=16)
    small_file(v, 4)
    v.root((3, 4, b"a"), nlink=3)
    v.book()


def chain(v, depth):
    """Directories, each in the one before, the first in the root, with names of 255 bytes."""
    for k in range(depth):
        parent = 2 if k == 0 else 2 + k
        below = [(4 + k, 4, bytes([ord("b") + k]) * 255)] if k < depth - 1 else []
        v.directory(3 + k, 37 + k, parent, *below, nlink=3 if below else 2)
    v.root((3, 4, b"a" * 255), nlink=3)
    v.book()


@image("path_limit", "four directories with names of 255 bytes: the last one's path has 1,024 bytes")
def _(v):
    chain(v, 4)


@image("path_past_limit", "five directories with names of 255 bytes: the last one's path is over 1,024 bytes")
def _(v):
    chain(v, 5)


# --- connectivity and reference counts ---

@image("unreferenced_file", "a file that no entry names")
def _(v):
    small_file(v, 3)
    v.book()


@image("dead_parent", "a directory that shares its fragment and that no entry names, and one below it")
def _(v):
    v.directory(3, 37, 2, (5, 4, b"x"))
    small_file(v, 4)
    v.directory(5, 38, 3)
    v.root((4, 8, b"b"), nlink=3)
    v.book()


def lost_cycle(v, *last):
    """Two directories that name each other and that nothing else names."""
    v.directory(3, 37, 4, (4, 4, b"x"), *last, nlink=3)
    v.directory(4, 38, 3, (3, 4, b"y"), nlink=3)
    v.book()


@image("lost_cycle", "two directories that name each other; the root names neither")
def _(v):
    lost_cycle(v)


@image("lost_entry_path", "a lost cycle with an entry that names inode 99: its path begins with ?")
def _(v):
    lost_cycle(v, (99, 8, b"q"))


@image("lost_cycle_below", "a lost cycle with a directory below it: one of the cycle is reported, not the one below")
def _(v):
    v.directory(3, 37, 4, (4, 4, b"x"), nlink=3)
    v.directory(4, 38, 3, (3, 4, b"y"), (5, 4, b"z"), nlink=4)
    v.directory(5, 39, 4)
    v.book()


# --- groups ---

@image("group_magic_wrong", "the group's magic is one more than it should be")
def _(v):
    v.group(0, magic=formats.CG_MAGIC + 1)


@image("map_bit_cleared", "bit 37 of the fragment map says used")
def _(v):
    v.map_bit(24576 + 172, 37, 0)


@image("free_count_wrong", "the superblock counts seven free fragments, and there are six")
def _(v):
    v.superblock(nffree=7)
