"""Reads a volume as fsck does, as far as a maker of images needs it: the layout, classes and blocks of inodes, which
fragments they keep, and the counts of groups. Nothing here judges a volume or makes a report."""

from dataclasses import dataclass
from functools import cached_property
from struct import unpack_from

from . import formats
from .formats import BIG, LITTLE

DIRECT = 12
MOST_BAD = MOST_DUPS = 11


def cover(length, piece):
    """How many pieces cover a length."""
    return -(-length // piece)


def is_zero(piece):
    return piece == bytes(len(piece))


def number_at(image, place, width, order):
    return int.from_bytes(image[place:place + width], order)


def signed_at(image, place, width, order):
    return int.from_bytes(image[place:place + width], order, signed=True)


def fields_at(image, table, place, order):
    """All numbers of a structure, by name, without signs."""
    return {name: number_at(image, place + at, width, order) for name, (at, width) in table.items()}


def words_at(image, place, count, order):
    """Words of four bytes, as those of an indirect block."""
    return unpack_from(f"{'<' if order == LITTLE else '>'}{count}I", image, place)


def order_of(image, place):
    """The byte order in which a superblock's magic reads right, or none."""
    magic = image[place + 1372:place + 1376]
    for order in (LITTLE, BIG):
        if magic == formats.FS_MAGIC.to_bytes(4, order):
            return order
    return None


@dataclass
class Layout:
    """The numbers of a superblock that say where all else is."""

    order: str
    sblkno: int
    cblkno: int
    iblkno: int
    dblkno: int
    cgoffset: int
    cgmask: int
    size: int
    ncg: int
    bsize: int
    fsize: int
    frag: int
    csaddr: int
    cssize: int
    cgsize: int
    ipg: int
    fpg: int
    maxsymlinklen: int

    @staticmethod
    def read(image, place, order):
        values = {}
        for name in Layout.__dataclass_fields__:
            if name != "order":
                at, width = formats.SUPERBLOCK[name]
                values[name] = signed_at(image, place + at, width, order)
        values["cgmask"] %= 1 << 32
        return Layout(order=order, **values)

    def cgbase(self, c):
        return self.fpg * c

    def cgstart(self, c):
        return self.cgbase(c) + self.cgoffset * (c & ~self.cgmask)

    def group_place(self, c):
        return (self.cgstart(c) + self.cblkno) * self.fsize

    def copy_place(self, c):
        return (self.cgstart(c) + self.sblkno) * self.fsize

    def summary_place(self, c):
        return self.csaddr * self.fsize + 16 * c

    def inode_place(self, i):
        c, k = divmod(i, self.ipg)
        return (self.cgstart(c) + self.iblkno) * self.fsize + formats.INODE_BYTES * k

    def fragments(self, c):
        """How many fragments a group has."""
        return min(self.cgbase(c + 1), self.size) - self.cgbase(c)

    def iusedoff(self, image, c):
        return number_at(image, self.group_place(c) + 92, 4, self.order)

    def freeoff(self, image, c):
        return number_at(image, self.group_place(c) + 96, 4, self.order)

    @cached_property
    def metadata(self):
        """A byte for each fragment: 1 where it is in the superblock's copy, block or inodes of some group."""
        flags = bytearray(self.size)
        for c in range(self.ncg):
            start = self.cgstart(c)
            flags[start + self.sblkno:start + self.dblkno] = b"\1" * (self.dblkno - self.sblkno)
        return flags[:self.size]

    def is_metadata(self, f):
        return self.metadata[f] == 1

    def is_in_range(self, start, length):
        """Whether a run lies in one group's data, or before its superblock's copy."""
        if start + length > self.size or start // self.fpg != (start + length - 1) // self.fpg:
            return False
        return is_zero(self.metadata[start:start + length])

    def is_reserved(self, f):
        """Whether a fragment belongs to no file: the boot area and first group's head, the summary area, metadata."""
        in_summaries = self.csaddr <= f < self.csaddr + cover(self.cssize, self.fsize)
        return f < self.cgstart(0) + self.dblkno or in_summaries or self.is_metadata(f)


@dataclass
class Run:
    """Fragments that an inode names: a block of its data, or an indirect block with its depth."""

    start: int
    length: int
    block: int = None
    depth: int = 0
    used: int = 0


class Inode:
    """An inode's numbers, its class and the runs that it names."""

    def __init__(self, image, layout, i):
        self.layout = layout
        self.place = layout.inode_place(i)
        values = fields_at(image, formats.INODE, self.place, layout.order)
        self.mode, self.size = values["mode"], values["size"]
        self.addresses = [values[name] for name in formats.ADDRESSES]
        self.kind = self.mode & 0o170000

    def is_short_symlink(self):
        return self.kind == 0o120000 and self.size < self.layout.maxsymlinklen

    def is_device(self):
        return self.kind in (0o020000, 0o060000)

    def is_well_formed(self):
        """Whether the inode is allocated, its type known, its size possible, and each address past its size zero."""
        bsize = self.layout.bsize
        words = bsize // 4
        most = (DIRECT + words + words ** 2 + words ** 3) * bsize
        if self.kind not in formats.TYPES or self.size > most:
            return False
        if self.kind == formats.DIRECTORY and self.size > 2 ** 31 - 1:
            return False
        if self.is_short_symlink():
            return not any(self.addresses[cover(self.size, 4):])
        blocks = cover(self.size, bsize) + (1 if self.is_device() else 0)
        used = [j < blocks for j in range(DIRECT)]
        used += [blocks > DIRECT, blocks > DIRECT + words, blocks > DIRECT + words + words ** 2]
        return not any(a for a, u in zip(self.addresses, used) if not u)

    def is_directory(self):
        return self.kind == formats.DIRECTORY and self.is_well_formed()

    def runs(self, image, once=False):
        """The runs of the inode in the order of its blocks. With `once` an indirect block is opened once a depth and
        a count of used words, which shows each block that is read of a tree that points to itself."""
        if not self.is_well_formed() or self.is_short_symlink() or self.is_device():
            return
        opened = set() if once else None
        bsize, words = self.layout.bsize, self.layout.bsize // 4
        blocks = cover(self.size, bsize)
        for j in range(min(blocks, DIRECT)):
            length = self.layout.frag
            if j == blocks - 1 and self.size % bsize:
                length = cover(self.size % bsize, self.layout.fsize)
            if self.addresses[j]:
                yield Run(self.addresses[j], length, j)
        first = DIRECT
        for depth in (1, 2, 3):
            if blocks > first:
                yield from self._tree(image, self.addresses[DIRECT + depth - 1], depth, first, blocks, opened)
            first += words ** depth

    def _tree(self, image, address, depth, first, blocks, opened):
        """The runs below an address; `first` is the first block below it."""
        if not address:
            return
        if not depth:
            yield Run(address, self.layout.frag, first)
            return
        words = self.layout.bsize // 4
        below = words ** (depth - 1)
        used = min(words, cover(blocks - first, below))
        yield Run(address, self.layout.frag, None, depth, used)
        if not self.layout.is_in_range(address, self.layout.frag):
            return
        if opened is not None:
            key = (address, depth, min(blocks - first, below * words))
            if key in opened:
                return
            opened.add(key)
        place = address * self.layout.fsize
        for k, word in enumerate(words_at(image, place, used, self.layout.order)):
            if word:
                yield from self._tree(image, word, depth - 1, first + k * below, blocks, opened)


def inodes(image, layout):
    """The inodes from the root on that aren't all zero."""
    for i in range(formats.ROOT_INODE, layout.ncg * layout.ipg):
        place = layout.inode_place(i)
        if not is_zero(image[place:place + formats.INODE_BYTES]):
            yield Inode(image, layout, i)


def kept_fragments(image, layout):
    """The fragments outside the metadata that inodes keep, as fsck counts them: after eleven bad runs or eleven
    duplicates nothing more of an inode is kept."""
    kept = set()
    for inode in inodes(image, layout):
        bad = dups = 0
        for run in inode.runs(image):
            is_bad = not layout.is_in_range(run.start, run.length)
            bad += is_bad
            if is_bad and bad == MOST_BAD:
                break
            for f in range(run.start, run.start + run.length):
                if f >= layout.size or layout.is_metadata(f):
                    continue
                if f in kept or layout.is_reserved(f):
                    dups += 1
                kept.add(f)
                if dups == MOST_DUPS:
                    break
            if dups == MOST_DUPS:
                break
    return kept


def seen_indirect(image, layout):
    """How many runs of indirect blocks are seen of inodes: all up to an inode's eleventh bad run or eleventh duplicate."""
    used = bytearray(map(layout.is_reserved, range(layout.size)))
    seen = 0
    for inode in inodes(image, layout):
        bad = dups = 0
        for run in inode.runs(image):
            seen += run.block is None
            is_bad = not layout.is_in_range(run.start, run.length)
            bad += is_bad
            if is_bad and bad == MOST_BAD:
                break
            for f in range(run.start, min(run.start + run.length, layout.size)):
                if dups < MOST_DUPS and not layout.is_metadata(f):
                    dups += used[f]
                    used[f] = 1
            if dups == MOST_DUPS:
                break
    return seen


def survey_reads(image, layout):
    """How many reads take the directories of a volume where nothing is cut: each run, and the inode of one that isn't a single chunk."""
    directories = (inode for inode in inodes(image, layout) if inode.is_directory())
    return sum(sum(1 for run in inode.runs(image)) + (inode.size != formats.CHUNK_BYTES or not inode.addresses[0]) for inode in directories)


@dataclass
class Counts:
    """What a group's maps and counts are when they are right."""

    inodes_used: list
    fragments_free: list
    summary: list
    frsum: list


def counts_of(image, layout, c, kept):
    """The right maps and counts of a group, where inodes keep those fragments."""
    base, frag = layout.cgbase(c), layout.frag
    free = [not (layout.is_reserved(f) or f in kept) for f in range(base, base + layout.fragments(c))]
    used, directories = [], 0
    for i in range(c * layout.ipg, (c + 1) * layout.ipg):
        kind = number_at(image, layout.inode_place(i), 2, layout.order) & 0o170000
        used.append(i < formats.ROOT_INODE or kind != 0)
        directories += i >= formats.ROOT_INODE and Inode(image, layout, i).is_directory()
    blocks, fragments, frsum = 0, 0, [0] * 8
    for first in range(0, len(free), frag):
        block = free[first:first + frag]
        if len(block) == frag and all(block):
            blocks += 1
            continue
        fragments += sum(block)
        for run in "".join("x" if bit else " " for bit in block).split():
            frsum[len(run)] += 1
    return Counts(used, free, [directories, blocks, used.count(False), fragments], frsum)
