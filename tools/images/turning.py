"""What a check reads of an image, and the same volume in the other byte order."""

from array import array
from operator import itemgetter

from . import formats
from .opening import is_readable, superblock_place
from .reading import Inode, Layout, cover, is_zero, number_at, order_of

RAW = b"\x01"


def _pattern(table):
    """The marks of a structure's numbers, with 0 for the bytes between them."""
    marks = bytearray(max(at + width for at, width in table.values()))
    for at, width in table.values():
        marks[at:at + width] = bytes((width << 4) | k for k in range(width))
    return bytes(marks)


def _turn_of(table, length):
    """Picks a structure's bytes in the order that turns its numbers."""
    places = list(range(length))
    for at, width in table.values():
        places[at:at + width] = reversed(places[at:at + width])
    return itemgetter(*places)


PATTERNS = {kind: _pattern(table) for kind, table in formats.STRUCTURES.items()}
TURNS = {kind: _turn_of(table, len(PATTERNS[kind])) for kind, table in formats.STRUCTURES.items()}


class Reads:
    """The places of an image that a check reads: numbers by their widths, and bytes that no order turns."""

    def __init__(self, image):
        self.image = image
        self.marks = bytearray(len(image))
        self.blocks = {}
        self.structures = {}
        self.chunks = set()
        self.clashes = False

    def mark(self, place, pattern):
        """Marks what is read, and notes where the same bytes are read in two ways."""
        end = place + len(pattern)
        old = self.marks[place:end]
        if is_zero(old):
            self.marks[place:end] = pattern
        elif old != pattern:
            for k, (before, now) in enumerate(zip(old, pattern)):
                is_other = before and now and before != now
                if is_other and not (self.is_even(place + k, before) and self.is_even(place + k, now)):
                    self.clashes = True
            self.marks[place:end] = bytes(now or before for before, now in zip(old, pattern))

    def is_even(self, place, mark):
        """Whether the number that a mark belongs to is the same in both orders."""
        width, k = mark >> 4, mark & 15
        piece = self.image[place - k:place - k + width]
        return mark == RAW[0] or piece == piece[::-1]

    def words(self, place, count):
        """Marks the words of an indirect block."""
        if 0 <= place and place + 4 * count <= len(self.image):
            self.mark(place, b"\x40\x41\x42\x43" * count)
            self.blocks[place] = count

    def raw(self, place, length):
        length = min(length, len(self.image) - place)
        if length > 0:
            self.mark(place, RAW * length)

    def fields(self, kind, place):
        """Marks the numbers of a structure, of a kind that `formats.STRUCTURES` names."""
        pattern = PATTERNS[kind]
        if 0 <= place and place + len(pattern) <= len(self.image):
            self.structures[place, kind] = True
            self.mark(place, pattern)

    def superblock(self, place):
        if place + formats.SUPERBLOCK_BYTES <= len(self.image):
            self.fields("superblock", place)
            self.raw(place + formats.MOUNT_AT, formats.MOUNT_BYTES)


def reads_of(image, sector=None):
    """What a check of an image reads; at most, for where it stops isn't looked at."""
    reads = Reads(image)
    place = superblock_place(sector)
    reads.superblock(place)
    if not is_readable(image, sector):
        return reads
    layout = Layout.read(image, place, order_of(image, place))
    if sector is None:
        reads.superblock(layout.copy_place(layout.ncg - 1))
    for c in range(layout.ncg):
        _group(reads, layout, c)
    for i in range(0, layout.ncg * layout.ipg, 8):
        place = layout.inode_place(i)
        if is_zero(image[place:place + 8 * formats.INODE_BYTES]):
            reads.raw(place, 8 * formats.INODE_BYTES)
        else:
            for k in range(8):
                _inode(reads, layout, i + k)
    return reads


def _group(reads, layout, c):
    place = layout.group_place(c)
    reads.fields("group", place)
    reads.fields("summary", layout.summary_place(c))
    for at, bits in ((layout.iusedoff(reads.image, c), layout.ipg), (layout.freeoff(reads.image, c), layout.fpg)):
        if at + cover(bits, 8) <= layout.cgsize:
            reads.raw(place + at, cover(bits, 8))


def _inode(reads, layout, i):
    place = layout.inode_place(i)
    if is_zero(reads.image[place:place + formats.INODE_BYTES]):
        return reads.raw(place, formats.INODE_BYTES)
    reads.fields("inode", place)
    if i < formats.ROOT_INODE:
        return
    inode = Inode(reads.image, layout, i)
    for run in inode.runs(reads.image, once=True):
        if not layout.is_in_range(run.start, run.length):
            continue
        at = run.start * layout.fsize
        if run.block is None:
            reads.words(at, layout.bsize // 4)
        elif inode.is_directory():
            size = 512 if inode.size < 24 else cover(inode.size, 512) * 512
            end = min(at + run.length * layout.fsize, at + size - run.block * layout.bsize)
            for chunk in range(at, end, formats.CHUNK_BYTES):
                # Directories may share a block: its entries are the same for each.
                if chunk not in reads.chunks:
                    reads.chunks.add(chunk)
                    _chunk(reads, layout, chunk)


def _chunk(reads, layout, place):
    """The entries of a chunk, and the first bytes after them that are no entry."""
    used = 0
    while used + 8 <= formats.CHUNK_BYTES:
        reads.fields("entry", place + used)
        reads.raw(place + used + 6, 2)
        number = number_at(reads.image, place + used, 4, layout.order)
        length = number_at(reads.image, place + used + 4, 2, layout.order)
        kind, name = reads.image[place + used + 6:place + used + 8]
        left = formats.CHUNK_BYTES - used
        if number:
            reads.raw(place + used + 8, min(name + 1, left - 8))
        if length % 4 or length < 8 or length > left:
            return
        if number and (kind > 15 or name == 0 or length < 8 + (name + 4) // 4 * 4):
            return
        text = reads.image[place + used + 8:place + used + 9 + name]
        if number and (0 in text[:-1] or b"/" in text or text[-1]):
            return
        used += length


def turned(image, sector=None):
    """The same volume in the other byte order, or none where some bytes are read both as a number and otherwise."""
    reads = reads_of(image, sector)
    if reads.clashes:
        return None
    out = bytearray(image)
    for place, kind in reads.structures:
        pattern = PATTERNS[kind]
        end = place + len(pattern)
        if reads.marks[place:end] == pattern:
            out[place:end] = bytes(TURNS[kind](image[place:end]))
        else:
            for at, width in formats.STRUCTURES[kind].values():
                out[place + at:place + at + width] = image[place + at:place + at + width][::-1]
    for place, count in reads.blocks.items():
        words = array("I", image[place:place + 4 * count])
        words.byteswap()
        out[place:place + 4 * count] = words.tobytes()
    return out
