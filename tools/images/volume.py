"""A volume that a description fills: each number is written in the volume's byte order."""

from . import formats
from .formats import LITTLE
from .reading import Layout, counts_of, cover, kept_fragments


class Volume:
    """An image under construction. All bytes that nothing sets are zero."""

    def __init__(self, order=LITTLE, length=0):
        self.order = order
        self.image = bytearray(length)
        self.layout = None

    # --- bytes and numbers ---

    def bytes_at(self, place, data):
        """Sets bytes, which are the same in both orders."""
        self.image[place:place + len(data)] = data

    def number(self, place, width, value):
        """Sets one number of `width` bytes; a negative one as its two's complement."""
        self.bytes_at(place, (value % (1 << (8 * width))).to_bytes(width, self.order))

    def fields(self, table, place, values):
        """Sets named numbers of a structure that begins at `place`."""
        for name, value in values.items():
            at, width = table[name]
            self.number(place + at, width, value)

    # --- structures ---

    def superblock(self, at=formats.SUPERBLOCK_AT, mount=None, **values):
        """Sets fields of the superblock at a byte. What later calls place is placed by the primary."""
        self.fields(formats.SUPERBLOCK, at, values)
        if mount is not None:
            self.bytes_at(at + formats.MOUNT_AT, mount + bytes(formats.MOUNT_BYTES - len(mount)))
        if at == formats.SUPERBLOCK_AT:
            self.layout = Layout.read(self.image, at, self.order)

    def copy_superblock(self, to):
        """Copies the primary superblock to a byte."""
        at = formats.SUPERBLOCK_AT
        self.bytes_at(to, self.image[at:at + formats.SUPERBLOCK_BYTES])

    def group(self, c, **values):
        """Sets fields of a group's block."""
        self.fields(formats.GROUP, self.layout.group_place(c), values)

    def summary_record(self, c, **values):
        """Sets numbers of a group's summary record."""
        self.fields(formats.SUMMARY, self.layout.summary_place(c), values)

    def inode(self, i, direct=(), **values):
        """Sets fields of an inode; `direct` lists its first direct addresses."""
        values.update({f"direct{k}": address for k, address in enumerate(direct)})
        self.fields(formats.INODE, self.layout.inode_place(i), values)

    def clear_inode(self, i):
        self.bytes_at(self.layout.inode_place(i), bytes(formats.INODE_BYTES))

    def regular(self, i, size, direct, blocks, **values):
        """A regular file, of mode 644 and with one link."""
        self.inode(i, mode=0o100644, nlink=1, size=size, direct=direct, blocks=blocks, **values)

    def words(self, fragment, values, first=0):
        """Sets words of the indirect block that begins at a fragment."""
        for k, value in enumerate(values):
            self.number(fragment * self.layout.fsize + 4 * (first + k), 4, value)

    def chunk(self, fragment, entries, at=0):
        """A chunk of entries (number, type, name). All have their least length but the last, which fills the chunk."""
        place = fragment * self.layout.fsize + at
        self.bytes_at(place, bytes(formats.CHUNK_BYTES))
        used = 0
        for k, (number, kind, name) in enumerate(entries):
            is_last = k == len(entries) - 1
            length = formats.CHUNK_BYTES - used if is_last else least_length(name)
            self.fields(formats.ENTRY, place + used, {"number": number, "length": length})
            self.bytes_at(place + used + 6, bytes([kind, len(name)]) + name)
            used += length

    def directory(self, i, fragment, parent, *entries, nlink=2):
        """A directory of one chunk, in one fragment."""
        self.inode(i, mode=0o040755, nlink=nlink, size=512, direct=[fragment],
                   blocks=self.layout.fsize // formats.SECTOR)
        self.chunk(fragment, [(i, 4, b"."), (parent, 4, b".."), *entries])

    def root(self, *entries, nlink=2):
        """Enters files in the root, after its own two entries."""
        self.inode(formats.ROOT_INODE, nlink=nlink)
        self.chunk(36, [(2, 4, b"."), (2, 4, b".."), *entries])

    # --- maps and counts ---

    def map_bit(self, place, k, value):
        """Sets bit k of a map, least first; the same in both orders."""
        mask = 1 << (k % 8)
        byte = self.image[place + k // 8]
        self.image[place + k // 8] = byte | mask if value else byte & ~mask

    def book(self):
        """Sets maps, group counts, summary records and the totals to what the volume's inodes make them."""
        layout = self.layout
        totals = [0, 0, 0, 0]
        kept = kept_fragments(self.image, layout)
        for c in range(layout.ncg):
            counts = counts_of(self.image, layout, c, kept)
            place = layout.group_place(c)
            for k, used in enumerate(counts.inodes_used):
                self.map_bit(place + layout.iusedoff(self.image, c), k, used)
            for k, free in enumerate(counts.fragments_free):
                self.map_bit(place + layout.freeoff(self.image, c), k, free)
            summary = dict(zip(formats.SUMMARY, counts.summary))
            self.group(c, **summary, **{f"frsum{k}": n for k, n in enumerate(counts.frsum)})
            self.summary_record(c, **summary)
            totals = [a + b for a, b in zip(totals, counts.summary)]
        self.superblock(**dict(zip(formats.SUMMARY, totals)))


def least_length(name):
    """The least length of an entry's record: eight bytes, then the name and its NUL, in fours."""
    return 8 + cover(len(name) + 1, 4) * 4
