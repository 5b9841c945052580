"""A makefs image that can be damaged, and the tree that an image holds, read without the checker and without Sleuthkit."""
from images import formats
from images.formats import DIRECTORY
from images.reading import DIRECT, Inode, Layout, fields_at, number_at, order_of, words_at

FORMAT = 0o170000
SYMLINK = 0o120000
LEVELS = 400


class Volume:
    """The bytes of an image, with its layout."""

    def __init__(self, image):
        self.image = bytearray(image)
        self.order = order_of(self.image, formats.SUPERBLOCK_AT)
        self.layout = Layout.read(self.image, formats.SUPERBLOCK_AT, self.order)

    def put(self, place, width, number):
        self.image[place:place + width] = (number % (1 << 8 * width)).to_bytes(width, self.order)

    def number(self, place, width):
        return number_at(self.image, place, width, self.order)

    def inode(self, i):
        return fields_at(self.image, formats.INODE, self.layout.inode_place(i), self.order)

    def put_inode(self, i, **fields):
        for name, number in fields.items():
            at, width = formats.INODE[name]
            self.put(self.layout.inode_place(i) + at, width, number)

    def put_superblock(self, name, number, copy=None):
        """Writes a number of the superblock, or of the copy of a group."""
        place = formats.SUPERBLOCK_AT if copy is None else self.layout.copy_place(copy)
        self.put(place + formats.SUPERBLOCK[name][0], 4, number)

    def zero(self, place, length):
        self.image[place:place + length] = bytes(length)

    def mark(self, f):
        """The byte by which the map of its group has a fragment as free, and the number of its bit there."""
        c, k = divmod(f, self.layout.fpg)
        return self.layout.group_place(c) + self.layout.freeoff(self.image, c) + k // 8, k % 8

    def runs(self, i):
        return list(Inode(self.image, self.layout, i).runs(self.image))

    def blocks(self, i):
        """The first fragment of each block of a file, in its order."""
        return [run.start for run in self.runs(i) if run.block is not None]

    def bytes_of(self, i):
        """A file's bytes; holes are zeros."""
        inode, layout = Inode(self.image, self.layout, i), self.layout
        out = bytearray(inode.size)
        for run in inode.runs(self.image):
            if run.block is None:
                continue
            place, length = run.start * layout.fsize, run.length * layout.fsize
            first = run.block * layout.bsize
            piece = self.image[place:place + min(length, inode.size - first)]
            out[first:first + len(piece)] = piece
        return bytes(out)

    def entries(self, i):
        """The entries of a directory: place in the image, number, record length, type, name. A chunk that is damaged ends early."""
        layout = self.layout
        size = Inode(self.image, layout, i).size
        for run in self.runs(i):
            if run.block is None:
                continue
            first = run.block * layout.bsize
            for chunk in range(0, min(run.length * layout.fsize, size - first), formats.CHUNK_BYTES):
                start = run.start * layout.fsize + chunk
                yield from self._chunk(start)

    def _chunk(self, start):
        place, end = start, start + formats.CHUNK_BYTES
        while place + 8 <= end:
            length = self.number(place + 4, 2)
            if length < 8 or length % 4 or place + length > end:
                return
            name = bytes(self.image[place + 8:place + 8 + self.image[place + 7]])
            yield place, self.number(place, 4), length, self.image[place + 6], name.decode("utf-8", "surrogateescape")
            place += length

    def entry(self, path):
        """The place of the entry of a path."""
        folder, _, name = path.rpartition("/")
        return next(place for place, _, _, _, found in self.entries(self.find(folder)) if found == name)

    def find(self, path):
        """The inode of a path, without a slash before it; of "" the root's."""
        i = formats.ROOT_INODE
        for name in path.split("/") if path else []:
            i = next(number for _, number, _, _, found in self.entries(i) if number and found == name)
        return i

    def link_text(self, i):
        inode = self.inode(i)
        if inode["size"] < self.layout.maxsymlinklen:
            place = self.layout.inode_place(i) + 40
            return bytes(self.image[place:place + inode["size"]])
        return self.bytes_of(i)

    def tree(self, i=formats.ROOT_INODE, path="", depth=0):
        """All paths below a directory, each with what it is: the bytes of a file or a link; of any other its mode."""
        out = {}
        for _, number, _, _, name in self.entries(i):
            if not number or name in (".", "..") or depth > LEVELS:
                continue
            kind = self.inode(number)["mode"] & FORMAT
            below = f"{path}/{name}" if path else name
            if kind == DIRECTORY:
                out[below] = "directory"
                out.update(self.tree(number, below, depth + 1))
            elif kind == SYMLINK:
                out[below] = self.link_text(number)
            else:
                out[below] = self.bytes_of(number) if kind == formats.REGULAR else oct(kind)
        return out


def tree_of(name):
    """The tree of an image in a file, or none where its superblock or root can't be read."""
    with open(name, "rb") as it:
        image = it.read()
    if order_of(image, formats.SUPERBLOCK_AT) is None:
        return {}
    return Volume(image).tree()
