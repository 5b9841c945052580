"""Small random volumes that are consistent, and random damage to them."""

from . import formats
from .opening import is_readable
from .reading import cover, number_at
from .turning import reads_of
from .volume import Volume, least_length

TYPES_OF_FILES = [0o010000, 0o020000, 0o060000, 0o100000, 0o100000, 0o100000, 0o120000, 0o140000]


def random_volume(rng):
    """A volume of 60 to 300 KiB with a random shape and random files."""
    while True:
        v = Volume(rng.choice([formats.LITTLE, formats.BIG]))
        if shape(v, rng) and is_readable(v.image, None):
            break
    fill(v, rng)
    v.book()
    for c in range(v.layout.ncg):
        v.copy_superblock(to=v.layout.copy_place(c))
    return v


def shape(v, rng):
    """Chooses the numbers of the superblock and makes the groups; answers whether they fit."""
    frag = rng.choice([1, 2, 4, 8])
    fsize = max(512, 4096 // frag * rng.choice([1, 1, 1, 2]))
    bsize, inopb = fsize * frag, fsize * frag // 128
    ipg = inopb * rng.choice([1, 1, 2, 3])
    ncg = rng.choice([1, 1, 2, 3, 4])
    sbsize = rng.choice([1376, 2048, 4096, 8192])
    cgsize = rng.choice([bsize, 1024, rng.randrange(400, 1024)])
    sblkno = max(1, 16384 // fsize) if rng.random() < 0.6 else cover(8192 + 1376, fsize) + rng.randrange(3)
    cblkno = sblkno + cover(sbsize, fsize) + rng.randrange(2)
    iblkno = cblkno + cover(cgsize, fsize) + rng.randrange(2)
    dblkno = iblkno + cover(ipg * 128, fsize) + rng.randrange(2)
    cgoffset, cgmask = rng.choice([0, 0, 1, 2, 3]), rng.choice([0xFFFFFFFF, 0, 0xFFFFFFFE, 0xFFFFFFFC])
    late = max(cgoffset * (c & ~cgmask) for c in range(ncg))
    least = cover(dblkno + late + 4, frag)
    fpg = frag * (least + rng.randrange(1, 24))
    size = fpg * ncg - rng.choice([0, 0, rng.randrange(frag * 4)])
    cpg = rng.choice([1, 4])
    if size * fsize > 300 * 1024 or cover(ipg, 8) + cover(fpg, 8) + 168 > cgsize:
        return False
    length = size * fsize + rng.choice([0, 0, 1, 700])
    v.image = bytearray(length)
    cssize = rng.choice([16 * ncg, fsize])
    v.superblock(
        sblkno=sblkno, cblkno=cblkno, iblkno=iblkno, dblkno=dblkno, cgoffset=cgoffset, cgmask=cgmask, size=size,
        dsize=max(1, size - ncg * dblkno), ncg=ncg, bsize=bsize, fsize=fsize, frag=frag, minfree=10, sbsize=sbsize,
        nindir=bsize // 4, inopb=inopb, optim=rng.randrange(2), csaddr=dblkno, cssize=max(cssize, 16 * ncg),
        cgsize=cgsize, ncyl=(ncg - 1) * cpg + 1, cpg=cpg, ipg=ipg, fpg=fpg, maxsymlinklen=rng.choice([60, 60, 0]),
        inodefmt=2, postblformat=1, magic=formats.FS_MAGIC, mount=rng.choice([b"/mnt", b"/", b"/usr\nx", b"m" * 512]))
    if not is_readable(v.image, None):
        return False
    for c in range(ncg):
        v.group(c, magic=formats.CG_MAGIC, cgx=c, ndblk=v.layout.fragments(c), iusedoff=168,
                freeoff=168 + cover(ipg, 8))
    return True


class Room:
    """The free fragments of a volume, given out block by block."""

    def __init__(self, layout, rng):
        self.layout = layout
        self.free = [f for f in range(0, layout.size, layout.frag)
                     if all(g < layout.size and not layout.is_reserved(g) for g in range(f, f + layout.frag))]
        rng.shuffle(self.free)

    def block(self):
        return self.free.pop() if self.free else 0


def fill(v, rng):
    """Makes the directories and files of a volume."""
    layout, room = v.layout, Room(v.layout, rng)
    numbers = list(range(3, layout.ncg * layout.ipg))
    if rng.random() < 0.5:
        numbers = numbers[:20]
    rng.shuffle(numbers)
    entries, links, parents, room_of = {2: []}, {2: 2}, {2: 2}, {2: room.block()}
    for number in numbers[:rng.randrange(0, min(16, len(numbers)))]:
        parent = rng.choice(list(entries))
        is_directory = rng.random() < 0.4 and len(room.free) > 0
        kind = formats.DIRECTORY if is_directory else rng.choice(TYPES_OF_FILES)
        entries[parent].append((number, kind >> 12, random_name(rng)))
        if kind == formats.DIRECTORY:
            entries[number], parents[number], links[number] = [], parent, 2
            links[parent] += 1
            room_of[number] = room.block()
            continue
        links[number] = 1
        if rng.random() < 0.2:
            entries[rng.choice(list(entries))].append((number, kind >> 12, random_name(rng)))
            links[number] += 1
        random_file(v, rng, room, number, kind, links[number])
    if rng.random() < 0.1:
        entries[2].append((1, 14, b"white"))
    for number, listed in entries.items():
        random_directory(v, rng, room_of[number], number, parents[number], listed, links[number])


def random_name(rng):
    if rng.random() < 0.05:
        return b"x" + bytes(rng.choice(b"abcxyz.-\xe9\x7f\n") for _ in range(rng.choice([0, 1, 2, 8, 30, 254])))
    return b"n%d" % rng.randrange(10 ** rng.choice([1, 3, 9]))


def random_file(v, rng, room, number, kind, nlink):
    """A file with data, holes or indirect blocks; a device, or a symbolic link."""
    layout = v.layout
    mode = kind | rng.choice([0o644, 0o755, 0o7777, 0])
    common = {"mode": mode, "nlink": nlink, "uid": rng.choice([0, 1000, 2 ** 32 - 1]),
              "mtime": rng.choice([0, -1, 1700000000])}
    if kind in (0o020000, 0o060000):
        v.inode(number, direct=[rng.randrange(1 << 16)], **common)
    elif kind == 0o120000 and layout.maxsymlinklen:
        v.inode(number, size=8, direct=[0x61616161, 0x61616161], **common)
    elif kind in (0o100000, 0o120000):
        blocks(v, rng, room, number, common)
    else:
        v.inode(number, **common)


def blocks(v, rng, room, number, common):
    layout = v.layout
    count = rng.choice([0, 1, 1, 2, 3, 12, 13, 15])
    short = rng.choice([0, 1, layout.fsize, layout.bsize - 1]) if 0 < count else 0
    size = count * layout.bsize - short
    used, direct = 0, []
    for k in range(min(count, 12)):
        address = 0 if rng.random() < 0.3 else room.block()
        direct.append(address)
        if address:
            is_last = k == count - 1 and size % layout.bsize
            used += cover(size % layout.bsize, layout.fsize) if is_last else layout.frag
    single = room.block() if count > 12 else 0
    if single:
        words = [room.block() if rng.random() < 0.7 else 0 for _ in range(count - 12)]
        v.words(single, words)
        used += layout.frag * (1 + sum(1 for word in words if word))
    v.inode(number, size=size, direct=direct, single=single, blocks=used * layout.fsize // 512, **common)


def random_directory(v, rng, block, number, parent, listed, nlink):
    """A directory of as many chunks as its entries need, in the fragments of one block."""
    chunks, used = [[(number, 4, b"."), (parent, 4, b"..")]], 24
    for entry in listed:
        if used + least_length(entry[2]) > formats.CHUNK_BYTES or rng.random() < 0.1:
            chunks.append([])
            used = 0
        chunks[-1].append(entry)
        used += least_length(entry[2])
    layout = v.layout
    for k, entries in enumerate(chunks):
        v.chunk(block, entries, at=k * formats.CHUNK_BYTES)
    size = len(chunks) * formats.CHUNK_BYTES
    v.inode(number, mode=0o040755, nlink=nlink, size=size, direct=[block],
            blocks=cover(size, layout.fsize) * layout.fsize // 512)


# --- damage ---

def damaged(rng, image, layout, reads):
    """A copy of an image with a few random changes; `reads` says where its numbers are."""
    out = bytearray(image)
    for _ in range(0 if rng.random() < 0.03 else 1 + min(11, int(rng.expovariate(0.5)))):
        rng.choice(DAMAGES)(rng, out, layout, reads)
    if rng.random() < 0.03:
        del out[rng.randrange(len(out) + 1):]
    elif rng.random() < 0.03:
        out += bytes(rng.randrange(256) for _ in range(rng.randrange(1, 600)))
    return out


def random_value(rng, layout, old, width):
    size, bsize = layout.size, layout.bsize
    value = rng.choice([
        0, 1, 2, -1, old + 1, old - 1, old * 2, old ^ (1 << rng.randrange(8 * width)), rng.randrange(64),
        rng.randrange(size + 8), rng.randrange(size + 8), rng.randrange(layout.ncg * layout.ipg + 2), size,
        layout.dblkno, bsize, bsize * 12, bsize * 12 + 1, bsize * rng.randrange(20), 512 * rng.randrange(40),
        2 ** 31 - 1, 2 ** 31, rng.getrandbits(8 * width)])
    return value % (1 << (8 * width))


def put(rng, out, layout, place, width):
    if place + width <= len(out):
        old = number_at(out, place, width, layout.order)
        out[place:place + width] = random_value(rng, layout, old, width).to_bytes(width, layout.order)


def change_field(kind):
    """Damage to a field of a structure of one kind."""

    def change(rng, out, layout, reads):
        places = reads.by_kind.get(kind)
        if places:
            at, width = rng.choice(list(formats.STRUCTURES[kind].values()))
            put(rng, out, layout, rng.choice(places) + at, width)

    return change


def change_superblock(rng, out, layout, reads):
    """Damage to a field of the primary, with its last copy: or of one of them."""
    at, width = rng.choice(list(formats.SUPERBLOCK.values()))
    value = random_value(rng, layout, number_at(out, 8192 + at, width, layout.order), width)
    for place in rng.choice([reads.by_kind["superblock"], reads.by_kind["superblock"], [8192]]):
        if place + 1376 <= len(out):
            out[place + at:place + at + width] = value.to_bytes(width, layout.order)


def change_type(rng, out, layout, reads):
    place = rng.choice(reads.by_kind["inode"])
    mode = rng.choice(sorted(formats.TYPES) + [0, 0o170000, 0o160000]) | 0o755
    out[place:place + 2] = mode.to_bytes(2, layout.order)


def share_address(rng, out, layout, reads):
    """An address of one inode, or of an indirect block, becomes that of another inode."""
    source, target = (rng.choice(reads.by_kind["inode"]) for _ in range(2))
    places = [place + 4 * rng.randrange(64) for place in reads.by_kind.get("words", [])]
    place = rng.choice(places + [target + 40 + 4 * rng.choice([0, 0, 1, 2, 11, 12, 13, 14])])
    address = source + 40 + 4 * rng.choice([0, 0, 0, 1, 12])
    if place + 4 <= len(out):
        out[place:place + 4] = out[address:address + 4]


def copy_inode(rng, out, layout, reads):
    source, target = (rng.choice(reads.by_kind["inode"]) for _ in range(2))
    out[target:target + 128] = bytes(128) if rng.random() < 0.3 else out[source:source + 128]


def change_name(rng, out, layout, reads):
    """Damage to an entry's type, name length or name."""
    if reads.by_kind.get("entry"):
        place = rng.choice(reads.by_kind["entry"]) + rng.choice([6, 7, 8, 9, 10])
        if place < len(out):
            out[place] = rng.choice([0, 1, 4, 8, 14, 46, 47, 97, 255, rng.randrange(256)])


def change_word(rng, out, layout, reads):
    if reads.by_kind.get("words"):
        put(rng, out, layout, rng.choice(reads.by_kind["words"]) + 4 * rng.choice([0, 1, rng.randrange(64)]), 4)


def change_map(rng, out, layout, reads):
    place = rng.choice(reads.by_kind["group"]) + 168 + rng.randrange(40)
    if place < len(out):
        out[place] ^= 1 << rng.randrange(8)


def change_byte(rng, out, layout, reads):
    """A bit anywhere."""
    if out:
        out[rng.randrange(len(out))] ^= 1 << rng.randrange(8)


DAMAGES = (
    [change_field("inode")] * 6 + [change_field("entry")] * 4 + [change_field("group")] * 2 +
    [change_field("summary"), change_superblock, change_superblock, change_type, change_type, share_address,
     share_address, share_address, copy_inode, change_name, change_name, change_name, change_word, change_word,
     change_map, change_byte])


def places_of(image):
    """Where the structures of a volume are, by kind."""
    reads = reads_of(image)
    by_kind = {"words": list(reads.blocks)}
    for place, kind in reads.structures:
        by_kind.setdefault(kind, []).append(place)
    reads.by_kind = {kind: sorted(places) for kind, places in by_kind.items() if places}
    return reads
