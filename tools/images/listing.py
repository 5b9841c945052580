"""Images as listings: each number by its name, so that the same listing makes the image in both byte orders.

    order little                             the order of the image that has the listing's name; the twin has the other
    length 131072
    fill zeros                               all that no line sets: zeros, or noise
    superblock 8192 sblkno=16 cblkno=24 ..   the numbers of a structure at a byte; those not named are 0
    words 40960 44 3*0 99                    words of an indirect block; 3*0 is 0 three times
    bytes 8404 2f6d6e74 508*00               bytes, which no order turns
"""

import hashlib

from . import formats
from .reading import fields_at
from .volume import Volume


def noise(name, length):
    """Bytes without a meaning: 509 of them, again and again, others for each name."""
    piece = b"".join(hashlib.sha512(f"{name} {k}".encode()).digest() for k in range(8))[:509]
    return (piece * (length // len(piece) + 1))[:length]


def order_of_listing(text):
    return text.split()[1]


def make(name, text, order):
    """The image of a listing."""
    volume = Volume(order)
    for line in text.splitlines():
        kind, *words = line.split()
        if kind == "order":
            continue
        if kind == "length":
            volume.image = bytearray(int(words[0]))
        elif kind == "fill":
            volume.image[:] = noise(name, len(volume.image)) if words[0] == "noise" else bytes(len(volume.image))
        elif kind == "words":
            place = int(words[0])
            for value in _repeated(words[1:]):
                volume.number(place, 4, int(value))
                place += 4
        elif kind == "bytes":
            volume.bytes_at(int(words[0]), b"".join(map(bytes.fromhex, _repeated(words[1:]))))
        else:
            table = formats.STRUCTURES[kind]
            values = {name: 0 for name in table}
            values.update((name, int(value)) for name, value in (word.split("=") for word in words[1:]))
            volume.fields(table, int(words[0]), values)
    return bytes(volume.image)


def _repeated(words):
    for word in words:
        times, _, value = word.rpartition("*")
        yield from [value] * int(times or 1)


def listing_of(image, reads, order):
    """The listing of an image by what a check reads of it; `reads` is what `turning.reads_of` answers. Where most
    bytes that aren't read are not zero, they are noise."""
    unread = [place for place, mark in enumerate(reads.marks) if not mark]
    is_noise = sum(1 for place in unread if image[place]) > len(unread) // 2 and unread
    lines = []
    done = bytearray(len(image))
    for place, kind in sorted(reads.structures):
        values = fields_at(image, formats.STRUCTURES[kind], place, order)
        named = " ".join(f"{name}={value}" for name, value in values.items() if value)
        lines.append((place, f"{kind} {place} {named}".rstrip()))
        for at, width in formats.STRUCTURES[kind].values():
            done[place + at:place + at + width] = b"\1" * width
    for place, count in sorted(reads.blocks.items()):
        words = [int.from_bytes(image[p:p + 4], order) for p in range(place, place + 4 * count, 4)]
        lines.append((place, f"words {place} {_short(words)}"))
        done[place:place + 4 * count] = b"\1" * (4 * count)
    for start, end in _stretches(image, reads.marks, done, is_noise):
        lines.append((start, f"bytes {start} {_short([f'{b:02x}' for b in image[start:end]])}"))
    head = [f"order {order}", f"length {len(image)}", f"fill {'noise' if is_noise else 'zeros'}"]
    return "\n".join(head + [line for _, line in sorted(lines, key=lambda line: line[0])]) + "\n"


def _stretches(image, marks, done, is_noise):
    """The stretches of bytes that structures and words leave: all that are read, or else all that aren't zero."""
    def is_wanted(place):
        return not done[place] and (marks[place] if is_noise else image[place])

    place = 0
    while place < len(image):
        start = place
        while place < len(image) and is_wanted(place):
            place += 1
        if place > start:
            yield start, place
        place += 1


def _short(values):
    """Values in a row, equal ones counted; single bytes stand together."""
    groups = []
    for value in values:
        if groups and groups[-1][1] == value:
            groups[-1][0] += 1
        else:
            groups.append([1, value])
    words = []
    for times, value in groups:
        is_bytes = isinstance(value, str)
        if is_bytes and times < 4:
            if words and "*" not in words[-1] and len(words[-1]) < 64:
                words[-1] += value * times
            else:
                words.append(value * times)
        elif times == 1:
            words.append(str(value))
        else:
            words.append(f"{times}*{value}")
    return " ".join(words)
