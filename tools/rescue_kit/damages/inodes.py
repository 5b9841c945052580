"""Damaged inodes: modes, sizes, addresses, indirect blocks."""
import os
import re
import subprocess
from collections import Counter

from ..case import NotHere, Wrong, fragments_of, number_of, owners_of, places_of
from ..sources import SHORT_LINKS
from .all import damage
from .names import entries_in

WILD = 0x0BADF00D
HIGH_BIT = 1 << 50
LOW_BIT = 1 << 30
ENDLESS_BIT = 1 << 41


def mend(case, i, recipes, **values):
    """Puts fields of inode i into a further copy, and checks it."""
    return case.run(f"further place {recipes} check", i=i, **values)


def overwrite(case, f):
    """Writes text over a block."""
    at, length = f * case.volume.layout.fsize, case.volume.layout.bsize
    case.volume.image[at:at + length] = (b"All work and no play makes Jack a dull boy. " * length)[:length]


def first_lost(case):
    """The first fragment that no file has."""
    return int(case.run("lost").split()[0])


def put_lost(case, i, k, word=None):
    """Puts the first lost fragment at an address of inode i, or at a word of the indirect block that this names, and checks the copy."""
    if word is None:
        return mend(case, i, "address", k=k, f=first_lost(case))
    return case.run("further word check", b=fragments_of(case.run("inode", i=i))[k], k=word, f=first_lost(case))


def words_of(case, i, k):
    """The words of the indirect block at an address of inode i."""
    printed = case.run("words", b=fragments_of(case.run("inode", i=i))[k], order=case.volume.order)
    return [int(line.split()[1]) for line in printed.splitlines()]


@damage("a file's mode became 0")
def mode_zero(case):
    case.volume.put_inode(case.volume.find("docs/letter"), mode=0)
    case.at_stake("docs/letter")
    report = case.report("PARTIALLY ALLOCATED INODE", "UNALLOCATED")
    i = report.first("PARTIALLY ALLOCATED INODE")["inode"]
    case.run("bytes", i=i)
    mend(case, i, "mode", mode="100644")


@damage("a FIFO's mode became 0: nothing is left of it but its links")
def fifo_mode_zero(case):
    case.volume.put_inode(case.volume.find("pipe"), mode=0)
    case.at_stake("pipe")
    i = case.report("UNALLOCATED").first("UNALLOCATED")["inode"]
    if not number_of(case.run("inode", i=i), "links"):
        raise Wrong("it has no links")
    if mend(case, i, "mode", mode="10600").status:
        raise Wrong("it isn't consistent")


@damage("a device's mode became 0")
def device_mode_zero(case):
    i, e = case.volume.find("pipe"), case.volume.entry("pipe")
    case.volume.put_inode(i, mode=0, direct0=259)
    case.volume.put(e + 6, 1, 2)
    case.at_stake("pipe")
    case.report("PARTIALLY ALLOCATED INODE", "UNALLOCATED")
    if next(entry.type for entry in entries_in(case, "/") if entry.name == "pipe") != 2 or mend(case, i, "mode", mode="20600").status:
        raise Wrong("its entry's type isn't that of a device, or it isn't consistent")


@damage("the modes of two files became 0, and the bytes of both are copied before one is mended")
def two_modes_zero(case):
    paths = ("docs/letter", "mail/in/one")
    for path in paths:
        case.volume.put_inode(case.volume.find(path), mode=0)
    case.at_stake(*paths)
    report = case.report("PARTIALLY ALLOCATED INODE", "UNALLOCATED")
    for message in report.of("PARTIALLY ALLOCATED INODE"):
        case.run("bytes", i=message["inode"])


@damage("a file's mode became 0, and the disk is full when it is mended")
def mode_zero_full(case):
    case.volume.put_inode(case.volume.find("docs/letter"), mode=0)
    case.at_stake("docs/letter")
    i = case.report("PARTIALLY ALLOCATED INODE").first("PARTIALLY ALLOCATED INODE")["inode"]
    case.on_full_disk("further place mode check keep", i=i, mode="100644")
    mend(case, i, "mode", mode="100644")


@damage("a file has a hole of 64 MB")
def hole(case):
    i = case.volume.find("big/film")
    case.volume.put_inode(i, size=64 << 20)
    case.at_stake("big/film")
    case.report()
    case.run("names bytes", i=i)
    if os.stat(f"{case.place}/saved.{i}").st_blocks > 1 << 12:
        raise Wrong("the hole takes place on the disk")


@damage("a word of an indirect block became a free block, and the shell has `set -e`")
def strict_shell(case):
    damage_word(case, 17, free_block(case))
    case.report("BLK(S) MISSING IN BIT MAPS")
    for recipe in ("lost", "marked-free", "list", "rest"):
        case.strictly(recipe)
    mend_free(case)


@damage("a directory's mode became 0")
def directory_mode_zero(case):
    case.volume.put_inode(case.volume.find("docs/names"), mode=0)
    case.at_stake(*[path for path in case.tree if path.startswith("docs/names")])
    report = case.report("PARTIALLY ALLOCATED INODE", "UNALLOCATED")
    mend(case, report.first("PARTIALLY ALLOCATED INODE")["inode"], "mode", mode="40755")


@damage("a short link's mode became 0")
def link_mode_zero(case):
    case.volume.put_inode(case.volume.find("mail/short"), mode=0)
    case.at_stake("mail/short")
    report = case.report("PARTIALLY ALLOCATED INODE", "UNALLOCATED")
    i = report.first("PARTIALLY ALLOCATED INODE")["inode"]
    case.run("place text", i=i)
    mend(case, i, "mode", mode="120777")


@damage("a file's type became one that there isn't")
def mode_unknown(case):
    case.volume.put_inode(case.volume.find("docs/report"), mode=0o170644)
    case.at_stake("docs/report", "mail/report_too")
    i = case.report("UNKNOWN FILE TYPE").first("UNKNOWN FILE TYPE")["inode"]
    case.run("bytes", i=i)
    mend(case, i, "mode", mode="100644")


@damage("a short link's type became one that there isn't")
def link_mode_unknown(case):
    case.volume.put_inode(case.volume.find("mail/short"), mode=0o070777)
    case.at_stake("mail/short")
    i = case.report("UNKNOWN FILE TYPE").first("UNKNOWN FILE TYPE")["inode"]
    case.run("place text", i=i)
    mend(case, i, "mode", mode="0120777")


@damage("a directory's type became one that there isn't")
def directory_mode_unknown(case):
    case.volume.put_inode(case.volume.find("mail/in"), mode=0o170755)
    case.at_stake("mail/in", "mail/in/one", "mail/in/two")
    i = case.report("UNKNOWN FILE TYPE").first("UNKNOWN FILE TYPE")["inode"]
    mend(case, i, "mode", mode="40755")


def put_hole(case):
    """Moves the last half of the words of the film's indirect block on, so that it has a hole, and more bytes than the volume. Of a hole that
    has itself more than the volume Sleuthkit reads nothing."""
    volume, image, layout = case.volume, case.volume.image, case.volume.layout
    i, at = volume.find("big/film"), indirect_place(case)
    count = len(volume.blocks(i)) - 12
    moved = min(layout.bsize // 4 - count, layout.size // layout.frag - 60)
    begin, end = at + 4 * (count - count // 2), at + 4 * count
    words = image[begin:end]
    volume.zero(begin, end - begin)
    image[begin + 4 * moved:end + 4 * moved] = words
    volume.put_inode(i, size=volume.inode(i)["size"] + moved * layout.bsize)
    case.tree["big/film"] = volume.bytes_of(i)
    return i


@damage("a sound file with a hole is larger than the volume")
def hole_within(case):
    i = put_hole(case)
    case.at_stake("big/film")
    if case.report() or f"inode {i}: its size is {len(case.tree['big/film'])}, and it is passed over" not in case.complaints("all"):
        raise Wrong("it isn't sound, or it isn't passed over")
    case.run("names all bytes", i=i)


@damage("the size of a file with a hole became smaller")
def hole_size(case):
    case.volume.put_inode(put_hole(case), size=800000)
    case.at_stake("big/film")
    i = case.report("PARTIALLY TRUNCATED INODE", "INCORRECT BLOCK COUNT").first("PARTIALLY TRUNCATED INODE")["inode"]
    last = max(k for k, word in enumerate(words_of(case, i, 12)) if word)
    if mend(case, i, "size", size=(12 + last + 1) * case.volume.layout.bsize).status:
        raise Wrong("it isn't consistent")


@damage("a bit of a file's size was set, beyond what a file can have")
def size_too_large(case):
    i = case.volume.find("docs/report")
    case.volume.put_inode(i, size=case.volume.inode(i)["size"] + HIGH_BIT)
    case.at_stake("docs/report", "mail/report_too")
    i = case.report("UNKNOWN FILE TYPE").first("UNKNOWN FILE TYPE")["inode"]
    size = number_of(case.run("inode", i=i), "size")
    mend(case, i, "size", size=size - (1 << size.bit_length() - 1))
    case.run("keep bytes", i=i)


@damage("a bit of a file's size was set, within what a file can have")
def size_large(case):
    i = case.volume.find("docs/letter")
    case.volume.put_inode(i, size=case.volume.inode(i)["size"] + LOW_BIT)
    case.at_stake("docs/letter")
    report = case.report("DUP", "INCORRECT BLOCK COUNT")
    i = report.first("INCORRECT BLOCK COUNT")["inode"]
    size = number_of(case.run("inode", i=i), "size")
    mend(case, i, "size", size=size - (1 << size.bit_length() - 1))


@damage("a bit of a file's size was set, within what a file can have, so that no tool comes to the end of it")
def size_endless(case):
    i = case.volume.find("docs/letter")
    case.volume.put_inode(i, size=case.volume.inode(i)["size"] + ENDLESS_BIT)
    case.at_stake(*[path for path, data in case.tree.items() if isinstance(data, bytes) and path not in SHORT_LINKS])
    report = case.report("DUP", "INCORRECT BLOCK COUNT")
    i = report.first("INCORRECT BLOCK COUNT")["inode"]
    case.run("attributes")
    size = number_of(case.run("inode", i=i), "size")
    if f"|{size}|" not in case.bytes_of("saved.list").decode("utf-8", "surrogateescape"):
        raise Wrong("the size isn't in saved.list")
    mend(case, i, "size", size=size - (1 << size.bit_length() - 1))
    case.trees = []
    case.run("keep all")


@damage("the sizes of a file and of a link became endless, among others")
def sizes_endless(case):
    case.volume.put_inode(case.volume.find("docs/letter"), size=1 << 50)
    case.volume.put_inode(case.volume.find("mail/short"), size=1 << 50)
    case.volume.put_inode(case.volume.find("big/photo"), size=1 << 50)
    case.at_stake(*[path for path in case.tree if path not in SHORT_LINKS])
    case.report("UNKNOWN FILE TYPE")
    if "disk full" not in case.on_full_disk("all") or os.path.exists(f"{case.place}/bounded.img"):
        raise Wrong("on a full disk nothing says so, or a copy is left")
    case.run("names all")
    if case.complaints("all").count("is read up to byte") != 3:
        raise Wrong("the inodes that aren't read to their end aren't named")


@damage("addresses of files became ones outside of the volume, and their blocks aren't put back")
def addresses_bad(case):
    volume, bsize = case.volume, case.volume.layout.bsize
    volume.put_inode(volume.find("big/film"), direct3=WILD)
    volume.put_inode(volume.find("big/photo"), single=WILD)
    film, photo = case.tree["big/film"], case.tree["big/photo"]
    case.tree["big/film"] = film[:3 * bsize] + bytes(bsize) + film[4 * bsize:]
    case.tree["big/photo"] = photo[:12 * bsize] + bytes(max(0, len(photo) - 12 * bsize))
    case.at_stake(*[path for path in case.tree if path not in SHORT_LINKS])
    case.report("BAD")
    case.run("names all")


@damage("the size of a file without a name became endless")
def size_endless_unnamed(case):
    case.volume.put(case.volume.entry("docs/letter"), 4, 99999)
    case.volume.put_inode(case.volume.find("docs/letter"), size=LOW_BIT + ENDLESS_BIT)
    case.at_stake("docs/letter")
    case.at_stake("mail/in/one", name=False)
    case.volume.put(case.volume.entry("mail/in"), 4, 99998)
    case.report("I OUT OF RANGE", "UNREF")
    case.run("unnamed")


@damage("a file's size became larger than the volume, and its triple indirect block holds anything")
def size_and_address(case):
    volume = case.volume
    volume.put_inode(volume.find("docs/report"), size=1 << 40, triple=volume.blocks(volume.find("big/film"))[0])
    case.at_stake(*[path for path in case.tree if path not in {*SHORT_LINKS, "docs/report", "mail/report_too"}])
    case.report("EXCESSIVE BAD BLKS")
    if "is passed over" not in case.complaints("all"):
        raise Wrong("what is passed over isn't named")
    case.run("names all")


def right_most(case, i):
    """The most that a file's size can be by its count of sectors: all of them but its indirect blocks."""
    said = case.run("inode", i=i)
    indirect = sum(k >= 12 for k in fragments_of(said))
    return 512 * number_of(said, "blocks") - indirect * case.volume.layout.bsize


@damage("a file's size became any number")
def size_garbage(case):
    case.volume.put_inode(case.volume.find("docs/letter"), size=0xFEDCBA9876543210)
    case.at_stake("docs/letter")
    i = case.report("UNKNOWN FILE TYPE").first("UNKNOWN FILE TYPE")["inode"]
    mend(case, i, "size", size=right_most(case, i))
    case.run("keep bytes", i=i)


@damage("a file's size became smaller: addresses are left that it doesn't use")
def size_too_small(case):
    case.volume.put_inode(case.volume.find("docs/report"), size=5000)
    case.at_stake("docs/report", "mail/report_too")
    i = case.report("UNKNOWN FILE TYPE").first("UNKNOWN FILE TYPE")["inode"]
    mend(case, i, "size", size=right_most(case, i))
    case.run("keep bytes", i=i)


@damage("a file's size became smaller within its first block")
def size_within_block(case):
    case.volume.put_inode(case.volume.find("docs/letter"), size=100)
    case.at_stake("docs/letter")
    i = case.report("INCORRECT BLOCK COUNT").first("INCORRECT BLOCK COUNT")["inode"]
    mend(case, i, "size", size=right_most(case, i))
    case.run("keep bytes", i=i)


def file_before_free(case):
    """A file that a free fragment of its last block follows."""
    volume = case.volume
    for path, data in case.tree.items():
        if isinstance(data, bytes) and len(data) >= volume.layout.maxsymlinklen:
            run = volume.runs(volume.find(path))[-1]
            place, bit = volume.mark(run.start + run.length)
            if run.length < volume.layout.frag and volume.image[place] >> bit & 1:
                return path
    raise NotHere


@damage("a file's size became larger by a free fragment")
def size_larger_within_block(case):
    path = file_before_free(case)
    i = case.volume.find(path)
    case.volume.put_inode(i, size=case.volume.inode(i)["size"] + case.volume.layout.fsize)
    case.at_stake(path)
    i = case.report("INCORRECT BLOCK COUNT", "BLK(S) MISSING IN BIT MAPS").first("INCORRECT BLOCK COUNT")["inode"]
    if i not in owners_of(case.run("owners", f=int(case.run("marked-free").split()[0]))):
        raise Wrong("the file doesn't have the fragments that are marked as free")
    mend(case, i, "size", size=right_most(case, i))
    case.run("keep bytes", i=i)


@damage("a file's size became smaller, within its indirect block")
def size_truncates(case):
    case.volume.put_inode(case.volume.find("big/film"), size=700000)
    case.at_stake("big/film")
    i = case.report("PARTIALLY TRUNCATED INODE").first("PARTIALLY TRUNCATED INODE")["inode"]
    mend(case, i, "size", size=right_most(case, i))
    case.run("keep bytes", i=i)


@damage("an address was set that a file doesn't use")
def address_unused(case):
    case.volume.put_inode(case.volume.find("docs/letter"), direct9=WILD)
    case.at_stake("docs/letter")
    i = case.report("UNKNOWN FILE TYPE").first("UNKNOWN FILE TYPE")["inode"]
    said = case.run("inode", i=i)
    case.run("bytes", i=i)
    mend(case, i, "address", k=max(fragments_of(said)), f=0)


@damage("a file's address points outside of the volume")
def address_bad(case):
    case.volume.put_inode(case.volume.find("docs/report"), direct2=WILD)
    case.at_stake("docs/report", "mail/report_too")
    bad = case.report("BAD").first("BAD")
    said = fragments_of(case.run("inode", i=bad["inode"]))
    k = next(k for k, f in said.items() if f == bad["fragment"])
    mend(case, bad["inode"], "address", k=k, f=first_lost(case))


@damage("the address of an indirect block points outside of the volume")
def indirect_address_bad(case):
    case.volume.put_inode(case.volume.find("big/film"), single=WILD)
    case.at_stake("big/film")
    bad = case.report("BAD").first("BAD")
    mend(case, bad["inode"], "address", k=12, f=first_lost(case))


@damage("a file's address became 0")
def address_zero(case):
    case.volume.put_inode(case.volume.find("big/photo"), direct7=0)
    case.at_stake("big/photo")
    i = case.report("INCORRECT BLOCK COUNT").first("INCORRECT BLOCK COUNT")["inode"]
    said = fragments_of(case.run("inode", i=i))
    k = next(k for k in range(12) if k not in said)
    mend(case, i, "address", k=k, f=first_lost(case))


@damage("the address of an indirect block became 0, of a file that passes cylinder groups")
def indirect_address_zero(case):
    case.volume.put_inode(case.volume.find("big/film"), single=0)
    case.at_stake("big/film")
    i = case.report("INCORRECT BLOCK COUNT").first("INCORRECT BLOCK COUNT")["inode"]
    mend(case, i, "address", k=12, f=first_lost(case))


def indirect_place(case):
    volume = case.volume
    return volume.inode(volume.find("big/film"))["single"] * volume.layout.fsize


@damage("an indirect block became zeros, of a file that passes cylinder groups")
def indirect_zeroed(case):
    case.volume.zero(indirect_place(case), case.volume.layout.bsize)
    case.at_stake("big/film")
    i = case.report("INCORRECT BLOCK COUNT").first("INCORRECT BLOCK COUNT")["inode"]
    refill(case, i)


def refill(case, i):
    case.run("further list refill check", b=fragments_of(case.run("inode", i=i))[12])


@damage("the indirect blocks of two files became zeros")
def two_indirect_zeroed(case):
    volume = case.volume
    paths = ("big/film", "big/photo")
    for path in paths:
        at = volume.inode(volume.find(path))["single"]
        if not at:
            raise NotHere
        volume.zero(at * volume.layout.fsize, volume.layout.bsize)
    case.at_stake(*paths)
    counts = {message["inode"]: message for message in case.report("INCORRECT BLOCK COUNT").of("INCORRECT BLOCK COUNT")}
    missed = {i: (count["count"] - count["right_count"]) * 512 // volume.layout.bsize for i, count in counts.items()}
    blocks = blocks_of(case.run("lost"), volume.layout.frag)
    case.run("further")
    for i in sorted(missed, key=lambda i: fragments_of(case.run("inode", i=i))[11]):
        put_list(case, blocks[:missed[i]])
        blocks = blocks[missed[i]:]
        case.run("refill", b=fragments_of(case.run("inode", i=i))[12])
    case.run("check")


def blocks_of(text, frag):
    """The first fragment of each block in the ranges that the recipe `lost` printed."""
    ranges = (map(int, line.split()) for line in text.splitlines())
    return [f for first, last in ranges for f in range(first, last + 1, frag)]


def put_list(case, blocks):
    """The list that *refill* takes, of these blocks alone."""
    with open(f"{case.place}/list", "w", encoding="ascii") as it:
        it.writelines(f"{f}\n" for f in blocks)


def damage_word(case, k, number):
    """Changes a word of the film's indirect block."""
    case.volume.put(indirect_place(case) + 4 * k, 4, number)
    case.at_stake("big/film")


def mend_word(case, i, value):
    """Puts the lost block at the word of the indirect block that has this value."""
    put_lost(case, i, 12, words_of(case, i, 12).index(value))


@damage("a word of an indirect block points outside of the volume")
def word_bad(case):
    damage_word(case, 17, WILD)
    bad = case.report("BAD").first("BAD")
    mend_word(case, bad["inode"], bad["fragment"])


@damage("a word of an indirect block points outside of the volume, and no lost block fits")
def word_bad_for_good(case):
    volume, bsize = case.volume, case.volume.layout.bsize
    damage_word(case, 17, WILD)
    right = case.tree["big/film"]
    case.tree["big/film"] = right[:29 * bsize] + bytes(bsize) + right[30 * bsize:]
    bad = case.report("BAD").first("BAD")
    i = bad["inode"]
    case.run("bytes", i=i)
    if not case.has_bytes("big/film"):
        raise Wrong("the recipe bytes ends at a BAD address")
    case.run("all")
    if case.trees[-1].get("big/film") != case.tree["big/film"]:
        raise Wrong("the recipe all ends at a BAD address")
    case.run("further word check", b=fragments_of(case.run("inode", i=i))[12], k=words_of(case, i, 12).index(bad["fragment"]), f=0)
    case.run("keep bytes", i=i)
    case.run("all")
    if not any(tree.get("big/film") == case.tree["big/film"] for tree in case.trees):
        raise Wrong("the recipe all passes a hole otherwise than bytes")


@damage("a file's type became one that there isn't, and the indirect block of another one became zeros")
def two_damages(case):
    case.volume.put_inode(case.volume.find("docs/report"), mode=0o170644)
    case.volume.zero(indirect_place(case), case.volume.layout.bsize)
    case.at_stake("docs/report", "mail/report_too", "big/film")
    report = case.report("UNKNOWN FILE TYPE", "INCORRECT BLOCK COUNT")
    found = mend(case, report.first("UNKNOWN FILE TYPE")["inode"], "mode", mode="100644")
    if found.of("UNKNOWN FILE TYPE") or {message["kind"] for message in found} - {message["kind"] for message in report}:
        raise Wrong("the first damage isn't mended, or a message came")
    case.run("keep")
    refill(case, report.first("INCORRECT BLOCK COUNT")["inode"])


@damage("a word of an indirect block became 0")
def word_zero(case):
    damage_word(case, 17, 0)
    mend_word(case, case.report("INCORRECT BLOCK COUNT").first("INCORRECT BLOCK COUNT")["inode"], 0)


@damage("words of an indirect block were moved by one, over the last one")
def words_moved(case):
    at, count = indirect_place(case), len(case.volume.blocks(case.volume.find("big/film"))) - 12
    move_words(case, at + 4 * 17, at + 4 * 18, count - 18, 17)


@damage("words of an indirect block were moved back by one, over another one")
def words_moved_back(case):
    at, count = indirect_place(case), len(case.volume.blocks(case.volume.find("big/film"))) - 12
    move_words(case, at + 4 * 18, at + 4 * 17, count - 18, count - 1)


@damage("words of an indirect block were moved by one, the last one too")
def words_moved_past(case):
    volume = case.volume
    at, count = indirect_place(case), len(volume.blocks(volume.find("big/film"))) - 12
    volume.image[at + 4 * 18:at + 4 * (count + 1)] = volume.image[at + 4 * 17:at + 4 * count]
    damage_word(case, 17, 0)
    i = case.report("PARTIALLY TRUNCATED INODE", "INCORRECT BLOCK COUNT").first("PARTIALLY TRUNCATED INODE")["inode"]
    if right_most(case, i) // volume.layout.bsize != -(-volume.inode(i)["size"] // volume.layout.bsize):
        raise Wrong("its count gives another size")
    case.run("joined further refill check", b=fragments_of(case.run("inode", i=i))[12])


def move_words(case, source, target, count, zero):
    """Moves words of the film's indirect block, and makes one zero; a check of the lost block there ends with 0, over wrong bytes."""
    image = case.volume.image
    image[target:target + 4 * count] = image[source:source + 4 * count]
    damage_word(case, zero, 0)
    i = case.report("INCORRECT BLOCK COUNT").first("INCORRECT BLOCK COUNT")["inode"]
    b, f = fragments_of(case.run("inode", i=i))[12], first_lost(case)
    words, step = words_of(case, i, 12), case.volume.layout.frag
    if put_lost(case, i, 12, zero).status or case.has_bytes("big/film") or words[zero - 1] + step == f or words[zero + 1] - step == f:
        raise Wrong("the lost block fits at the word that is 0, or a check of it doesn't end with 0")
    case.run("joined further refill check", b=b)


@damage("the address of an indirect block became that of a free block that has text")
def indirect_address_free(case):
    overwrite(case, free_block(case))
    indirect_address(case, free_block(case))


@damage("the address of an indirect block became that of another file's block")
def indirect_address_shared(case):
    volume = case.volume
    indirect_address(case, volume.blocks(volume.find("big/photo"))[3])


def indirect_address(case, f):
    """Damages the address of the film's indirect block, and puts the first lost fragment there: what it names is another's, or free."""
    case.volume.put_inode(case.volume.find("big/film"), single=f)
    case.at_stake("big/film", "big/photo")
    found = case.report("EXCESSIVE BAD BLKS")
    i = found.first("EXCESSIVE BAD BLKS")["inode"]
    f = fragments_of(case.run("inode", i=i))[12]
    if found.of("DUP"):
        case.refuses("further zeros", b=f)
        case.refuses("further list refill", b=f)
    elif not any(int(line.split()[0]) <= f <= int(line.split()[-1]) for line in case.run("marked-free").splitlines()):
        raise Wrong(f"{f} isn't marked free")
    mend(case, i, "address", k=12, f=first_lost(case))


@damage("the addresses of a file's fragments and of a whole block after them became 0")
def unaligned(case):
    volume, layout = case.volume, case.volume.layout
    tails = {run.start + run.length: volume.find(path) for path, data in case.tree.items() if isinstance(data, bytes) and path not in SHORT_LINKS
             for run in volume.runs(volume.find(path))[-1:] if run.length < layout.frag}
    path, k, f = next((path, run.block, run.start) for path, data in case.tree.items() if isinstance(data, bytes) and path not in SHORT_LINKS
                      for run in volume.runs(volume.find(path)) if run.start in tails and run.length == layout.frag and run.block is not None and run.block < 12)
    whole, part = volume.find(path), tails[f]
    volume.put_inode(whole, **{f"direct{k}": 0})
    volume.put_inode(part, **{f"direct{len(volume.blocks(part)) - 1}": 0})
    case.at_stake(path, next(it for it in case.tree if volume.find(it) == part))
    case.report("INCORRECT BLOCK COUNT")
    case.run("list")
    with open(f"{case.place}/list", encoding="ascii") as it:
        f = int(it.readline())
    mend(case, whole, "address", k=k, f=f)
    case.run("keep")
    mend(case, part, "address", k=len(volume.blocks(part)), f=first_lost(case))


@damage("a word of an indirect block became 0, of a file whose words don't rise")
def word_zero_out_of_order(case):
    volume, image = case.volume, case.volume.image
    at, bsize, fsize = indirect_place(case), volume.layout.bsize, volume.layout.fsize
    first, second = (volume.number(at + 4 * k, 4) for k in (3, 9))
    places = [slice(f * fsize, f * fsize + bsize) for f in (first, second)]
    image[places[0]], image[places[1]] = image[places[1]], image[places[0]]
    volume.put(at + 4 * 3, 4, second)
    volume.put(at + 4 * 9, 4, first)
    damage_word(case, 17, 0)
    i = case.report("INCORRECT BLOCK COUNT").first("INCORRECT BLOCK COUNT")["inode"]
    case.refuses("joined", b=fragments_of(case.run("inode", i=i))[12])
    mend_word(case, i, 0)


def double_of(case):
    """The inode of the large file, and its double indirect block."""
    if "big/archive" not in case.tree:
        raise NotHere
    i = case.volume.find("big/archive")
    case.at_stake("big/archive")
    return i, case.volume.inode(i)["double"]


@damage("the address of a large file's double indirect block became 0")
def double_address_zero(case):
    case.volume.put_inode(double_of(case)[0], double=0)
    i = case.report("INCORRECT BLOCK COUNT").first("INCORRECT BLOCK COUNT")["inode"]
    mend(case, i, "address", k=13, f=double_one(case))


def double_one(case):
    """The double indirect block among those that the recipe `rising` prints: the words of the others aren't among these."""
    rising = [int(line.split()[0]) for line in case.run("rising").splitlines()]
    words = {f: case.run("words", b=f).split()[1::2] for f in rising}
    found = [f for f in rising if words[f][0] in map(str, rising)]
    if len(rising) != 2 or len(found) != 1:
        raise Wrong(f"lost blocks whose words rise: {rising}, of which {found} name others")
    return found[0]


@damage("a large file's indirect block was overwritten by text, and it has a double one")
def large_overwritten(case):
    i, _ = double_of(case)
    overwrite(case, case.volume.inode(i)["single"])
    case.report("EXCESSIVE BAD BLKS")
    f = fragments_of(case.run("inode", i=i))[12]
    case.run("list")
    case.refuses("further refill", b=f)
    case.run("further zeros keep", b=f)
    case.run("further list refill check", b=f)


@damage("an indirect block that the double indirect block of a large file names was overwritten by text")
def second_overwritten(case):
    _, double = double_of(case)
    overwrite(case, case.volume.number(double * case.volume.layout.fsize, 4))
    i = case.report("BAD", "PARTIALLY TRUNCATED INODE").first("BAD")["inode"]
    b = words_of(case, i, 13)[0]
    case.run("words", b=b)
    case.run("further zeros keep", b=b)
    case.run("further list refill check", b=b)


@damage("a large file's double indirect block was overwritten by text")
def double_overwritten(case):
    overwrite(case, double_of(case)[1])
    i = case.report("BAD", "PARTIALLY TRUNCATED INODE").first("BAD")["inode"]
    b = fragments_of(case.run("inode", i=i))[13]
    case.run("further zeros keep", b=b)
    case.check_again("INCORRECT BLOCK COUNT")
    rising = case.run("rising").split()
    case.run("further word check", b=b, k=0, f=rising[0])


@damage("a file's indirect block was overwritten by that of a large file")
def indirect_of_other(case):
    volume, layout = case.volume, case.volume.layout
    paths = ("big/film", "big/archive")
    _, double = double_of(case)
    places = [volume.inode(volume.find(path))["single"] * layout.fsize for path in paths]
    volume.image[places[0]:places[0] + layout.bsize] = volume.image[places[1]:places[1] + layout.bsize]
    case.at_stake(*paths)
    numbers = {message["inode"] for message in case.report("EXCESSIVE DUP BLKS").of("EXCESSIVE DUP BLKS")}
    for i in owners_of(case.run("owners", f=case.check_again().first("DUP")["fragment"])):
        addresses = fragments_of(case.run("inode", i=i))
        case.run("further zeros keep", b=addresses[12])
        if case.run("further list refill check", b=addresses[12]).status == 0:
            return
        case.run("further")


@damage("a large file's double indirect block became zeros")
def double_zeroed(case):
    volume = case.volume
    volume.zero(double_of(case)[1] * volume.layout.fsize, volume.layout.bsize)
    i = case.report("INCORRECT BLOCK COUNT").first("INCORRECT BLOCK COUNT")["inode"]
    rising = [int(line.split()[0]) for line in case.run("rising").splitlines()]
    if len(rising) != 1:
        raise Wrong(f"lost blocks whose words rise: {rising}")
    case.run("further word check", b=fragments_of(case.run("inode", i=i))[13], k=0, f=rising[0])


@damage("an indirect block that the double indirect block of a large file names became zeros")
def second_zeroed(case):
    volume = case.volume
    i, double = double_of(case)
    volume.zero(volume.number(double * volume.layout.fsize, 4) * volume.layout.fsize, volume.layout.bsize)
    i = case.report("INCORRECT BLOCK COUNT").first("INCORRECT BLOCK COUNT")["inode"]
    case.run("further list refill check", b=words_of(case, i, 13)[0])


@damage("a file got the address of another one's block")
def address_shared(case):
    volume = case.volume
    other = volume.blocks(volume.find("big/photo"))[3]
    volume.put_inode(volume.find("docs/report"), direct2=other)
    case.at_stake("docs/report", "mail/report_too", "big/photo")
    mend_shared(case)


def mend_shared(case):
    """Puts the lost block at each address, or word, of the shared fragment that doesn't follow the one before it, one at a time. Which these
    are *owners* says, or *inode*, where the fragment is one of the file system's own."""
    report = case.report("DUP", "DUP/BAD")
    f = report.first("DUP")["fragment"]
    places = places_of(case.run("owners", f=f))
    if not places:
        i = report.first("DUP")["inode"]
        places = [(i, k, None) for k, at in fragments_of(case.run("inode", i=i)).items() if at == f]
    for i, k, word in places:
        before = words_of(case, i, k)[word - 1] if word else fragments_of(case.run("inode", i=i)).get(k - 1, 0)
        if before + case.volume.layout.frag != f:
            put_lost(case, i, k, word)


@damage("a word of an indirect block became another file's block")
def word_shared(case):
    volume = case.volume
    case.at_stake("docs/report", "mail/report_too")
    damage_word(case, 17, volume.blocks(volume.find("docs/report"))[2])
    mend_shared(case)


@damage("the address of an indirect block became that of another file's block")
def indirect_address_shared(case):
    volume = case.volume
    volume.put_inode(volume.find("big/film"), single=volume.blocks(volume.find("docs/report"))[2])
    case.at_stake("big/film", "docs/report", "mail/report_too")
    mend_shared(case)


def free_block(case):
    """The first fragment of a block near the end of the volume, which is free."""
    return case.volume.layout.size - 2 * case.volume.layout.frag


def mend_free(case):
    """Puts the first lost block in the place of the free block that a file was given."""
    f = int(case.run("marked-free").split()[0])
    for i, k, word in places_of(case.run("owners", f=f)):
        put_lost(case, i, k, word)


@damage("a file's address became that of a free block")
def address_free(case):
    case.volume.put_inode(case.volume.find("docs/report"), direct2=free_block(case))
    case.at_stake("docs/report", "mail/report_too")
    case.report("BLK(S) MISSING IN BIT MAPS")
    mend_free(case)


@damage("a word of an indirect block became a free block")
def word_free(case):
    damage_word(case, 17, free_block(case))
    case.report("BLK(S) MISSING IN BIT MAPS")
    mend_free(case)


@damage("the address of an indirect block became that of a free block")
def indirect_address_free(case):
    case.volume.put_inode(case.volume.find("big/film"), single=free_block(case))
    case.at_stake("big/film")
    case.report("INCORRECT BLOCK COUNT", "BLK(S) MISSING IN BIT MAPS")
    mend_free(case)


@damage("a file got the address of another one's block, and lost its name")
def address_shared_unnamed(case):
    volume = case.volume
    i = volume.find("docs/letter")
    volume.put(volume.entry("docs/letter"), 4, 0)
    other = volume.find("mail/in/one")
    volume.put_inode(other, direct0=volume.blocks(i)[0])
    case.at_stake("docs/letter")
    report = case.report("BAD/DUP", "DUP/BAD")
    case.run("bytes", i=report.first("BAD/DUP")["inode"])
    case.run("deleted")


@damage("a file's address became that of the summary area")
def address_reserved(case):
    layout = case.volume.layout
    case.volume.put_inode(case.volume.find("docs/report"), direct2=layout.csaddr)
    case.at_stake("docs/report", "mail/report_too")
    mend_shared(case)


@damage("a file's address became another one of its own")
def address_twice(case):
    volume = case.volume
    i = volume.find("big/photo")
    volume.put_inode(i, direct5=volume.blocks(i)[2])
    case.at_stake("big/photo")
    mend_shared(case)


@damage("a file's inode was copied over another one")
def inode_copied(case):
    volume = case.volume
    source, target = (volume.layout.inode_place(volume.find(path)) for path in ("big/photo", "docs/report"))
    volume.image[target:target + 128] = volume.image[source:source + 128]
    case.at_stake("big/photo")
    case.at_stake("docs/report", "mail/report_too")
    report = case.report("EXCESSIVE DUP BLKS", "LINK COUNT")
    for i in sorted({message["inode"] for message in report.of("DUP")}):
        case.run("bytes names-of", i=i)
    case.run("rest")


@damage("a file's count of sectors is wrong")
def count_wrong(case):
    case.volume.put_inode(case.volume.find("docs/letter"), blocks=99)
    case.at_stake("docs/letter")
    count = case.report("INCORRECT BLOCK COUNT").first("INCORRECT BLOCK COUNT")
    mend(case, count["inode"], "blocks", blocks=count["right_count"])


@damage("a short link's size became large: its text is taken for addresses")
def link_size(case):
    case.volume.put_inode(case.volume.find("mail/short"), size=20000)
    case.at_stake("mail/short", "docs/letter")
    i = case.report("DUP/BAD").first("DUP/BAD")["inode"]
    text = case.run("place text", i=i)
    mend(case, i, "size", size=len(text.encode()))


@damage("a short link's size became large: its text is taken for another file's fragment")
def link_size_claims(case):
    volume = case.volume
    volume.put_inode(volume.find("mail/tiny"), size=20000)
    case.at_stake(*[path for path, data in case.tree.items() if isinstance(data, bytes)])
    report = case.report("INCORRECT BLOCK COUNT")
    i = report.first("INCORRECT BLOCK COUNT")["inode"]
    text = case.run("place text", i=i)
    mend(case, i, "size", size=len(text.encode()))


@damage("a long link's size became small: its address is taken for its text")
def long_link_size(case):
    case.volume.put_inode(case.volume.find("mail/longer"), size=20)
    case.at_stake("mail/longer")
    i = case.report("INCORRECT BLOCK COUNT").first("INCORRECT BLOCK COUNT")["inode"]
    mend(case, i, "size", size=right_most(case, i))
    case.run("keep bytes", i=i)
    if mend(case, i, "size", size=len(case.bytes_of(f"saved.{i}").rstrip(b"\0"))).status or "mail/longer" not in case.trees[-1]:
        raise Wrong("it isn't consistent")
    if case.trees[-1]["mail/longer"] != case.tree["mail/longer"]:
        raise Wrong("the link isn't as it was")


@damage("a short link became a file: its text is taken for addresses")
def link_as_file(case):
    put_type(case, "mail/short", 0o100777)
    case.at_stake("mail/short")
    i = case.report("UNKNOWN FILE TYPE").first("UNKNOWN FILE TYPE")["inode"]
    if next(entry.type for entry in entries_in(case, "mail") if entry.number == i) != 10 or mend(case, i, "mode", mode="120777").status:
        raise Wrong("its entry's type isn't that of a link, or it isn't consistent")


def put_type(case, path, mode):
    case.volume.put_inode(case.volume.find(path), mode=mode)


@damage("a file became a symbolic link")
def file_as_link(case):
    put_type(case, "docs/report", 0o120644)
    case.at_stake("docs/report", "mail/report_too")
    i = case.report("BAD TYPE VALUE").first("BAD TYPE VALUE")["inode"]
    mend(case, i, "mode", mode="100644")


@damage("a file became a FIFO")
def file_as_fifo(case):
    put_type(case, "docs/letter", 0o010644)
    case.at_stake("docs/letter")
    i = case.report("BAD TYPE VALUE").first("BAD TYPE VALUE")["inode"]
    mend(case, i, "mode", mode="100644")


@damage("a file became a socket")
def file_as_socket(case):
    put_type(case, "docs/letter", 0o140644)
    case.at_stake("docs/letter")
    i = case.report("BAD TYPE VALUE").first("BAD TYPE VALUE")["inode"]
    mend(case, i, "mode", mode="100644")


@damage("a file became a device")
def file_as_device(case):
    put_type(case, "docs/letter", 0o020644)
    case.at_stake("docs/letter")
    i = case.report("INCORRECT BLOCK COUNT").first("INCORRECT BLOCK COUNT")["inode"]
    mend(case, i, "mode", mode="100644")


@damage("a file became a directory")
def file_as_directory(case):
    put_type(case, "docs/letter", 0o040644)
    case.at_stake("docs/letter")
    i = case.report("BAD TYPE VALUE", "DIRECTORY CORRUPTED").first("BAD TYPE VALUE")["inode"]
    case.run("bytes", i=i)
    mend(case, i, "mode", mode="100644")


@damage("a directory became a file")
def directory_as_file(case):
    put_type(case, "mail", 0o100755)
    case.at_stake(*[path for path in case.tree if path.startswith("mail")])
    report = case.report("BAD TYPE VALUE", "UNREF")
    mend(case, report.first("BAD TYPE VALUE")["inode"], "mode", mode="40755")


@damage("a file's inode became zeros")
def inode_zeroed(case):
    case.volume.zero(case.volume.layout.inode_place(case.volume.find("docs/letter")), 128)
    case.at_stake("docs/letter")
    i = case.report("UNALLOCATED", "BLK(S) MISSING IN BIT MAPS").first("UNALLOCATED")["inode"]
    case.run("rest")
    values = {"mode": "100644", "links": 1, "size": len(case.pieces[-1][1]), "k": 0, "f": first_lost(case)}
    found = mend(case, i, "mode links size address", **values)
    count = found.first("INCORRECT BLOCK COUNT")["right_count"]
    if mend(case, i, "mode links size address blocks", blocks=count, **values).status != 0:
        raise Wrong("an inode that was put anew isn't consistent")


@damage("a block of inodes became zeros")
def inodes_zeroed(case):
    zero_inodes(case)
    report = case.report("UNALLOCATED", "BLK(S) MISSING IN BIT MAPS")
    counts = [int(line.split()[0]) for line in case.run("kinds").splitlines()]
    if sum(counts) != len(report) or len(counts) != len({message["kind"] for message in report}):
        raise Wrong(f"the recipe counts {counts}, of {len(report)} messages")
    case.run("names")
    case.run("rest")


def zero_inodes(case, fill=b"\0"):
    """Fills the block of inodes in which one is, and puts at stake what those of regular files hold."""
    volume = case.volume
    layout = volume.layout
    i = volume.find("docs/pages/page_33")
    first = i - i % (layout.bsize // 128)
    gone = [path for path in case.tree if isinstance(case.tree[path], bytes) and first <= volume.find(path) < first + layout.bsize // 128]
    place = layout.inode_place(first)
    volume.image[place:place + layout.bsize] = (fill * layout.bsize)[:layout.bsize]
    case.at_stake(*gone)


@damage("a block of inodes was overwritten by text")
def inodes_overwritten(case):
    zero_inodes(case, b"All work and no play makes Jack a dull boy. ")
    case.report("UNKNOWN FILE TYPE")
    case.run("names")
    case.run("rest")


@damage("two blocks of inodes were exchanged")
def inode_blocks_exchanged(case):
    """One has a link, and all else in both are files."""
    volume, layout, link = case.volume, case.volume.layout, "docs/pages/page_33"
    count = layout.bsize // 128
    volume.put(volume.entry(link) + 6, 1, 10)
    put_type(case, link, 0o120644)
    case.tree = volume.tree()
    firsts = [volume.find(path) // count * count for path in (link, "docs/names/a_rather_long_name_of_a_file_000")]
    a, b = (layout.inode_place(first) for first in firsts)
    volume.image[a:a + layout.bsize], volume.image[b:b + layout.bsize] = volume.image[b:b + layout.bsize], volume.image[a:a + layout.bsize]
    case.at_stake(*case.tree)
    numbers = [message["inode"] // count * count for message in case.report("BAD TYPE VALUE").of("BAD TYPE VALUE")]
    case.run("further")
    for k in range(count):
        case.run("exchange", i=numbers[0] + k, j=numbers[1] + k)
    if case.run("check").status or case.trees[-1] != case.tree:
        raise Wrong("it isn't as it was")


@damage("a file's bytes are in a bad area of the disk")
def bytes_bad(case):
    find_bad(case, 0)


@damage("a file's bytes are in a bad area of the disk, of which a partition was cut out")
def bytes_bad_of_disk(case):
    find_bad(case, 2048)


def find_bad(case, start):
    """Bad areas, one of several blocks, and the first fragments, which could be read at last: ddrescue's map of them leads to all files that
    have a fragment there."""
    volume = case.volume
    fsize = volume.layout.fsize
    film = volume.blocks(volume.find("big/film"))
    areas = [(volume.blocks(volume.find("docs/letter"))[0] * fsize, 512), (film[-1] * fsize + 512, 40 * volume.layout.bsize)]
    case.at_stake("docs/letter", "big/film", "big/photo", data=False)
    for place, length in areas:
        volume.zero(place, length)
    areas.append((0, 8 * volume.layout.iblkno * fsize // 6))
    with open(f"{case.place}/copy.map", "w", encoding="ascii") as it:
        it.write("# Mapfile. Created by GNU ddrescue version 1.27\n# current_pos  current_status  current_pass\n0x00000200     +               1\n")
        it.write("#      pos        size  status\n0x00000000  0x00000200  +\n")
        it.writelines(f"0x{512 * start + place:08X}  0x{length:08X}  {status}\n" for (place, length), status in zip(areas, "-*/"))
    case.report()
    found = case.run("bad-areas", start=start)
    counts = Counter()
    for place, length in areas if not start else []:
        for f in range(place // fsize, (place + length - 1) // fsize + 1):
            run = subprocess.run(["ffs_find", "owner", str(f), "copy.img"], cwd=case.place, capture_output=True, text=True, check=True)
            counts.update(run.stdout.splitlines())
    if counts and {tuple(line.split(None, 1)) for line in found.splitlines()} != {(str(count), line) for line, count in counts.items()}:
        raise Wrong("the recipe bad-areas has other owners than ffs_find owner")
    for i in sorted({int(number) for number in re.findall(r"\binode (\d+) ", found)}):
        case.run("names-of", i=i)


@damage("a recipe is given a number that can't be right")
def refused(case):
    case.at_stake("docs/letter", name=False)
    case.report()
    i = case.run("number-of", path="docs/letter").strip()
    case.refuses("place", i=99999999)
    for recipe, variables in (("superblock", {"sector": 32}), ("last-copy", {}), ("longer", {}), ("keep", {})):
        case.refuses(recipe, **variables)
    if os.path.exists(f"{case.place}/further.img"):
        raise Wrong("a further copy was made by a recipe that changes one")
    for recipe, variables in (("mode", {"mode": 100644}), ("links", {"links": 1}), ("size", {"size": 1}), ("address", {"k": 0, "f": 99}), ("blocks", {"blocks": 8})):
        case.refuses(f"further place {recipe}", i=99999999, **variables)
        case.refuses(f"further {recipe}", **variables)
    case.refuses("further place mode", i=i)
    case.refuses("further place links", i=i, links=70000)
    case.refuses("further word", b=0, k=0, f=9)
    case.refuses("further word", b=case.volume.layout.size, k=0, f=9)
    case.refuses("further number", e=2, i=i)
    case.refuses("further refill", b=99)
    put_list(case, range(100, 100 + case.volume.layout.bsize))
    case.refuses("further refill", b=99)
    case.refuses("further list refill", b=0)
    f = fragments_of(case.run("inode", i=i))[0]
    case.refuses("further zeros", b=f)
    case.refuses("further list refill", b=f)
    case.refuses("further new-root", f=f)
    case.refuses("exchange", i=i, j=99999999)
    for recipe in ("inode", "bytes", "names-of", "text", "owners"):
        case.refuses(recipe)
    case.run("bytes", i=i)


@damage("an inode that is whole, a link among them")
def whole(case):
    case.at_stake("mail/short", "docs/letter", name=False)
    case.report()
    i = case.run("number-of", path="mail/short").strip()
    case.run("place text", i=i)
    case.run("bytes", i=case.run("number-of", path="docs/letter").strip())


@damage("inodes were moved by 512 bytes within their block")
def moved(case):
    volume, layout = case.volume, case.volume.layout
    count, m = layout.bsize // 128, 4
    first = volume.find("docs/names/a_rather_long_name_of_a_file_000") // count * count
    i = first + 3
    at, end = layout.inode_place(i), layout.inode_place(first) + layout.bsize
    volume.image[at + m * 128:end] = volume.image[at:end - m * 128]
    case.at_stake(*[path for path in case.tree if path.startswith("docs/names/") and not first + count - m <= volume.find(path) < first + count])
    found = [message["inode"] for message in case.report("DUP").of("DUP") if message["phase"] == "1"]
    i = min(found) - m
    alike = [case.run("inode", i=k).partition("\n")[2] for k in (i, i + m)]
    if alike[0] != alike[1]:
        raise Wrong(f"inodes {i} and {i + m} differ")
    for k in range(i, first + count - m):
        case.run("bytes", i=k + m)
    case.run("names all")


@damage("the link counts of files became less than 0")
def links_below_zero(case):
    case.volume.put_inode(case.volume.find("docs/letter"), nlink=0x8000)
    case.volume.put_inode(case.volume.find("docs/report"), nlink=0xFFFF)
    case.at_stake("docs/letter", "docs/report", "mail/report_too")
    for message in case.report("LINK COUNT").of("LINK COUNT"):
        status = mend(case, message["inode"], "links", links=message["right_count"]).status
        case.run("keep")
    if status:
        raise Wrong("it isn't consistent")


def shifted(case, by):
    """Moves the address of the letter by some fragments, over a neighbour's, and puts what is lost at its end, and at its begin."""
    i = case.volume.find("docs/letter")
    case.volume.put_inode(i, direct0=case.volume.blocks(i)[0] + by)
    case.at_stake("docs/letter")
    case.report("DUP")
    count = -(-case.volume.inode(i)["size"] // case.volume.layout.fsize)
    first = first_lost(case)
    last = int(case.run("lost").split()[1])
    if last - first + 1 != abs(by):
        raise Wrong(f"lost are {first} to {last}")
    found = [mend(case, i, "address", k=0, f=f).status for f in (first, last - count + 1)]
    if sorted(found) != [0, 1]:
        raise Wrong(f"the checks end with {found}")


@damage("a file's address became one fragment less")
def address_less(case):
    shifted(case, -1)


@damage("a file's address became one fragment more")
def address_more(case):
    shifted(case, 1)


@damage("all fields of an inode but its addresses became zeros")
def addresses_alone(case):
    case.volume.put_inode(case.volume.find("docs/report"), mode=0, nlink=0, size=0, blocks=0)
    case.at_stake("docs/report", "mail/report_too")
    i = case.report("PARTIALLY ALLOCATED INODE", "UNALLOCATED").first("PARTIALLY ALLOCATED INODE")["inode"]
    size = len(fragments_of(case.run("inode", i=i))) * case.volume.layout.bsize
    while True:
        found = mend(case, i, "mode size", mode="100644", size=size)
        case.run("further place mode size keep", i=i, mode="100644", size=size)
        if not found.of("DUP") and not case.run("marked-free"):
            break
        size -= case.volume.layout.fsize
    case.run("bytes", i=i)


@damage("a sector of an indirect block became zeros")
def words_zeroed(case):
    case.volume.zero(indirect_place(case), 256)
    case.at_stake("big/film")
    i = case.report("INCORRECT BLOCK COUNT").first("INCORRECT BLOCK COUNT")["inode"]
    case.run("joined further refill check", b=fragments_of(case.run("inode", i=i))[12])


@damage("two sectors of inodes were exchanged")
def sectors_exchanged(case):
    volume, count = case.volume, 4
    at = volume.layout.inode_place(0)
    first, second = slice(at + 512, at + 1024), slice(at + 1536, at + 2048)
    volume.image[first], volume.image[second] = volume.image[second], volume.image[first]
    case.at_stake(*case.tree)
    case.report("BAD TYPE VALUE", "BAD INODE NUMBER FOR '.'")
    for i in range(count, 2 * count):
        case.run("further exchange keep", i=i, j=i + 2 * count)
    if case.run("further check"):
        raise Wrong("it isn't consistent")


@damage("a block of inodes was overwritten by an indirect block")
def inodes_overwritten_by_words(case):
    volume, at = case.volume, indirect_place(case)
    place, bsize = volume.layout.inode_place(0), volume.layout.bsize
    volume.image[place:place + bsize] = volume.image[at:at + bsize]
    folders = [path for path, data in case.tree.items() if data == "directory"]
    case.at_stake(*folders, data=False)
    garbage = case.report("PARTIALLY ALLOCATED INODE", "ROOT INODE UNALLOCATED").of("PARTIALLY ALLOCATED INODE")
    for message in garbage:
        case.run("further clear keep", i=message["inode"])
    case.run("further directories check")
    case.run("keep names")


@damage("a sound file of more than 4 GB has a hole, and a triple indirect block: a large file")
def triple_hole(case):
    volume, n = case.volume, case.volume.layout.bsize // 4
    layout, film = volume.layout, volume.find("big/film")
    if "big/archive" not in case.tree:
        raise NotHere
    # The film's last block becomes the triple indirect one
    count = len(volume.blocks(film)) - 13
    t = volume.number(indirect_place(case) + 4 * count, 4)
    volume.put(indirect_place(case) + 4 * count, 4, 0)
    volume.put_inode(film, size=(12 + count) * layout.bsize, blocks=volume.inode(film)["blocks"] - layout.bsize // 512)
    i, data = volume.find("big/archive"), case.tree["big/archive"]
    inode, held, place = volume.inode(i), (12 + n) * layout.bsize, (12 + n + n * n) * layout.bsize
    volume.zero(t * layout.fsize, layout.bsize)
    volume.put(t * layout.fsize, 4, inode["double"])
    volume.put_inode(i, double=0, triple=t, size=place + len(data) - held, blocks=inode["blocks"] + layout.bsize // 512)
    if case.report():
        raise Wrong("it isn't sound")
    case.run("bytes", i=i)
    with open(f"{case.place}/saved.{i}", "rb") as it:
        first = it.read(held)
        it.seek(place)
        if first + it.read() != data or os.stat(it.name).st_blocks > 1 << 14:
            raise Wrong("it isn't the file, or its hole takes place")
