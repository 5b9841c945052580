"""Damaged directories: their sizes, blocks, `.` and `..`."""
import os
import random

from .. import sources
from ..case import NotHere, Wrong, entries_of, fragments_of, number_of, owners_of, places_of
from .all import damage
from .inodes import first_lost, free_block, mend, mend_free, mend_shared, put_lost, words_of
from .names import entries_of_inode, place_of

# How many of the inodes that are left are copied, of those that have no name.
SHOWN = 30
HEAD = 65536


def names_at_stake(case):
    case.at_stake(*[path for path in case.tree if path.startswith("docs/names/")])


def put_names(case, **fields):
    case.volume.put_inode(case.volume.find("docs/names"), **fields)
    names_at_stake(case)


@damage("the size of a directory of one chunk became 10")
def size_short(case):
    case.volume.put_inode(case.volume.find("mail/in"), size=10)
    case.at_stake("mail/in", "mail/in/one", "mail/in/two")
    report = case.report("DIRECTORY TOO SHORT")
    mend_size(case, report.first("DIRECTORY TOO SHORT")["inode"])


def mend_size(case, i):
    """Puts the most that a directory's count of sectors allows, and less until the check ends with 0."""
    most = number_of(case.run("inode", i=i), "blocks")
    for chunks in range(most, 0, -1):
        if mend(case, i, "size", size=512 * chunks).status == 0:
            return


@damage("a directory's size became 512: addresses are left that it doesn't use")
def size_cut(case):
    put_names(case, size=512)
    mend_size(case, case.report("UNKNOWN FILE TYPE").first("UNKNOWN FILE TYPE")["inode"])


@damage("a directory's size became 512, and a file's mode became 0: no check ends with 0 before both are mended")
def size_cut_and_mode(case):
    case.volume.put_inode(case.volume.find("docs/letter"), mode=0)
    put_names(case, size=512)
    case.at_stake("docs/letter")
    report = case.report("UNKNOWN FILE TYPE", "PARTIALLY ALLOCATED INODE")
    i = report.first("UNKNOWN FILE TYPE")["inode"]
    for chunks in range(number_of(case.run("inode", i=i), "blocks"), 0, -1):
        found = mend(case, i, "size", size=512 * chunks)
        if not any(message.get("inode") == i for message in found):
            break
    case.run("keep")
    mend(case, report.first("PARTIALLY ALLOCATED INODE")["inode"], "mode", mode="100644")


@damage("a directory's mode became 0, and the number of an entry below it none of the volume's")
def below_directory(case):
    case.volume.put(case.volume.entry("mail/in/one"), 4, 99999)
    case.volume.put_inode(case.volume.find("mail"), mode=0)
    case.at_stake(*[path for path in case.tree if path.startswith("mail")])
    report = case.report("PARTIALLY ALLOCATED INODE", "UNALLOCATED")
    found = mend(case, report.first("PARTIALLY ALLOCATED INODE")["inode"], "mode", mode="40755")
    case.run("keep")
    e = place_of(case, found.first("I OUT OF RANGE")["path"])
    case.run("further number check", e=e, i=found.first("UNREF")["inode"])


@damage("a directory's size became 512, within its block")
def size_within_block(case):
    case.volume.put_inode(case.volume.find("docs/pages"), size=512)
    case.at_stake(*[path for path in case.tree if path.startswith("docs/pages/")])
    report = case.report("UNREF")
    counts = report.of("INCORRECT BLOCK COUNT")
    if counts:
        mend_size(case, counts[0]["inode"])
        return
    for entry in entries_of(case.run("find-name", i=report.first("UNREF")["inode"])):
        owner = owners_of(case.run("owners", f=entry.byte // case.volume.layout.fsize))[0]
        mend_size(case, owner)


@damage("a directory's size isn't whole chunks")
def size_odd(case):
    i = case.volume.find("docs/names")
    put_names(case, size=case.volume.inode(i)["size"] - 100)
    report = case.report("DIRECTORY: LENGTH NOT MULTIPLE OF 512")
    path = report.first("DIRECTORY: LENGTH NOT MULTIPLE OF 512")["path"]
    mend_size(case, case.run("number-of", path=path).strip())


@damage("a directory's size isn't whole chunks, and it isn't mended")
def size_odd_left(case):
    names = [path for path in case.tree if path not in sources.SHORT_LINKS]
    case.volume.put_inode(case.volume.find("docs/names"), size=case.volume.inode(case.volume.find("docs/names"))["size"] - 100)
    case.at_stake(*names)
    case.report("DIRECTORY: LENGTH NOT MULTIPLE OF 512")
    all_listed(case, [path for path in names if path != "mail/longer"])
    case.run("all")


@damage("a directory's size became larger, by a hole")
def size_hole(case):
    volume = case.volume
    names_at_stake(case)
    volume.put_inode(volume.find("docs/names"), size=volume.layout.bsize * 11 + 512)
    path = case.report("DIRECTORY: CONTAINS EMPTY BLOCKS").first("DIRECTORY: CONTAINS EMPTY BLOCKS")["path"]
    mend_size(case, case.run("number-of", path=path).strip())


@damage("a directory's size became larger, within its last block")
def size_chunk(case):
    names_at_stake(case)
    i = case.volume.find("docs/names")
    case.volume.put_inode(i, size=case.volume.inode(i)["size"] + 512)
    report = case.report()
    if not report.of("DIRECTORY CORRUPTED"):
        raise NotHere
    mend_size(case, report.first("DIRECTORY CORRUPTED")["inode"])


@damage("a directory's address became 0")
def hole(case):
    put_names(case, direct1=0)
    report = case.report("DIRECTORY: CONTAINS EMPTY BLOCKS", "UNREF", "INCORRECT BLOCK COUNT")
    i = report.first("INCORRECT BLOCK COUNT")["inode"]
    f = first_lost(case)
    case.run("strings", f=f)
    case.run("entries", f=f)
    mend(case, i, "address", k=1, f=f)


@damage("a directory's address became that of a free block")
def address_free(case):
    case.volume.put_inode(case.volume.find("mail/in"), direct0=free_block(case))
    case.at_stake("mail/in", "mail/in/one", "mail/in/two")
    case.report("DIRECTORY CORRUPTED", "MISSING '.'", "UNREF")
    case.run("lost-names")
    mend_free(case)


@damage("a directory's second address became that of a free block")
def second_address_free(case):
    put_names(case, direct1=free_block(case))
    case.report("DIRECTORY CORRUPTED", "UNREF")
    case.run("lost-names")
    mend_free(case)


@damage("a directory's address became that of another directory's block")
def address_shared(case):
    volume = case.volume
    volume.put_inode(volume.find("mail/in"), direct0=volume.blocks(volume.find("mail/out"))[0])
    case.at_stake("mail/in", "mail/in/one", "mail/in/two", "mail/out", "mail/out/three")
    mend_shared(case)


@damage("a directory's inode became zeros")
def inode_zeroed(case):
    volume = case.volume
    volume.zero(volume.layout.inode_place(volume.find("mail/in")), 128)
    case.at_stake("mail/in", "mail/in/one", "mail/in/two")
    i = case.report("UNALLOCATED", "UNREF", "BLK(S) MISSING IN BIT MAPS").first("UNALLOCATED")["inode"]
    case.run("lost-names")
    values = {"mode": "40755", "size": 512, "k": 0, "f": first_lost(case)}
    found = mend(case, i, "mode size address", **values)
    mend_counts(case, i, found, "mode size address", **values)


@damage("a directory's size and address became 0")
def empty(case):
    i = case.volume.find("mail/in")
    case.volume.put_inode(i, size=0, direct0=0)
    case.at_stake("mail/in", "mail/in/one", "mail/in/two")
    report = case.report("ZERO LENGTH DIRECTORY", "INCORRECT BLOCK COUNT", "UNREF")
    i = report.first("ZERO LENGTH DIRECTORY")["inode"]
    f = first_lost(case)
    for chunks in range(number_of(case.run("inode", i=i), "blocks"), 0, -1):
        if mend(case, i, "size address", size=512 * chunks, k=0, f=f).status == 0:
            return


@damage("a directory's size and address, and the number of its entry, became 0")
def empty_unnamed(case):
    i = case.volume.find("mail/in")
    case.volume.put(case.volume.entry("mail/in"), 4, 0)
    case.volume.put_inode(i, size=0, direct0=0)
    case.at_stake("mail/in", "mail/in/one", "mail/in/two")
    report = case.report("ZERO LENGTH DIR", "INCORRECT BLOCK COUNT", "UNREF")
    i, f = report.first("ZERO LENGTH DIR")["inode"], first_lost(case)
    deleted = case.run("deleted").split()[-1]
    e = place_of(case, deleted)
    for chunks in range(number_of(case.run("inode", i=i), "blocks"), 0, -1):
        if case.run("further number place size address check", e=e, i=i, size=512 * chunks, k=0, f=f).status == 0:
            return


@damage("a directory's `..` is another directory")
def dotdot(case):
    i = case.volume.find("mail/in")
    place = [entry[0] for entry in case.volume.entries(i)][1]
    case.volume.put(place, 4, case.volume.find("docs"))
    case.at_stake("mail/in", "mail/in/one", "mail/in/two")
    report = case.report("BAD INODE NUMBER FOR '..'")
    i = report.first("BAD INODE NUMBER FOR '..'")["inode"]
    e = next(entry.byte for entry in entries_of_inode(case, i) if entry.name == "..")
    case.run("further number check", e=e, i=case.run("number-of", path="mail").strip())


@damage("the inodes of two directories of one parent were exchanged")
def exchanged(case):
    volume = case.volume
    a, b = (volume.layout.inode_place(volume.find(path)) for path in ("mail/in", "mail/out"))
    volume.image[a:a + 128], volume.image[b:b + 128] = volume.image[b:b + 128], volume.image[a:a + 128]
    case.at_stake("mail/in", "mail/in/one", "mail/in/two", "mail/out", "mail/out/three")
    report = case.report("BAD INODE NUMBER FOR '.'")
    i, j = (message["inode"] for message in report.of("BAD INODE NUMBER FOR '.'"))
    case.run("further exchange check", i=i, j=j)


@damage("the addresses of two directories were exchanged")
def addresses_exchanged(case):
    volume, paths = case.volume, ("mail/in", "docs/pages")
    first, second = (volume.find(path) for path in paths)
    a, b = (volume.blocks(i)[0] for i in (first, second))
    volume.put_inode(first, direct0=b)
    volume.put_inode(second, direct0=a)
    case.at_stake(*[path for path in case.tree if path.startswith(paths)])
    i, j = (message["inode"] for message in case.report("BAD INODE NUMBER FOR '.'").of("BAD INODE NUMBER FOR '.'"))
    f, g = (fragments_of(case.run("inode", i=k))[0] for k in (i, j))
    case.run("further place address", i=i, k=0, f=g)
    if case.run("place address check", i=j, k=0, f=f).status:
        raise Wrong("it isn't consistent")


@damage("the inodes of a directory and a file were exchanged")
def exchanged_file(case):
    volume = case.volume
    a, b = (volume.layout.inode_place(volume.find(path)) for path in ("mail/in", "docs/letter"))
    volume.image[a:a + 128], volume.image[b:b + 128] = volume.image[b:b + 128], volume.image[a:a + 128]
    case.at_stake("mail/in", "mail/in/one", "mail/in/two", "docs/letter")
    report = case.report("BAD TYPE VALUE")
    i, j = (message["inode"] for message in report.of("BAD TYPE VALUE"))
    case.run("further exchange check", i=i, j=j)


@damage("the first entry of a directory, `.`, became another name")
def dot_named(case):
    i = case.volume.find("mail/in")
    place = [entry[0] for entry in case.volume.entries(i)][0]
    case.volume.image[place + 8:place + 9] = b"x"
    case.at_stake("mail/in", "mail/in/one", "mail/in/two")
    report = case.report("MISSING '.', CANNOT FIX")
    entries_of_inode(case, report.first("MISSING '.', CANNOT FIX")["inode"])
    case.run("names all")


@damage("inode 2 is empty")
def root_empty(case):
    volume = case.volume
    volume.zero(volume.layout.inode_place(2), 128)
    case.at_stake(*case.tree)
    case.report("ROOT INODE UNALLOCATED")
    if "ends with 8" not in case.complaints("unnamed"):
        raise Wrong("nothing says that the report doesn't tell what no entry names")
    names = {entry.name: entry.number for entry in entries_of(case.run("lost-names"))}
    case.run("below", i=names["docs"])
    found = case.run("further directories check")
    case.run("keep")
    mend(case, 2, "links", links=found.first("LINK COUNT")["right_count"])


@damage("the block of inodes that has inode 2 became zeros")
def root_block_zero(case):
    volume, layout = case.volume, case.volume.layout
    numbers = {path: volume.find(path) for path in case.tree if path not in sources.SHORT_LINKS and path != "pipe"}
    volume.zero(layout.inode_place(0), layout.bsize)
    case.at_stake(*numbers, data=False)
    case.report("ROOT INODE UNALLOCATED")
    left = [int(word) for word in case.run("inodes").split() if word.isdigit()][:SHOWN]
    for i in left:
        case.run("bytes", i=i)
    case.run("lost-names")
    case.run("rest")
    case.at_stake(*[path for path, i in numbers.items() if i in left or i < layout.bsize // 128])


@damage("the block of inodes that has inode 2 became zeros, and with it those of directories")
def directories_zero(case):
    volume, layout = case.volume, case.volume.layout
    numbers = files_of(case)
    volume.zero(layout.inode_place(0), layout.bsize)
    case.at_stake(*[path for path, i in numbers.items() if i >= layout.bsize // 128])
    case.report("ROOT INODE UNALLOCATED")
    case.run("further directories check")
    case.run("keep")
    put_last_part(case)
    case.run("all")


def put_last_part(case, path="docs/names"):
    """The last part of a directory that lies elsewhere: puts it after what the recipe `directories` found."""
    layout = case.volume.layout
    nameless = {message["inode"] for message in case.check_again().of("UNREF")}
    at = [entry.byte for entry in entries_of(case.run("lost-names")) if entry.number in nameless]
    if not at:
        return
    i = int(case.run("number-of", path=path))
    k = max(fragments_of(case.run("inode", i=i))) + 1
    size = k * layout.bsize + at[-1] % layout.fsize // 512 * 512 + 512
    blocks = (k * layout.frag + 1) * layout.fsize // 512
    case.run("further place address size blocks keep", i=i, k=k, f=at[0] // layout.fsize, size=size, blocks=blocks)


@damage("the inodes of all directories but the root became zeros, and the last part of one lies right after another one")
def last_part_after_other(case):
    volume, right = case.volume, bytes(case.volume.image)
    if "names" not in case.tree:
        raise NotHere
    numbers = {path: volume.find(path) for path, it in case.tree.items() if it == "directory"}
    begins = {volume.blocks(i)[0] for path, i in numbers.items() if path != "names"}
    files = {volume.blocks(volume.find(path))[0]: volume.find(path) for path in case.tree if path.startswith("small_") and path not in numbers}
    after = next(f for f in files if f - 1 in begins and f % volume.layout.frag)
    last, fsize = volume.blocks(numbers["names"])[2], volume.layout.fsize
    for f, other in ((after, last), (last, after)):
        volume.image[f * fsize:f * fsize + fsize] = right[other * fsize:other * fsize + fsize]
    volume.put_inode(files[after], direct0=last)
    volume.put_inode(numbers["names"], direct2=after)
    if volume.tree() != case.tree:
        raise Wrong("the blocks weren't exchanged")
    for i in numbers.values():
        volume.zero(volume.layout.inode_place(i), 128)
    case.at_stake(*case.tree)
    case.report("UNALLOCATED")
    case.run("further directories check")
    strange = {path for tree in case.trees for path in tree} - set(case.tree)
    if strange:
        raise Wrong(f"names are in a directory that isn't theirs: {min(strange)}")
    case.run("keep")
    put_last_part(case, "names")
    case.run("all")


def all_listed(case, tree):
    """The recipes `names` and `attributes` must list all of a tree."""
    names = {line.partition("\t")[2] for line in case.run("names").splitlines()}
    case.run("attributes")
    attributes = {line.split("|")[1] for line in case.bytes_of("saved.list").decode().splitlines()}
    missing = set(tree) - names or {path for path in tree if f"/{path}" not in attributes}
    if missing:
        raise Wrong(f"{min(missing, key=len)} isn't listed")


@damage("files lie 260 levels deep")
def deep(case):
    if "d/file_0" not in case.tree:
        raise NotHere
    case.at_stake(*case.tree)
    case.report()
    all_listed(case, case.tree)
    case.run("all")
    i = case.volume.find("/".join(["d"] * 200) + "/file_199")
    if case.run("names-of", i=i).count("/") != 201:
        raise Wrong("the name of a deep file isn't found")


@damage("a directory many levels deep became one that it lies in")
def deep_ring(case):
    if "d/file_0" not in case.tree:
        raise NotHere
    case.at_stake(*case.tree)
    paths = ["/".join(["d"] * depth) for depth in (120, 5)]
    case.volume.put(case.volume.entry(paths[0]), 4, case.volume.find(paths[1]))
    i = case.report("IS AN EXTRANEOUS HARD LINK TO DIRECTORY", "UNREF").first("UNREF")["inode"]
    case.run("names all")
    case.run("below all-below", i=i)


@damage("paths are longer than 4,096 bytes")
def long_paths(case):
    """What makefs makes is put together: each piece becomes the last directory of the one before it."""
    if "piece_0" not in case.tree:
        raise NotHere
    volume = case.volume
    for piece in range(2):
        last = max((path for path in volume.tree() if f"/{piece}_13_" in path and path.endswith("/last")), key=len)
        exchange_directories(volume, last, f"piece_{piece + 1}")
    case.tree = volume.tree()
    case.at_stake(*case.tree)
    if case.report():
        raise Wrong("the pieces don't fit")
    all_listed(case, case.tree)
    case.run("all")


def exchange_directories(volume, *paths):
    """Gives two directories each other's name and place."""
    entries = [volume.entry(path) for path in paths]
    numbers = [volume.number(place, 4) for place in entries]
    above = [list(volume.entries(i))[1][0] for i in numbers]
    parents = [volume.number(place, 4) for place in above]
    for places, values in ((entries, reversed(numbers)), (above, reversed(parents))):
        for place, value in zip(places, values):
            volume.put(place, 4, value)


@damage("the type in the entry of a directory became that of a file")
def type_of_file(case):
    case.in_one_order()
    case.volume.put(case.volume.entry("mail") + 6, 1, 8)
    case.at_stake(*[path for path in case.tree if path.startswith("mail/") and path not in sources.SHORT_LINKS])
    case.report("BAD TYPE VALUE")
    all_listed(case, [path for path in case.tree if path not in sources.SHORT_LINKS and path != "mail/longer"])
    case.run("all")


@damage("the size of a directory became endless")
def size_endless(case):
    case.volume.put_inode(case.volume.find("mail/in"), size=1 << 50)
    case.at_stake(*[path for path in case.tree if path not in sources.SHORT_LINKS])
    case.report("UNKNOWN FILE TYPE")
    all_listed(case, [path for path in case.tree if path not in sources.SHORT_LINKS and path != "mail/longer"])
    if "its size" not in case.complaints("all"):
        raise Wrong("nothing says that a directory isn't read to its end")
    case.run("all")
    case.run("every")


@damage("an address of a directory became one outside of the volume, and its block isn't put back")
def address_bad(case):
    volume = case.volume
    i = volume.find("docs/names")
    gone, fsize = volume.blocks(i)[1] * volume.layout.fsize, volume.layout.fsize
    lost = {f"docs/names/{name}" for place, _, _, _, name in volume.entries(i) if gone <= place < gone + volume.layout.bsize}
    volume.put_inode(i, direct1=volume.layout.size + fsize)
    case.at_stake(*[path for path in case.tree if path not in sources.SHORT_LINKS and path not in lost])
    case.report("BAD", "UNREF")
    if "outside of the volume" not in case.complaints("all"):
        raise Wrong("nothing says that a directory isn't whole")
    case.run("names all")


@damage("a word of the indirect block of a directory of more than twelve blocks became one outside of the volume")
def word_bad(case):
    volume, layout = case.volume, case.volume.layout
    case.in_one_order()
    if "long" not in case.tree:
        raise NotHere
    i = volume.find("long")
    gone = [f * layout.fsize for f in volume.blocks(i)[14:]]
    files = [path for path, it in case.tree.items() if isinstance(it, bytes)]
    after = {f"long/{name}" for place, _, _, _, name in volume.entries(i) if any(first <= place < first + layout.bsize for first in gone)}
    volume.put(volume.inode(i)["single"] * layout.fsize + 8, 4, 0x7FFFFFF0)
    case.at_stake(*set(files) - after)
    bad = case.report("BAD", "UNREF").first("BAD")
    i = bad["inode"]
    if "is read up to byte" not in case.complaints("all"):
        raise Wrong("nothing says that a directory isn't read to its end")
    b = fragments_of(case.run("inode", i=i))[12]
    case.run("further word keep", b=b, k=words_of(case, i, 12).index(bad["fragment"]), f=0)
    case.run("names all")


@damage("the size of a directory became endless, and its entry another one")
def size_endless_unnamed(case):
    case.in_one_order()
    volume = case.volume
    volume.put(volume.entry("mail"), 4, volume.find("docs"))
    volume.put_inode(volume.find("docs/pages"), size=1 << 50)
    case.at_stake(*[path for path in case.tree if path not in sources.SHORT_LINKS and path != "mail/longer"], name=False)
    case.report("IS AN EXTRANEOUS HARD LINK TO DIRECTORY", "UNREF")
    case.run("names")
    case.run("all")
    case.run("unnamed")


@damage("the inode of a directory of more than twelve blocks became zeros")
def twelve_blocks(case):
    if "long" not in case.tree:
        raise NotHere
    bsize = case.volume.layout.bsize
    case.volume.zero(case.volume.layout.inode_place(case.volume.find("long")), 128)
    case.at_stake(*[path for path in case.tree if path.startswith("long")])
    i = case.report("UNALLOCATED", "UNREF").first("UNALLOCATED")["inode"]
    case.run("further directories keep")
    b, count = map(int, case.run("rising").split())
    size = (12 + count) * bsize
    found = mend_long(case, i, b, size, count)
    while any(message.get("inode") == i for message in found):
        size -= 512
        found = mend_long(case, i, b, size, count)


def mend_long(case, i, b, size, count):
    return mend(case, i, "address size blocks", k=12, f=b, size=size, blocks=(12 + 1 + count) * case.volume.layout.bsize // 512)


@damage("the inode of a directory whose first chunk has room became zeros")
def first_chunk_with_room(case):
    volume, fsize = case.volume, case.volume.layout.fsize
    i = volume.find("docs/pages")
    for k, (place, _, _, _, name) in enumerate(volume.entries(i)):
        if name not in (".", "..") and k < 28:
            volume.image[place + 7:place + 16] = bytes((1, ord("A") + k)) + bytes(7)
    case.tree = volume.tree()
    volume.zero(volume.layout.inode_place(i), 128)
    case.at_stake(*[path for path in case.tree if path.startswith("docs/pages")])
    i = case.report("UNALLOCATED", "UNREF").first("UNALLOCATED")["inode"]
    if case.run("further directories check").status == 0:
        return
    case.run("keep")
    first = fragments_of(case.run("inode", i=i))[0] * fsize
    size = entries_of(case.run("lost-names"))[-1].byte // 512 * 512 + 512 - first
    case.run("further place size blocks check", i=i, size=size, blocks=-(-size // fsize) * fsize // 512)


@damage("the inode of a directory became zeros, and a file has an image of the directory in it")
def image_in_file(case):
    """The image comes after its directory on the disk."""
    volume, layout = case.volume, case.volume.layout
    i = volume.find("mail/in")
    place = volume.blocks(i)[0] * layout.fsize
    inner = volume.blocks(volume.find("big/film"))[3] * layout.fsize
    right = case.tree["big/film"]
    volume.image[inner:inner + 512] = volume.image[place:place + 512]
    case.tree["big/film"] = right[:3 * layout.bsize] + bytes(volume.image[place:place + 512]) + right[3 * layout.bsize + 512:]
    volume.zero(layout.inode_place(i), 128)
    case.at_stake("mail/in", "mail/in/one", "mail/in/two", "big/film")
    case.report("UNALLOCATED", "UNREF")
    if case.run("further directories-anywhere check").status:
        raise Wrong("what lies in a file was taken for the directory")


def files_of(case):
    """The inodes of all files that have bytes."""
    return {path: case.volume.find(path) for path, it in case.tree.items() if isinstance(it, bytes) and it and path not in sources.SHORT_LINKS}


@damage("the first 64 KB were overwritten: a superblock, a group, the root, and directories")
def head_overwritten(case):
    put_head(case, random.Random(1).randbytes(HEAD))
    case.report("BAD SUPER BLOCK")
    case.run("further superblock check", sector=case.run("copies").split()[0])
    case.run("keep")
    bring_back(case)


@damage("the first 64 KB and all copies of the superblock became zeros")
def head_zeroed(case):
    put_head(case, bytes(HEAD))
    for c in range(case.volume.layout.ncg):
        case.volume.zero(case.volume.layout.copy_place(c), 1536)
    case.report("BAD SUPER BLOCK")
    case.run("further twin", order=case.volume.order, words=case.kind.words, size=case.kind.size)
    case.run("keep")
    case.run("further last-copy keep")
    bring_back(case)


def put_head(case, head):
    """Writes over the first bytes of the image. At stake is what has neither its inode, nor its bytes, nor its directory there."""
    volume, layout = case.volume, case.volume.layout
    numbers = files_of(case)
    begins = {path: [volume.layout.inode_place(i)] + [run.start * layout.fsize for run in volume.runs(i)] for path, i in numbers.items()}
    folders = {path: min(run.start for run in volume.runs(volume.find(path))) * layout.fsize for path, it in case.tree.items() if it == "directory"}
    last = volume.runs(volume.find("docs/names"))[-1].start * layout.fsize
    elsewhere = {path for path in numbers if last <= volume.entry(path) < last + layout.bsize}
    left = [path for path, places in begins.items() if min(places) >= HEAD and folders.get(path.rpartition("/")[0], 0) >= HEAD]
    case.at_stake(*[path for path in left if path not in elsewhere])
    case.at_stake(*[path for path in left if path in elsewhere], name=False)
    volume.image[:HEAD] = head


def bring_back(case):
    """What is left of a volume whose head was overwritten, once the superblock is back."""
    found = case.check_again()
    case.run("further")
    for message in found.of("UNKNOWN FILE TYPE") + found.of("PARTIALLY ALLOCATED INODE"):
        case.run("clear", i=message["inode"])
    case.run("keep")
    case.run("further directories-anywhere keep")
    f = case.volume.layout.size
    while case.run("owners", f=f) != "free\n":
        f -= 1
    found = case.run("further new-root check", f=f)
    case.run("keep")
    case.run("every")
    case.run("unnamed", **{"from": "every.img"})
    # No tool of Sleuthkit reads the copy, and all can be given the other.
    os.replace(f"{case.place}/every.img", f"{case.place}/copy.img")
    for message in found.of("UNREF"):
        case.run("below", i=message["inode"])


@damage("of a volume the root's block, a cylinder group's block and the last copy of the superblock became zeros")
def root_and_group_zeroed(case):
    volume, layout = case.volume, case.volume.layout
    numbers = files_of(case)
    volume.zero(volume.blocks(2)[0] * layout.fsize, layout.fsize)
    volume.zero(layout.group_place(0), layout.bsize)
    volume.zero(layout.copy_place(layout.ncg - 1), 1536)
    case.at_stake(*numbers)
    case.report("BAD SUPER BLOCK")
    case.run("further last-copy keep")
    found = case.check_again("DIRECTORY CORRUPTED", "CG: BAD MAGIC NUMBER")
    for message in found.of("UNREF"):
        case.run("below", i=message["inode"])
    case.run("every")
    case.run("unnamed", **{"from": "every.img"})


@damage("five damages at once: the last copy of the superblock, a group's block, inode 2, an entry and an indirect block")
def five(case):
    volume, layout = case.volume, case.volume.layout
    numbers = files_of(case)
    volume.put(volume.entry("mail/report_too"), 4, 99999)
    volume.zero(volume.inode(volume.find("big/film"))["single"] * layout.fsize, layout.bsize)
    volume.put_inode(2, mode=0)
    volume.zero(layout.group_place(0), layout.bsize)
    volume.zero(layout.copy_place(layout.ncg - 1), 1536)
    case.at_stake(*numbers)
    case.report("BAD SUPER BLOCK")
    case.run("further last-copy keep")
    case.check_again("ROOT INODE UNALLOCATED", "PARTIALLY ALLOCATED INODE")
    case.run("further place mode keep", i=2, mode="40755")
    found = case.check_again("I OUT OF RANGE", "LINK COUNT", "INCORRECT BLOCK COUNT", "CG: BAD MAGIC NUMBER")
    case.run("further number keep", e=place_of(case, found.first("I OUT OF RANGE")["path"]), i=found.first("LINK COUNT")["inode"])
    b = fragments_of(case.run("inode", i=found.first("INCORRECT BLOCK COUNT")["inode"]))[12]
    case.run("further list refill keep", b=b)
    case.run("every")


@damage("a directory's inode was overwritten by that of a file")
def inode_of_file(case):
    volume, layout = case.volume, case.volume.layout
    i, j = (layout.inode_place(volume.find(path)) for path in ("docs/pages", "docs/letter"))
    case.at_stake(*[path for path in case.tree if path.startswith("docs/pages")])
    volume.image[i:i + 128] = volume.image[j:j + 128]
    found = case.report("DUP", "UNREF", "BAD TYPE VALUE").first("BAD TYPE VALUE")["inode"]
    case.run("further clear keep", i=found)
    case.run("further directories check")


@damage("the first two blocks of a directory changed places")
def blocks_exchanged(case):
    volume = case.volume
    i = volume.find("docs/names")
    first, second = volume.blocks(i)[:2]
    if len(volume.blocks(i)) < 3:
        raise NotHere
    names_at_stake(case)
    volume.put_inode(i, direct0=second, direct1=first)
    i = case.report("EXTRA '.' ENTRY", "MISSING '.', CANNOT FIX").first("EXTRA '.' ENTRY")["inode"]
    addresses = fragments_of(case.run("inode", i=i))
    k = next(k for k, f in addresses.items() if any(entry.name == "." for entry in entries_of(case.run("entries", f=f))))
    case.run("further place address", i=i, k=0, f=addresses[k])
    case.run("place address check", i=i, k=k, f=addresses[0])


@damage("the root's block was overwritten by text")
def root_overwritten(case):
    volume, layout = case.volume, case.volume.layout
    numbers = files_of(case)
    at = volume.blocks(2)[0] * layout.fsize
    volume.image[at:at + layout.fsize] = (b"All work and no play makes Jack a dull boy. " * layout.fsize)[:layout.fsize]
    case.at_stake(*numbers)
    found = case.report("DIRECTORY CORRUPTED")
    for message in found.of("UNREF"):
        case.run("below", i=message["inode"])
    case.run("unnamed")


def mend_counts(case, i, found, recipes, **values):
    """Puts the counts of inode i that the report of the further copy says are right, beside what was put before."""
    blocks = found.first("INCORRECT BLOCK COUNT")["right_count"]
    links = found.first("LINK COUNT")["right_count"]
    mend(case, i, recipes + " links blocks", blocks=blocks, links=links, **values)


@damage("the mode of inode 2 became 0")
def root_mode_zero(case):
    case.volume.put_inode(2, mode=0)
    case.at_stake(*case.tree)
    case.report("ROOT INODE UNALLOCATED", "PARTIALLY ALLOCATED INODE")
    case.run("further directories")
    if case.bytes_of("further.img") != case.bytes_of("copy.img"):
        raise Wrong("an inode that isn't empty was put anew")
    mend(case, 2, "mode", mode="40755")


@damage("inode 2 became a file")
def root_file(case):
    case.volume.put_inode(2, mode=0o100755)
    case.at_stake(*case.tree)
    case.report("ROOT INODE NOT DIRECTORY")
    mend(case, 2, "mode", mode="40755")


@damage("an address was set in inode 2 that it doesn't use")
def root_address(case):
    case.volume.put_inode(2, direct5=77777)
    case.at_stake(*case.tree)
    case.report("UNKNOWN FILE TYPE", "ROOT INODE NOT DIRECTORY")
    k = max(fragments_of(case.run("inode", i=2)))
    mend(case, 2, "address", k=k, f=0)


@damage("the size of inode 2 became 0")
def root_size(case):
    case.volume.put_inode(2, size=0)
    case.at_stake(*case.tree)
    case.report("UNKNOWN FILE TYPE", "ROOT INODE NOT DIRECTORY")
    mend_size(case, 2)


@damage("inode 2 became a link")
def root_link(case):
    case.volume.put_inode(2, mode=0o120755)
    case.at_stake(*case.tree)
    case.report("ROOT INODE NOT DIRECTORY")
    mend(case, 2, "mode", mode="40755")


@damage("the root's address points outside of the volume")
def root_bad(case):
    case.volume.put_inode(2, direct0=99999)
    case.at_stake(*case.tree)
    case.report("DUPS/BAD IN ROOT INODE")
    mend(case, 2, "address", k=0, f=first_lost(case))


def exchange_addresses(case, directory, k, path, j):
    """Exchanges an address of a directory with one of a file."""
    volume = case.volume
    i, other = volume.find(directory), volume.find(path)
    a, b = volume.inode(i)[f"direct{k}"], volume.inode(other)[f"direct{j}"]
    volume.put_inode(i, **{f"direct{k}": b})
    volume.put_inode(other, **{f"direct{j}": a})
    return i


def exchange_back(case, i, name):
    """Finds a name that has no file's directory, of an unreferenced file: it lies in a file, whose address is put in the place of the
    directory's."""
    entry = next(entry for entry in entries_of(case.run("find-name", i=name)))
    found = case.run("owners", f=entry.byte // case.volume.layout.fsize).split()
    other, block = int(found[1]), int(found[3])
    addresses = fragments_of(case.run("inode", i=i))
    lies = fragments_of(case.run("inode", i=other))[block]
    for k in addresses:
        case.run("further place address", i=i, k=k, f=lies)
        if case.run("place address check", i=other, k=block, f=addresses[k]).status == 0:
            return
    raise Wrong("no address of the directory fits")


@damage("the addresses of a directory and of a file were exchanged")
def file_address_exchanged(case):
    exchange_addresses(case, "mail/in", 0, "mail/out/three", 0)
    case.at_stake("mail/in", "mail/in/one", "mail/in/two", "mail/out/three")
    report = case.report("DIRECTORY CORRUPTED", "UNREF")
    exchange_back(case, report.first("DIRECTORY CORRUPTED")["inode"], report.first("UNREF")["inode"])


@damage("the second address of a directory and one of a file were exchanged")
def file_second_address_exchanged(case):
    case.in_one_order()
    exchange_addresses(case, "docs/names", 1, "docs/report", 2)
    names_at_stake(case)
    case.at_stake("docs/report", "mail/report_too")
    report = case.report("DIRECTORY CORRUPTED", "UNREF")
    exchange_back(case, report.first("DIRECTORY CORRUPTED")["inode"], report.first("UNREF")["inode"])


@damage("a directory became a file, and the type in its entry too")
def became_file_wholly(case):
    volume = case.volume
    volume.put_inode(volume.find("mail/in"), mode=0o100755)
    volume.put(volume.entry("mail/in") + 6, 1, 8)
    case.at_stake("mail/in", "mail/in/one", "mail/in/two")
    name = case.report("UNREF").first("UNREF")["inode"]
    entry = entries_of(case.run("find-name", i=name))[0]
    i = owners_of(case.run("owners", f=entry.byte // volume.layout.fsize))[0]
    path = case.run("names-of", i=i).strip()
    if case.run("further place mode type check", i=i, mode="40755", e=place_of(case, path), type=4).status:
        raise Wrong("it isn't consistent")


@damage("all fields of a directory's inode but its addresses became zeros")
def addresses_alone(case):
    volume = case.volume
    i = volume.find("docs/pages")
    volume.put_inode(i, mode=0, nlink=0, size=0, blocks=0)
    case.at_stake(*[path for path in case.tree if path.startswith("docs/pages")])
    i = case.report("PARTIALLY ALLOCATED INODE").first("PARTIALLY ALLOCATED INODE")["inode"]
    case.run("further clear keep", i=i)
    if case.run("further directories check").status not in (0, 1):
        raise Wrong("it doesn't end")
    case.run("keep names")


@damage("a file's address became that of a directory's block, and that of another directory a file's")
def shared_both_ways(case):
    volume = case.volume
    volume.put_inode(volume.find("docs/report"), direct1=volume.inode(volume.find("docs/names"))["direct0"])
    volume.put_inode(volume.find("mail/in"), direct0=volume.inode(volume.find("docs/letter"))["direct0"])
    names_at_stake(case)
    case.at_stake("docs/report", "mail/in", "docs/letter")
    case.report("DUP", "DIRECTORY CORRUPTED")
    dot = next(entry for entry in entries_of(case.run("lost-names")) if entry.name == ".")
    case.run("further place address keep", i=dot.number, k=0, f=dot.byte // volume.layout.fsize)
    f = case.check_again("DUP").first("DUP")["fragment"]
    for i, k, _ in places_of(case.run("owners", f=f)):
        put_lost(case, i, k)


@damage("the root's inode and block became zeros, and no fragment is free")
def full_volume(case):
    volume, layout = case.volume, case.volume.layout
    root = volume.blocks(2)[0]
    for f in range(layout.size):
        if not layout.is_reserved(f):
            place, bit = volume.mark(f)
            volume.image[place] &= ~(1 << bit)
    volume.zero(root * layout.fsize, layout.fsize)
    volume.zero(layout.inode_place(2), 128)
    case.at_stake("docs/letter", "docs/report", "mail/in/one", "big/film", name=False)
    case.report("ROOT INODE UNALLOCATED")
    ranges = [range(int(line.split()[0]), int(line.split()[1]) + 1) for line in case.run("lost").splitlines()]
    full = next(f for f in range(layout.size) if not any(f in it for it in ranges))
    case.refuses("further new-root", f=full)
    case.run("further new-root keep", f=root)
    case.run("unnamed")
