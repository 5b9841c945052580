"""Source trees, and what a reader of a volume made of them must find."""
import hashlib
import os
import random
import stat

SEED = 20261128
MANY = 400
LEVELS = 40
LINK_LENGTHS = (1, 59, 60, 61, 255, 1000)


def put(path, size, numbers):
    with open(path, "wb") as file:
        file.write(numbers.randbytes(size))


def make(top, block, fragment):
    """Makes a tree with files about each limit of these sizes, hard links, links, devices, long names, and many levels."""
    numbers = random.Random(f"{SEED} {block} {fragment}")
    os.makedirs(f"{top}/sub/dir")
    put(f"{top}/empty", 0, numbers)
    put(f"{top}/one", 1, numbers)
    sizes = [fragment - 1, fragment, fragment + 1, block - 1, block, block + 1]
    sizes += [12 * block - 1, 12 * block, 12 * block + 1, 13 * block + fragment + 1]
    if block <= 8192:
        sizes.append((12 + block // 4 + 9) * block + 5)  # a double indirect block
    for size in sizes:
        put(f"{top}/size_{size}", size, numbers)
    os.link(f"{top}/one", f"{top}/one.hard")
    os.link(f"{top}/one", f"{top}/sub/dir/one.third")
    for length in LINK_LENGTHS:
        os.symlink(("x" * 9 + "/") * (length // 10) + "y" * (length % 10), f"{top}/link_{length}")
    os.mknod(f"{top}/character", stat.S_IFCHR | 0o620, os.makedev(4, 65))
    os.mknod(f"{top}/block", stat.S_IFBLK | 0o660, os.makedev(8, 17))
    os.mkfifo(f"{top}/fifo")
    for name in ("n" * 255, "name with  space", "umlaut_\u00e4\u4e2d", "quo'te\"$`", ".hidden"):
        put(f"{top}/{name}", len(name), numbers)
    with open(f"{top}/holes", "wb") as file:
        file.truncate(20 * block)
        file.seek(15 * block)
        file.write(b"in the middle")
    os.chmod(f"{top}/one", 0o4751)
    os.chown(f"{top}/empty", 1234, 65533)
    deep = top + "/deep" + "".join(f"/d{level}" for level in range(LEVELS))
    os.makedirs(deep)
    put(f"{deep}/bottom", 99, numbers)
    os.makedirs(f"{top}/many")
    for number in range(MANY):
        put(f"{top}/many/file_{number}_{'z' * (number % 40)}", number % 300, numbers)


def digest(path):
    with open(path, "rb") as file:
        return hashlib.md5(file.read()).hexdigest()


def expected(top):
    """Each path below the tree, with what it must be: mode, links, size, and content (an MD5, the text of a link, a device)."""
    found = {}
    for folder, folders, files in os.walk(top):
        for name in folders + files:
            path = os.path.join(folder, name)
            held = os.lstat(path)
            kind = stat.S_IFMT(held.st_mode)
            content = links = size = None
            if kind == stat.S_IFREG:
                content, links, size = digest(path), held.st_nlink, held.st_size
            elif kind == stat.S_IFLNK:
                content, size = os.readlink(path), held.st_size
            elif kind in (stat.S_IFCHR, stat.S_IFBLK):
                content = f"{os.major(held.st_rdev)}:{os.minor(held.st_rdev)}"
            found[os.path.relpath(path, top)] = {
                "mode": held.st_mode, "links": links, "uid": held.st_uid, "size": size, "content": content}
    return found
