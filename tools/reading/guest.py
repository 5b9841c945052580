"""Runs in a Linux of its own: mounts each image of a list read-only, by the kernel's UFS, and writes what it reads."""
import ctypes
import errno
import fcntl
import hashlib
import json
import os
import stat
import sys
import time

LIBC = ctypes.CDLL(None, use_errno=True)
LOOP_SET_FD, LOOP_CLR_FD = 0x4C00, 0x4C01
READ_ONLY, NO_DEVICES, DETACH = 1, 4, 2
# The number of the system call that loads a module, on x86-64.
FINIT_MODULE = 313
MOUNT, COPY = "/mnt/volume", "/mnt/copy"
MOST_NAMES = 20000
MOST_BYTES = 600 << 20
SECONDS = 60


def name_of(fault):
    return errno.errorcode.get(fault.errno, str(fault.errno))


def content(path, mode, room):
    """The MD5 of a file, the text of a link, the number of a device."""
    if stat.S_ISREG(mode):
        digest = hashlib.md5()
        with open(path, "rb") as file:
            while piece := file.read(1 << 20):
                room[0] -= len(piece)
                if room[0] < 0:
                    return "too many bytes"
                digest.update(piece)
        return digest.hexdigest()
    if stat.S_ISLNK(mode):
        return os.fsdecode(os.readlink(path))
    if stat.S_ISCHR(mode) or stat.S_ISBLK(mode):
        held = os.lstat(path)
        return f"{os.major(held.st_rdev)}:{os.minor(held.st_rdev)}"
    return None


def walk():
    found, left, room = {}, [(MOUNT, "")], [MOST_BYTES]
    while left and len(found) < MOST_NAMES:
        folder, below = left.pop()
        try:
            names = sorted(os.listdir(folder))
        except OSError as fault:
            found[below or "/"] = {"fault": name_of(fault)}
            continue
        for name in names:
            path, shown = f"{folder}/{name}", f"{below}/{name}" if below else name
            try:
                held = os.lstat(path)
                value = {"inode": held.st_ino, "mode": held.st_mode, "links": held.st_nlink, "uid": held.st_uid, "size": held.st_size}
                value["content"] = content(path, held.st_mode, room)
            except OSError as fault:
                value = {"fault": name_of(fault)}
            found[shown] = value
            if stat.S_ISDIR(value.get("mode", 0)) and shown.count("/") < 100:
                left.append((path, shown))
    return found


def look(image, changes, to):
    if changes:
        with open(image, "rb") as file:
            held = bytearray(file.read())
        for place, value in changes:
            held[place:place + len(bytes.fromhex(value))] = bytes.fromhex(value)
        with open(COPY, "wb") as file:
            file.write(held)
        image = COPY
    device = os.open("/dev/loop0", os.O_RDONLY)
    fcntl.ioctl(device, LOOP_SET_FD, os.open(image, os.O_RDONLY))
    failed = LIBC.mount(b"/dev/loop0", MOUNT.encode(), b"ufs", READ_ONLY | NO_DEVICES, b"ufstype=44bsd")
    answer = {"mount": errno.errorcode.get(ctypes.get_errno(), "?") if failed else "ok"}
    if not failed:
        answer["tree"] = walk()
        LIBC.umount2(MOUNT.encode(), DETACH)
    with open(to + ".new", "w") as file:
        json.dump(answer, file)
    os.rename(to + ".new", to)
    fcntl.ioctl(device, LOOP_CLR_FD, 0)


def main(work, modules):
    for module in ("drivers/block/loop.ko", "fs/ufs/ufs.ko"):
        if LIBC.syscall(FINIT_MODULE, os.open(f"{modules}/kernel/{module}", os.O_RDONLY), b"", 0):
            print(f"no module {module}", flush=True)
    os.makedirs(MOUNT)
    with open(f"{work}/list") as file:
        jobs = [json.loads(line) for line in file]
    for image, changes, to in jobs:
        if os.path.exists(to):
            continue
        with open(f"{work}/at", "w") as file:
            file.write(to)
        os.sync()
        child = os.fork()
        if child == 0:
            try:
                look(image, changes, to)
                os._exit(0)
            except BaseException as fault:
                print(f"{image}: {fault!r}", flush=True)
                os._exit(3)
        end, status = time.time() + SECONDS, None
        while time.time() < end and status is None:
            ended, answer = os.waitpid(child, os.WNOHANG)
            status = answer if ended else None
            time.sleep(0.002)
        if status != 0:
            with open(to, "w") as file:
                json.dump({"mount": "hang" if status is None else "the reader died"}, file)
            return  # the next machine takes the rest


main(sys.argv[1], sys.argv[2])
