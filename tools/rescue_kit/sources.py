"""The tree that makefs makes the volumes of: small and large files, directories of one and of many chunks, links, a FIFO."""
import os
import random
import subprocess
from collections.abc import Callable
from dataclasses import dataclass

SEED = 20261128
SHORT_LINKS = {"mail/short": "../docs/letter", "mail/tiny": "x"}


def make_tree(top):
    """Writes the tree; its bytes come from a fixed seed."""
    rng = random.Random(SEED)

    def put(path, length):
        os.makedirs(os.path.dirname(f"{top}/{path}"), exist_ok=True)
        with open(f"{top}/{path}", "wb") as it:
            it.write(rng.randbytes(length - 1) + b"\1" if length else b"")

    put("docs/letter", 3000)
    put("docs/report", 20000)
    for number in range(60):
        put(f"docs/pages/page_{number:02}", 500 + 37 * number)
    for number in range(180):
        put(f"docs/names/a_rather_long_name_of_a_file_{number:03}", 20)
    put("big/film", 900000)
    put("big/photo", 14 * 4096 + 100)
    put("mail/in/one", 700)
    put("mail/in/two", 800)
    put("mail/out/three", 900)
    for path, text in SHORT_LINKS.items():
        os.symlink(text, f"{top}/{path}")
    os.symlink("../docs/" * 24 + "report", f"{top}/mail/longer")
    os.link(f"{top}/docs/report", f"{top}/mail/report_too")
    os.mkfifo(f"{top}/pipe")


def make_large_tree(top):
    """The same tree, and a file with a double indirect block, where blocks have 4,096 bytes."""
    make_tree(top)
    with open(f"{top}/big/archive", "wb") as it:
        it.write(random.Random(SEED).randbytes((12 + 1024 + 6) * 4096 + 100) + b"\1")


def make_directories(top):
    """A directory of two blocks of 4,096 bytes and a chunk, and small ones."""
    for number in range(180):
        path = f"{top}/names/a_rather_long_name_of_a_file_{number:03}"
        os.makedirs(os.path.dirname(path), exist_ok=True)
        with open(path, "wb") as it:
            it.write(b"%d" % number * 10)
    for number in range(24):
        os.makedirs(f"{top}/small_{number}")
        with open(f"{top}/small_{number}/file", "wb") as it:
            it.write(b"%d" % number * 30)


def make_long_directory(top):
    """A directory of more than twelve blocks of 4,096 bytes, and a small one."""
    os.makedirs(f"{top}/long")
    os.makedirs(f"{top}/small")
    for number in range(1100):
        with open(f"{top}/long/a_rather_long_name_of_a_file_number_{number:05}", "wb") as it:
            it.write(b"%d" % number * 5)
    with open(f"{top}/small/file", "wb") as it:
        it.write(b"small" * 99)


def make_deep(top):
    """Directories 260 deep, with a file in each."""
    path = top
    for number in range(260):
        path += "/d"
        os.makedirs(path)
        with open(f"{path}/file_{number}", "wb") as it:
            it.write(b"%d" % number * 9)


def make_long_paths(top):
    """Three times 14 directories, each below the one before it, with long names and a file in each; the last one is empty."""
    for piece in range(3):
        path = f"{top}/piece_{piece}"
        for number in range(14):
            path += f"/{piece}_{number:02}_" + "long" * 60
            os.makedirs(path)
            with open(f"{path}/file", "wb") as it:
                it.write(b"%d %d, " % (piece, number) * 9)
        os.makedirs(f"{path}/last")


def make_odd_names(top):
    """Names of 255 bytes, with control bytes, or that a shell or a list could take for something else; directories too."""
    for number, name in enumerate((b"with spaces in it", b" leading", b"trailing ", b"new\nline", b"tab\there", b"esc\x1b[31m", b"-rf", b"a -> b", b"* star",
                                   b"co:lon", b"pi|pe", b"x (deleted)", b"'\"`$(x)\\", b"n" * 255, b"\xc3\xa9" * 127, b"latin\xe4", b"..x", b"lost+found")):
        for folder in (b"odd", b"odd/in " + name[:240]):
            path = b"/".join((os.fsencode(top), folder, name))
            os.makedirs(os.path.dirname(path), exist_ok=True)
            with open(path, "wb") as it:
                it.write(name + b"%d" % number * 20)


@dataclass
class Kind:
    """A kind of volume: its byte order, the size and words that makefs takes, how its tree is made, and a word of the damages that it has."""

    order: str
    size: str
    words: str
    fill: Callable = make_tree
    only: str = ""

    def make(self, place):
        """The bytes of a volume, made in that folder. Each has many small cylinder groups."""
        self.fill(f"{place}/tree")
        subprocess.run(["makefs", "-t", "ffs", "-B", self.order, "-s", self.size, "-o", self.words, f"{place}/image", f"{place}/tree"],
                       check=True, capture_output=True)
        with open(f"{place}/image", "rb") as it:
            return it.read()


SMALL = "version=1,bsize=4096,fsize=512,density=4096,maxbpcg=100"
KINDS = [
    Kind("le", "4m", SMALL),
    Kind("be", "8m", "version=1,bsize=8192,fsize=1024,density=8192,maxbpcg=100"),
    Kind("le", "12m", SMALL, make_large_tree, "large file"),
    Kind("be", "12m", SMALL, make_large_tree, "large file"),
    Kind("le", "4m", "version=1,bsize=4096,fsize=512,density=4096", make_directories, "last part"),
    Kind("be", "4m", "version=1,bsize=4096,fsize=512,density=4096", make_directories, "last part"),
    Kind("le", "8m", "version=1,bsize=4096,fsize=512,density=2048", make_long_directory, "twelve blocks"),
    Kind("be", "8m", "version=1,bsize=4096,fsize=512,density=2048", make_long_directory, "twelve blocks"),
    Kind("le", "4m", "version=1,bsize=4096,fsize=512,density=4096", make_deep, "levels"),
    Kind("be", "4m", "version=1,bsize=4096,fsize=512,density=4096", make_long_paths, "longer than 4,096"),
    Kind("le", "4m", SMALL, make_odd_names, "odd names"),
    Kind("be", "4m", SMALL, make_odd_names, "odd names"),
    Kind("le", "48m", "version=1,bsize=65536,fsize=16384,density=16384", make_directories, "fragments of 16,384"),
]
