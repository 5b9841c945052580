"""Volumes that makefs makes of the trees, in both byte orders and many sizes, of one and of several groups."""
import subprocess

from reading import trees

SIZES = [(4096, 512), (4096, 1024), (4096, 2048), (4096, 4096), (8192, 1024), (8192, 2048), (8192, 4096), (8192, 8192),
         (16384, 2048), (16384, 4096), (16384, 16384), (32768, 4096), (32768, 8192), (65536, 8192)]
ORDERS = ("le", "be")


class Volume:
    """An image that makefs made of a tree."""

    def __init__(self, image, tree, block, fragment, order):
        self.image, self.tree, self.block, self.fragment, self.order = image, tree, block, fragment, order

    def __str__(self):
        return f"{'little' if self.order == 'le' else 'big'} {self.block}/{self.fragment} {self.image.rsplit('/', 1)[1]}"


def make(place):
    """Makes all volumes below a folder; one that makefs refuses is left out, with its reason printed."""
    made = []
    for block, fragment in SIZES:
        tree = f"{place}/tree_{block}_{fragment}"
        trees.make(tree, block, fragment)
        for order in ORDERS:
            for groups in ("one", "several"):
                image = f"{place}/{block}_{fragment}_{order}_{groups}.img"
                words = f"version=1,bsize={block},fsize={fragment}" + (",maxbpcg=160" if groups == "several" else "")
                ran = subprocess.run(["makefs", "-t", "ffs", "-B", order, "-b", "20%", "-f", "10%", "-M", "1m", "-o", words, image, tree],
                                     capture_output=True, text=True)
                if ran.returncode:
                    print(f"makefs makes no volume of {words}: {ran.stderr.strip()[-100:]}")
                else:
                    made.append(Volume(image, tree, block, fragment, order))
    return made
