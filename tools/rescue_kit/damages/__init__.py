"""The damages: each puts names and bytes at stake, and follows the page as far as the report alone leads."""
from . import directories, groups, inodes, names, superblocks
from .all import ALL

__all__ = ["ALL", "directories", "groups", "inodes", "names", "superblocks"]
