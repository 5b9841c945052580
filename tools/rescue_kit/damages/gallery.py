"""What the gallery of READING says of a worked image: these recipes make it consistent. Each: the image, the recipes, their variables."""

WORKED = [
    ("indirect_zeroed", "further list refill check", {"b": 88}),
    ("entry_length_zero", "further length check", {"e": 36 * 1024 + 12, "length": 500}),
    ("magic_wrong", "further superblock check", {"sector": 32}),
    ("file_as_directory", "further place mode check", {"i": 3, "mode": "100644"}),
]
