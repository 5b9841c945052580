"""What `try_edits` is made of: the text of an edit, the copy of a crate that it is tried in, and what a check says of it."""
