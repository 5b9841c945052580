"""What Sleuthkit (fiwalk, fls, icat) reads of a volume."""
import hashlib
import os
import re
import stat
import subprocess
import xml.etree.ElementTree as xml

SECONDS = 120
# Below this length makefs puts the text of a link into its inode.
SHORT_LINK = 60
LETTERS = {stat.S_IFREG: "r", stat.S_IFDIR: "d", stat.S_IFLNK: "l", stat.S_IFCHR: "c", stat.S_IFBLK: "b", stat.S_IFIFO: "p"}


class Unread(Exception):
    """A reader that gave no answer, and why."""


def printed(*words):
    """What a tool prints."""
    try:
        ran = subprocess.run(words, capture_output=True, timeout=SECONDS)
    except subprocess.TimeoutExpired:
        raise Unread(f"{words[0]}: no answer in {SECONDS} s") from None
    if ran.returncode:
        raise Unread(f"{words[0]}: {ran.stderr.decode('latin1')[-200:]}")
    return ran.stdout


def read(image):
    """What fiwalk reads: each path of a volume with its inode, mode, links, uid, size, MD5 and the (place, length) of its bytes in the image."""
    text = re.sub(rb"xmlns='[^']*'", b"", re.sub(rb"[\x00-\x08\x0b\x0c\x0e-\x1f]", b"?", printed("fiwalk", "-x", image)))
    try:
        top = xml.fromstring(text.decode("utf8", "replace"))
    except xml.ParseError as fault:
        raise Unread(f"fiwalk's XML: {fault}") from None
    found = {}
    for node in top.iter("fileobject"):
        value = {part.tag: part.text for part in node}
        path = value.get("filename") or ""
        if value.get("unalloc") or path.startswith("$Orphan") or re.search(r"(^|/)\.\.?$", path) or not path:
            continue
        places = [(int(run.get("img_offset")), int(run.get("len"))) for run in node.iter("byte_run") if run.get("img_offset")]
        is_directory = value.get("name_type") == "d"
        digests = [part.text for part in node.findall("hashdigest") if part.get("type") == "md5" and not is_directory]
        found.setdefault(path, {
            "inode": int(value.get("inode") or 0), "mode": int(value.get("mode") or "0"), "links": int(value.get("nlink") or 0),
            "uid": int(value.get("uid") or 0), "size": int(value.get("filesize") or 0),
            "content": digests[0] if digests else None, "type": value.get("name_type"), "places": places})
    return found


def listed(image):
    """What fls lists: each path with the letters of its type, that of the entry and that of the inode, and its inode."""
    found = {}
    for line in printed("fls", "-r", "-p", "-f", "ufs1", image).decode("utf8", "surrogateescape").splitlines():
        head, _, path = line.partition(":\t")
        letters, _, inode = head.partition(" ")
        if not path.startswith("$Orphan"):
            found[path] = (letters, int(inode))
    return found


def differences(volume, wanted):
    """What Sleuthkit reads otherwise than it was put in: by fiwalk all, by fls the names and types, by icat the files of the root."""
    found = read(volume.image)
    names = listed(volume.image)
    said = differences_of(found, volume, wanted)
    for path in sorted(set(found) | set(names)):
        letter = LETTERS.get(stat.S_IFMT(wanted[path]["mode"])) if path in wanted else "?"
        right = (f"{letter}/{letter}", found[path]["inode"]) if path in found else None
        if names.get(path) != right:
            said.append(f"{path}: fls lists {names.get(path)}, not {right}")
    for path, one in found.items():
        if "/" not in path and path in wanted and stat.S_ISREG(wanted[path]["mode"]):
            if hashlib.md5(printed("icat", "-f", "ufs1", volume.image, str(one["inode"]))).hexdigest() != wanted[path]["content"]:
                said.append(f"{path}: icat gives other bytes")
    return said


def differences_of(found, volume, wanted):
    """What fiwalk reads otherwise than it was put in. Sleuthkit's own faults are passed over: it gives NULs for a link below
    60 bytes, and a wrong text for one that is longer than a fragment; and it shows no device's number."""
    said = []
    for path in sorted(set(wanted) | set(found)):
        if path not in found or path not in wanted:
            said.append(f"{path}: {'not read' if path in wanted else 'nothing was put in'}")
            continue
        one, other = found[path], wanted[path]
        kind = other["mode"] & 0o170000
        if one["uid"] != other["uid"]:
            said.append(f"{path}: uid {one['uid']}, not {other['uid']}")
        if one["mode"] & 0o7777 != other["mode"] & 0o7777:
            said.append(f"{path}: mode {one['mode']:o}, not {other['mode']:o}")
        for name in ("links", "size"):
            if other[name] is not None and one[name] != other[name]:
                said.append(f"{path}: {name} {one[name]}, not {other[name]}")
        if kind == 0o100000 and other["size"] and one["content"] != other["content"]:
            said.append(f"{path}: other bytes")
        if kind == 0o120000 and SHORT_LINK <= other["size"] <= volume.fragment:
            if one["content"] != hashlib.md5(os.fsencode(other["content"])).hexdigest():
                said.append(f"{path}: another text of the link")
    return said
