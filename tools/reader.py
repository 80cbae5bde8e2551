#!/usr/bin/env python3
"""A plain reader of name directories. It shares no code with the program: it follows docs/FORMATS.md, and says what a start
over these directories opens to, as `list /` would say it.

Usage: reader.py DIR..
"""
import hashlib
import os
import struct
import sys
import zlib

LAYOUT = -1001
TEMPORARY = ("previous.tmp", "removed.tmp", "finalized.tmp", "lastcheckpoint.tmp")


class Unreadable(Exception):
    """Why a directory, or a choice of them, doesn't open."""


# Names and small files.


def numbered(name, front, back=""):
    """The number of a name with 19 digits between these texts, or None."""
    digits = name[len(front) : len(name) - len(back)]
    if name == front + digits + back and len(digits) == 19 and digits.isdigit():
        return int(digits)
    return None


def contents(*path):
    """The bytes of a file, or None where there is none."""
    try:
        with open(os.path.join(*path), "rb") as file:
            return file.read()
    except (FileNotFoundError, NotADirectoryError):
        return None


def version_of(folder):
    text = contents(folder, "VERSION")
    if text is None:
        raise Unreadable(f"{folder}: no VERSION")
    fields = {}
    for line in text.decode("ascii").splitlines():
        if line and not line.startswith("#"):
            key, value = line.split("=", 1)
            fields[key] = value
    for key in ("namespaceID", "cTime", "layoutVersion"):
        fields[key] = int(fields[key])
    if fields["layoutVersion"] != LAYOUT:
        raise Unreadable(f"{folder}: layout {fields['layoutVersion']}")
    return fields


def seen_of(folder):
    text = contents(folder, "seen_txid") or b""
    digits = text[:-1] if text.endswith(b"\n") else text
    return int(digits) if digits.isdigit() and len(digits) < 20 else 0


# The namespace: nodes by path, a path being the tuple of its names.


class Namespace:
    def __init__(self):
        self.nodes = {(): directory(16385, b"hdfs", b"supergroup", 0o755, 0)}
        self.counters = (16385, 1073741824, 1000)

    def copy(self):
        new = Namespace()
        new.nodes = {path: dict(node, blocks=list(node["blocks"])) for path, node in self.nodes.items()}
        new.counters = self.counters
        return new

    def __eq__(self, other):
        return self.nodes == other.nodes and self.counters == other.counters

    def count(self, inode=0, block=0, stamp=0):
        self.counters = tuple(map(max, self.counters, (inode, block, stamp)))

    def lines(self):
        """The node lines of all paths, in the order of paths."""
        within = {path: [0, 0] for path in self.nodes}
        for path, node in self.nodes.items():
            space = (node["replication"] or 0) * sum(block[2] for block in node["blocks"])
            for end in range(len(path) + 1):
                within[path[:end]][0] += 1
                within[path[:end]][1] += space
        for path in sorted(self.nodes):
            node = self.nodes[path]
            head = f"{node['id']} {node['mode']:04o} {spelled(node['owner'])} {spelled(node['group'])} {node['time']}"
            place = "/" + "/".join(map(spelled, path))
            if node["replication"] is None:
                quotas = " ".join("-" if quota is None else str(quota) for quota in node["quotas"])
                yield f"d {head} {quotas} {within[path][0]} {within[path][1]} {place}"
                continue
            length = sum(block[2] for block in node["blocks"])
            state = "open" if node["open"] else "closed"
            yield f"f {head} {node['replication']} {state} {len(node['blocks'])} {length} {place}"
            for block in node["blocks"]:
                yield "b %d %d %d" % block


def directory(inode, owner, group, mode, time):
    return dict(
        id=inode, owner=owner, group=group, mode=mode, time=time, quotas=(None, None), replication=None, blocks=[], open=False
    )


def plain_file(inode, owner, group, mode, time, replication):
    return dict(directory(inode, owner, group, mode, time), replication=replication, open=True)


def spelled(name):
    return "".join(chr(byte) if 0x21 <= byte <= 0x7E and byte != 0x25 else f"%{byte:02x}" for byte in name)


def path_of(text):
    return tuple(name for name in text.split(b"/") if name)


# Images.


class Bytes:
    """Bytes that are read from the front."""

    def __init__(self, data):
        self.data = data
        self.at = 0

    def left(self):
        return len(self.data) - self.at

    def take(self, count):
        if count > self.left():
            raise Unreadable("it ends too early")
        self.at += count
        return self.data[self.at - count : self.at]

    def number(self, size):
        return int.from_bytes(self.take(size), "big")

    def varint(self):
        value = shift = 0
        while True:
            byte = self.take(1)[0]
            value |= (byte & 127) << shift
            shift += 7
            if byte < 128:
                return value

    def message(self):
        """The next message with its length before it, as the list of its fields."""
        return fields_of(self.take(self.varint()))


def fields_of(data):
    data = Bytes(data)
    fields = []
    while data.left():
        key = data.varint()
        if key % 8 == 0:
            fields.append((key // 8, data.varint()))
        elif key % 8 == 2:
            fields.append((key // 8, data.take(data.varint())))
        else:
            raise Unreadable("a field of another kind")
    return fields


def one(fields, number, default=None):
    values = [value for key, value in fields if key == number]
    return values[0] if values else default


def image_sections(data):
    if data[:8] != b"HDFSIMG1" or len(data) < 13:
        raise Unreadable("no image")
    size = int.from_bytes(data[-4:], "big")
    summary = Bytes(data[len(data) - 4 - size : len(data) - 4]).message()
    if one(summary, 1) != 1 or one(summary, 2) != -LAYOUT or one(summary, 3) is not None:
        raise Unreadable("an image of another kind")
    sections = {}
    for key, value in summary:
        if key == 4:
            section = fields_of(value)
            start = one(section, 3)
            sections[one(section, 1)] = Bytes(data[start : start + one(section, 2)])
    return sections


def read_image(data):
    """An image's namespace, the id that it holds and its namespaceID."""
    sections = image_sections(data)
    info = sections[b"NS_INFO"].message()
    strings = sections[b"STRING_TABLE"]
    names = {}
    for _ in range(one(strings.message(), 1)):
        entry = strings.message()
        names[one(entry, 1)] = one(entry, 2)
    inodes = sections[b"INODE"]
    head = inodes.message()
    nodes = dict(read_inode(inodes.message(), names) for _ in range(one(head, 2)))
    children = {}
    while sections[b"INODE_DIR"].left():
        entry = sections[b"INODE_DIR"].message()
        ids = Bytes(one(entry, 2))
        while ids.left():
            children.setdefault(one(entry, 1), []).append(ids.varint())
    namespace = Namespace()
    namespace.nodes = {}
    waiting = [((), 16385)]
    while waiting:
        path, inode = waiting.pop()
        namespace.nodes[path] = nodes[inode][1]
        waiting += [(path + (nodes[child][0],), child) for child in children.get(inode, [])]
    if len(namespace.nodes) != len(nodes):
        raise Unreadable("a node without a place")
    namespace.counters = (one(head, 1), one(info, 5), one(info, 3))
    return namespace, one(info, 6), one(info, 1)


def read_inode(inode, names):
    number, name = one(inode, 2), one(inode, 3)
    if one(inode, 1) == 2:
        it = fields_of(one(inode, 5))
        node = directory(number, names[one(it, 4)], names[one(it, 5)], one(it, 6), one(it, 1))
        node["quotas"] = (one(it, 2), one(it, 3))
    else:
        it = fields_of(one(inode, 4))
        node = plain_file(number, names[one(it, 3)], names[one(it, 4)], one(it, 5), one(it, 2), one(it, 1))
        node["open"] = one(it, 7) == 1
        for key, value in it:
            if key == 6:
                block = fields_of(value)
                node["blocks"].append((one(block, 1), one(block, 2), one(block, 3)))
    return number, (name, node)


def intact_image(folder, number, namespace_id):
    """The image of this id, or None where it isn't intact."""
    name = f"fsimage_{number:019}"
    data = contents(folder, name)
    digest = contents(folder, name + ".md5")
    if digest != f"{hashlib.md5(data).hexdigest()} *{name}\n".encode():
        return None
    try:
        namespace, last, owner = read_image(data)
    except (Unreadable, KeyError, TypeError):
        return None
    return namespace if last == number and owner == namespace_id else None


# Segments.

LONGEST = 65536


def records_of(data, first, last=None):
    """The records of a segment from its first id on, up to the first that isn't whole or hasn't the next id, each with the
    place where it ends."""
    if data[:8] != struct.pack(">iI", LAYOUT, 0):
        return
    at, number = 8, first
    while last is None or number <= last:
        if len(data) - at < 17:
            return
        opcode, length, found = struct.unpack(">BIQ", data[at : at + 13])
        end = at + 1 + length + 4
        if length < 12 or end - at > LONGEST or end > len(data) or found != number:
            return
        if zlib.crc32(data[at : end - 4]) != int.from_bytes(data[end - 4 : end], "big"):
            return
        yield number, opcode, Bytes(data[at + 13 : end - 4]), end
        at, number = end, number + 1


def segments_of(folder):
    """The segments of a folder in byte order of their names: first id, last id or None, name."""
    for name in sorted(os.listdir(folder)):
        first = numbered(name, "edits_inprogress_")
        if first is not None:
            yield first, None, name
        elif name.startswith("edits_") and len(name) == 6 + 19 + 1 + 19:
            first, last = numbered(name[:25], "edits_"), numbered(name[25:], "-")
            if first is not None and last is not None:
                yield first, last, name


def replay(namespace, opcode, body):
    """Does a record again."""
    nodes = namespace.nodes

    def path():
        return path_of(body.take(body.number(2)))

    def label():
        return body.take(body.number(1))

    if opcode in (0, 3):
        inode = body.number(8)
        place = path()
        replication = body.number(2) if opcode == 0 else None
        time, owner, group, mode = body.number(8), label(), label(), body.number(2)
        if place in nodes or place[:-1] not in nodes:
            raise Unreadable("a record that doesn't fit")
        if opcode == 0:
            nodes[place] = plain_file(inode, owner, group, mode, time, replication)
        else:
            nodes[place] = directory(inode, owner, group, mode, time)
        nodes[place[:-1]]["time"] = time
        namespace.count(inode=inode)
    elif opcode == 1:
        source, target, time = path(), path(), body.number(8)
        move(namespace, source, target, time)
    elif opcode == 2:
        place, time = path(), body.number(8)
        remove(namespace, place, time)
    elif opcode == 4:
        place = path()
        nodes[place]["replication"] = body.number(2)
    elif opcode == 7:
        place = path()
        nodes[place]["mode"] = body.number(2)
    elif opcode == 8:
        place = path()
        nodes[place].update(owner=label(), group=label())
    elif opcode == 9:
        place = path()
        nodes[place].update(open=False, time=body.number(8))
    elif opcode == 14:
        place = path()
        nodes[place]["quotas"] = tuple(None if quota == 2**64 - 1 else quota for quota in (body.number(8), body.number(8)))
    elif opcode == 33:
        place = path()
        block = (body.number(8), body.number(8), body.number(8))
        nodes[place]["blocks"].append(block)
        namespace.count(block=block[0], stamp=block[1])
    elif opcode not in (23, 24):
        raise Unreadable(f"opcode {opcode}")
    if body.left():
        raise Unreadable("a record with more behind it")


def move(namespace, source, target, time):
    nodes = namespace.nodes
    moved = {path: node for path, node in nodes.items() if path[: len(source)] == source}
    for path in moved:
        del nodes[path]
    for path, node in moved.items():
        nodes[target + path[len(source) :]] = node
    nodes[source[:-1]]["time"] = time
    nodes[target[:-1]]["time"] = time


def remove(namespace, place, time):
    for path in [path for path in namespace.nodes if path[: len(place)] == place]:
        del namespace.nodes[path]
    namespace.nodes[place[:-1]]["time"] = time


# Directories.


def serving(directory_path):
    """The folder that serves as current, or None where the directory isn't formatted."""
    there = lambda name: os.path.exists(os.path.join(directory_path, name))
    current, previous = there("current/VERSION"), there("previous")
    temporary = [name for name in TEMPORARY if there(name)]
    # Where more than one temporary folder is there, none of these rows has them.
    inconsistent = {
        (): previous and not current,
        ("previous.tmp",): previous,
        ("removed.tmp",): previous == current,
        ("finalized.tmp",): previous,
        ("lastcheckpoint.tmp",): False,
    }
    if inconsistent.get(tuple(temporary), True):
        raise Unreadable(f"{directory_path}: inconsistent")
    if current:
        return os.path.join(directory_path, "current")
    if not temporary or temporary == ["finalized.tmp"]:
        return None
    return os.path.join(directory_path, temporary[0])


class Chain:
    """The newest intact image of a folder with the records behind it, done again up to the first that is missing."""

    def __init__(self, folder):
        self.folder = folder
        self.version = version_of(folder)
        images = sorted(filter(lambda n: n is not None, (numbered(name, "fsimage_") for name in os.listdir(folder))))
        self.namespace = None
        while images and self.namespace is None:
            self.last = images.pop()
            self.namespace = intact_image(folder, self.last, self.version["namespaceID"])
        if self.namespace is None:
            raise Unreadable(f"{folder}: no intact image")
        self.image = self.last
        # Of the segment that each replayed record came from: its name, and the place where the record ends.
        self.ends = {}
        waiting = [segment for segment in segments_of(folder) if segment[1] is None or segment[1] > self.image]
        found = {}
        for first, last, name in waiting:
            for number, opcode, body, end in records_of(contents(folder, name), first, last):
                found.setdefault(number, (opcode, body, name, end))
        while self.last + 1 in found:
            opcode, body, name, end = found[self.last + 1]
            replay(self.namespace, opcode, body)
            self.last += 1
            self.ends[self.last] = (name, end)

    def rank(self):
        return self.version["cTime"], self.last


def opened(directories):
    """The chain of greatest rank of these directories, as a start over them chooses it."""
    folders = [folder for folder in map(serving, directories) if folder is not None]
    if not folders:
        raise Unreadable("not formatted")
    chains = [Chain(folder) for folder in folders]
    for chain in chains[1:]:
        for key in ("namespaceID", "clusterID", "blockpoolID"):
            if chain.version[key] != chains[0].version[key]:
                raise Unreadable(f"{key} of {chain.folder} differs")
    best = max(chains, key=Chain.rank)
    newest = max(chain.version["cTime"] for chain in chains)
    seen = max(seen_of(chain.folder) for chain in chains if chain.version["cTime"] == newest)
    if best.last + 1 < seen:
        raise Unreadable(f"a gap: {seen} was seen and {best.last} is the last id")
    return best


def main(directories):
    if not directories:
        print(__doc__.strip(), file=sys.stderr)
        return 1
    try:
        for number, path in enumerate(directories):
            folder = serving(path)
            if folder is None:
                print(f"{number} not formatted")
                continue
            chain = Chain(folder)
            print(f"{number} image {chain.image}, records up to {chain.last}, seen {seen_of(folder)}")
        chain = opened(directories)
        print(f"opens at {chain.last}")
        for line in chain.namespace.lines():
            print(line)
    except Unreadable as why:
        print(f"doesn't open: {why}")
        return 2
    return 0


if __name__ == "__main__":
    sys.exit(main(sys.argv[1:]))
