#!/usr/bin/env python3
"""Damages blocks that snapshots share, and holds `check` to what has to be found in each tree that reaches them.

    python3 tests/shared.py PROGRAM

It makes a filesystem by a mount, of a subvolume with files and three snapshots, between which files change, and two more that are the same as it; so some
blocks are reached by one tree and some by up to six. Then, in the first, a middle and the last leaf of each of these, it changes a number and makes the
block's checksum right again: a finding that names a tree has to come once for each tree that reaches the leaf, and one that names a block once. It needs root,
loop devices, btrfs-progs, and half a minute. The gate doesn't run it. Ends with 0 where all is found.
"""
import collections
import os
import shutil
import struct
import subprocess
import sys
import tempfile

NODE = 16384
FIRST_ITEM = 101
INODE_ITEM, INODE_REF, EXTENT_DATA, ROOT_ITEM, CHUNK_ITEM = 1, 12, 108, 132, 228
Item = collections.namedtuple("Item", "key at size")

TABLE = []
for number in range(256):
    for _ in range(8):
        number = (number >> 1) ^ 0x82F63B78 if number & 1 else number >> 1
    TABLE.append(number)


def crc32c(content):
    register = 0xFFFFFFFF
    for byte in content:
        register = TABLE[(register ^ byte) & 255] ^ (register >> 8)
    return register ^ 0xFFFFFFFF


class Image:
    """The blocks of an image of one device, by their logical addresses."""

    def __init__(self, path):
        self.file = open(path, "r+b")
        top = self.read(65536, 4096)
        self.root, self.chunk_root = struct.unpack_from("<QQ", top, 0x50)
        size = struct.unpack_from("<I", top, 0xA0)[0]
        self.chunks, at = [], 0x32B
        while at < 0x32B + size:
            start = struct.unpack_from("<QBQ", top, at)[2]
            self.add_chunk(start, top[at + 17:])
            at += 17 + 48 + 32 * struct.unpack_from("<H", top, at + 17 + 44)[0]
        for address in self.blocks(self.chunk_root):
            block = self.block(address)
            for item in items(block):
                if item.key[1] == CHUNK_ITEM:
                    self.add_chunk(item.key[2], block[item.at:])

    def add_chunk(self, start, body):
        count = struct.unpack_from("<H", body, 44)[0]
        places = [struct.unpack_from("<Q", body, 48 + 32 * i + 8)[0] for i in range(count)]
        self.chunks.append((start, struct.unpack_from("<Q", body)[0], places))

    def read(self, at, size):
        self.file.seek(at)
        return self.file.read(size)

    def places(self, address):
        for start, length, places in self.chunks:
            if start <= address < start + length:
                return [place + address - start for place in places]
        raise KeyError(address)

    def block(self, address):
        return self.read(self.places(address)[0], NODE)

    def put(self, address, block, sealed):
        """Writes each copy of a block, with its checksum made right, or a wrong one."""
        block[:32] = struct.pack("<I", crc32c(block[32:]) ^ (not sealed)) + bytes(28)
        for place in self.places(address):
            self.file.seek(place)
            self.file.write(block)
        self.file.flush()

    def blocks(self, address):
        """Yields the addresses of a tree's blocks."""
        yield address
        block = self.block(address)
        if block[100]:
            for i in range(struct.unpack_from("<I", block, 96)[0]):
                yield from self.blocks(struct.unpack_from("<Q", block, FIRST_ITEM + 33 * i + 17)[0])


def items(block):
    if block[100]:
        return []
    found = []
    for i in range(struct.unpack_from("<I", block, 96)[0]):
        at, size = struct.unpack_from("<II", block, FIRST_ITEM + 25 * i + 17)
        found.append(Item(struct.unpack_from("<QBQ", block, FIRST_ITEM + 25 * i), FIRST_ITEM + at, size))
    return found


def run_quietly(*words):
    subprocess.run(words, check=True, stdout=subprocess.DEVNULL, stderr=subprocess.DEVNULL)


def write_files(folder, first, count):
    for i in range(first, first + count):
        os.makedirs(f"{folder}/d{i // 50:03}", exist_ok=True)
        with open(f"{folder}/d{i // 50:03}/file{i:05}", "wb") as file:
            file.write(os.urandom(i * 37 % 6000))


def make(path, mounted):
    with open(path, "wb") as file:
        file.truncate(512 << 20)
    run_quietly("mkfs.btrfs", path)
    run_quietly("mount", "-o", "loop", path, mounted)
    try:
        run_quietly("btrfs", "subvolume", "create", f"{mounted}/files")
        write_files(f"{mounted}/files", 0, 3000)
        for i, first in enumerate((100, 1500, 2900)):
            run_quietly("btrfs", "subvolume", "snapshot", f"{mounted}/files", f"{mounted}/snapshot{i}")
            write_files(f"{mounted}/files", first, 60)
        for i in range(2):
            run_quietly("btrfs", "subvolume", "snapshot", f"{mounted}/files", f"{mounted}/same{i}")
    finally:
        run_quietly("umount", mounted)


def file_trees(image):
    """Returns the root block of each tree of files, by its id."""
    roots = {}
    for address in image.blocks(image.root):
        block = image.block(address)
        for item in items(block):
            if item.key[1] == ROOT_ITEM and (item.key[0] == 5 or 256 <= item.key[0] < 2**63):
                roots[item.key[0]] = struct.unpack_from("<Q", block, item.at + 176)[0]
    return roots


def first_item(block, kind, fits):
    return next((item for item in items(block) if item.key[1] == kind and fits(item)), None)


def damages(address, block, trees):
    """Yields what to write for a leaf, whether with a right checksum, and the lines that have to come."""
    is_file = lambda item: struct.unpack_from("<I", block, item.at + 52)[0] & 0o170000 == 0o100000  # noqa: E731
    item = first_item(block, INODE_ITEM, is_file)
    if item:
        more = bytearray(block)
        struct.pack_into("<I", more, item.at + 40, 2)
        yield "links", more, True, {f"link-count {tree} {item.key[0]} 2 1" for tree in trees}
    item = first_item(block, INODE_ITEM, lambda item: not is_file(item) and item.key[0] > 256)
    if item:
        more, size = bytearray(block), struct.unpack_from("<Q", block, item.at + 16)[0]
        struct.pack_into("<Q", more, item.at + 16, size + 2)
        yield "size of a directory", more, True, {f"dir-size {tree} {item.key[0]} {size + 2} {size}" for tree in trees}
    item = first_item(block, EXTENT_DATA, lambda item: item.size == 53 and block[item.at + 20] == 1)
    if item:
        more = bytearray(block)
        start, length = struct.unpack_from("<QQ", block, item.at + 21)
        struct.pack_into("<Q", more, item.at + 29, length + 4096)
        yield "length of an extent", more, True, {f"extent-length {start} {length} {length + 4096}"}
    item = first_item(block, INODE_REF, lambda item: True)
    if item:
        more = bytearray(block)
        struct.pack_into("<H", more, item.at + 8, 0)
        yield "form of an item", more, True, {f"malformed {address}"}
    yield "checksum", bytearray(block), False, {f"lost {address}"}


def leaves_to_damage(image, roots):
    """Yields leaves, and the trees that reach each: of those that the same trees reach the first, a middle and the last one."""
    reached = collections.defaultdict(list)
    for tree, root in sorted(roots.items()):
        for address in image.blocks(root):
            reached[address].append(tree)
    groups = collections.defaultdict(list)
    for address, trees in reached.items():
        if image.block(address)[100] == 0 and address not in roots.values():
            groups[tuple(trees)].append(address)
    for trees, addresses in sorted(groups.items()):
        for address in sorted({addresses[0], addresses[len(addresses) // 2], addresses[-1]}):
            yield address, trees


def main():
    program = os.path.abspath(sys.argv[1])
    room = tempfile.mkdtemp()
    failed = tried = 0
    try:
        whole, path = f"{room}/whole", f"{room}/image"
        os.mkdir(f"{room}/mounted")
        make(whole, f"{room}/mounted")
        shutil.copyfile(whole, path)
        image = Image(path)
        for address, trees in leaves_to_damage(image, file_trees(image)):
            block = image.block(address)
            for name, more, sealed, wanted in damages(address, block, trees):
                image.put(address, more, sealed)
                told = subprocess.run([program, "check", path], capture_output=True, text=True).stdout.splitlines()
                image.put(address, bytearray(block), True)
                tried += 1
                if set(told[:-1]) != wanted or len(told) != len(wanted) + 1:
                    failed += 1
                    print(f"{name} of leaf {address}, of the trees {trees}: wanted {sorted(wanted)}, got {told[:8]}")
    finally:
        shutil.rmtree(room)
    print(f"{tried} tried, {failed} failed")
    return bool(failed)


if __name__ == "__main__":
    sys.exit(main())
