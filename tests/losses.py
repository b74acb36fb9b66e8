#!/usr/bin/env python3
"""Works out what `restore -i` comes to where blocks of a small volume are lost, each alone and each two of them, from the images alone:

    tests/losses.py PROGRAM NAME        (PROGRAM is btr_test_volumes; NAME is V1d, S, Raid5 or Rows6)

It prints what `crates/btr_salvage_tests/src/losses.rt` has of the volume: for each block the bytes that are made wrong, so that no copy and no
parity gives it, and the CRC-32C of all cases in their order. With LINES=1 each case is printed too. A case is a block alone or two of them, by
their places in the list; it is `closed` where the volume doesn't open, the address of the block in eight bytes where a root is lost, or the text, and then the
CRC-32C of the rows in four bytes. The lowest byte is the first.
"""
import os, struct, subprocess, sys, tempfile

ELEMENT, SECTOR = 65536, 4096
INODE_ITEM, INODE_REF, INODE_EXTREF, DIR_INDEX, EXTENT_DATA, EXTENT_CSUM, ROOT_ITEM = 1, 12, 13, 96, 108, 128, 132
LAST = 2 ** 64 - 1
TABLE = [0] * 256
for n in range(256):
    c = n
    for _ in range(8):
        c = (c >> 1) ^ (0x82F63B78 if c & 1 else 0)
    TABLE[n] = c


def crc(data, register=0xFFFFFFFF):
    for byte in data:
        register = TABLE[(register ^ byte) & 255] ^ (register >> 8)
    return register ^ 0xFFFFFFFF


class Lost(Exception):
    """A block that is wanted and lost, by its address."""


class Volume:
    def __init__(self, images):
        self.images, self.lost, self.whole = images, set(), {}
        top = images[0][65536:65536 + 4096]
        self.root, self.chunk_root = struct.unpack_from("<QQ", top, 80)
        self.node = struct.unpack_from("<I", top, 148)[0]
        size = struct.unpack_from("<I", top, 160)[0]
        self.root_level, self.chunk_level = top[198], top[199]
        self.chunks = []
        at, array = 0, top[811:811 + size]
        while at < size:
            start = struct.unpack_from("<Q", array, at + 9)[0]
            at += 17 + self.add_chunk(start, array[at + 17:])
        for key, body, leaf in self.items(self.chunk_root, (0, 0, 0), (LAST, 255, LAST)):
            if key[1] == 228 and key[2] not in [chunk[0] for chunk in self.chunks]:
                self.add_chunk(key[2], body)

    def add_chunk(self, start, body):
        length, _, _, kind = struct.unpack_from("<QQQQ", body)
        count = struct.unpack_from("<H", body, 44)[0]
        stripes = [struct.unpack_from("<QQ", body, 48 + 32 * n) for n in range(count)]
        self.chunks.append((start, length, kind, [(devid - 1, place) for devid, place in stripes]))
        return 48 + 32 * count

    def places(self, address):
        """Returns (image, place) of the copies of an address, and the parities of its column behind them."""
        start, _, kind, stripes = next(chunk for chunk in self.chunks if chunk[0] <= address < chunk[0] + chunk[1])
        parities = 1 if kind & 0x80 else 2 if kind & 0x100 else 0
        if not parities:
            return [(image, place + address - start) for image, place in stripes]
        data = len(stripes) - parities
        element, inside = divmod(address - start, ELEMENT)
        row, slice_ = divmod(element, data)
        turned = [(row + n) % len(stripes) for n in [slice_] + list(range(data, len(stripes)))]
        return [(stripes[n][0], stripes[n][1] + row * ELEMENT + inside) for n in turned]

    def block(self, address, size):
        if address in self.lost:
            raise Lost(address)
        if address not in self.whole:
            image, place = self.places(address)[0]
            self.whole[address] = self.images[image][place:place + size]
        return self.whole[address]

    def entries(self, address):
        """Returns the level of a node, and its items or pointers."""
        node = self.block(address, self.node)
        count, level = struct.unpack_from("<IB", node, 96)
        found = []
        for n in range(count):
            at = 101 + n * (33 if level else 25)
            key = struct.unpack_from("<QBQ", node, at)
            if level:
                found.append((key, struct.unpack_from("<Q", node, at + 17)[0]))
            else:
                offset, size = struct.unpack_from("<II", node, at + 17)
                found.append((key, node[101 + offset:101 + offset + size]))
        return level, found

    def items(self, address, low, high, faults=None, end=None):
        """Yields the items of a tree from one key to another. A block that is lost is raised, or yielded as its address alone if faults is set."""
        try:
            level, found = self.entries(address)
        except Lost as lost:
            if not faults:
                raise
            yield None, None, lost.args[0]
            return
        for n, (key, value) in enumerate(found):
            if not level:
                if low <= key <= high:
                    yield key, value, address
                continue
            up = found[n + 1][0] if n + 1 < len(found) else end
            if key <= high and (up is None or low < up):
                yield from self.items(value, low, high, faults, up)

    def last_at(self, address, wanted):
        """Returns the item at or below a key."""
        level, found = self.entries(address)
        below = [it for it in found if it[0] <= wanted]
        if not below:
            return None
        return self.last_at(below[-1][1], wanted) if level else below[-1]

    def tree(self, wanted):
        found = self.last_at(self.root, (wanted, ROOT_ITEM, LAST))
        return struct.unpack_from("<Q", found[1], 176)[0], found[0][2]


class Salvage:
    def __init__(self, volume):
        self.volume, self.text, self.rows = volume, b"", b""
        self.dirs = self.files = self.skipped = self.broken = 0

    def line(self, words, path):
        self.text += words.encode() + b" " + path + b"\n"

    def miss(self, word, address, path):
        self.line(f"{word} lost {address}", path or b"/")
        self.broken += 1

    def sum_of(self, address):
        key, body = self.volume.last_at(self.sums, (LAST - 9, EXTENT_CSUM, address))
        assert key[2] <= address < key[2] + len(body) // 4 * SECTOR

    def content(self, tree, inode, size):
        data = b""
        for key, body, _ in self.volume.items(tree, (inode, EXTENT_DATA, 0), (inode, EXTENT_DATA, LAST)):
            data += bytes(key[2] - len(data))
            if body[20] == 0:
                data += body[21:]
                continue
            address, _, skip, length = struct.unpack_from("<QQQQ", body, 21)
            for sector in range(address + skip, address + skip + min(length, -(-(size - key[2]) // SECTOR) * SECTOR), SECTOR):
                self.sum_of(sector)
                data += self.volume.block(sector, SECTOR)
        return data[:size] + bytes(max(0, size - len(data)))

    def file(self, tree, inode, name, path):
        try:
            items = list(self.volume.items(tree, (inode, INODE_ITEM, 0), (inode, INODE_ITEM, 0)))
            size = struct.unpack_from("<Q", items[0][1], 16)[0]
            list(self.volume.items(tree, (inode, EXTENT_DATA, 0), (inode, EXTENT_DATA, LAST)))
            data = self.content(tree, inode, size)
        except Lost as lost:
            return self.miss("broken", lost.args[0], path)
        self.rows += name + b" " + data + b"\n"
        self.files += 1

    def folder(self, tree, inode, path):
        for key, body, leaf in self.volume.items(tree, (inode, DIR_INDEX, 0), (inode, DIR_INDEX, LAST), faults=True):
            if key is None:
                self.miss("part", leaf, path)
                continue
            target, kind, _ = struct.unpack_from("<QBQ", body)
            size = struct.unpack_from("<H", body, 27)[0]
            name, type_ = body[30:30 + size], body[29]
            below = path + b"/" + name
            if type_ == 1:
                self.file(tree, target, name, below)
            elif kind == ROOT_ITEM:
                root, offset = self.volume.tree(target)
                if offset:
                    self.line("skip snapshot", below)
                    self.skipped += 1
                else:
                    self.enter(root, 256, name, below)
            else:
                raise NotImplementedError

    def enter(self, tree, inode, name, path):
        self.rows += name + b"\n"
        self.dirs += 1
        self.folder(tree, inode, path)
        self.rows += b"..\n"

    def run(self):
        tree, self.sums = self.volume.tree(5)[0], self.volume.tree(7)[0]
        self.rows += b"out\n"
        self.folder(tree, 256, b"")
        self.text += f"directories {self.dirs} files {self.files} skipped {self.skipped} broken {self.broken}\n".encode()


def case(volume, opening, lost):
    volume.lost = set(lost)
    if volume.lost & opening:
        return b"closed\n"
    salvage = Salvage(volume)
    try:
        salvage.run()
        told = salvage.text
    except Lost as lost:
        told = struct.pack("<Q", lost.args[0])
    return told + struct.pack("<I", crc(salvage.rows))


def tree_blocks(volume, address):
    level, found = volume.entries(address)
    return [address] + [block for _, child in found if level for block in tree_blocks(volume, child)]


def blocks(volume):
    """Returns the blocks of all trees and one sector of each extent, that in its middle, and those without which the volume doesn't open."""
    opening = tree_blocks(volume, volume.chunk_root)
    roots = [struct.unpack_from("<Q", body, 176)[0] for key, body, _ in volume.items(volume.root, (0, 0, 0), (LAST, 255, LAST)) if key[1] == ROOT_ITEM]
    others = [block for root in [volume.root] + roots for block in tree_blocks(volume, root)]
    sectors = []
    for key, body, _ in volume.items(volume.tree(5)[0], (0, 0, 0), (LAST, 255, LAST)):
        if key[1] == EXTENT_DATA and body[20] == 1:
            address, length = struct.unpack_from("<QQ", body, 21)
            sectors.append(address + length // SECTOR // 2 * SECTOR)
    return opening + others + sectors, set(opening)


def main(program, name):
    with tempfile.TemporaryDirectory() as room:
        subprocess.run([program, name, room], check=True)
        names = sorted(os.listdir(room))
        volume = Volume([open(f"{room}/{it}", "rb").read() for it in names])
    found, opening = blocks(volume)
    print(f"// {name}: {len(found)} blocks, images {' '.join(names)}")
    for n, address in enumerate(found):
        places = [(names[image], place + 200 + 8 * n, (255, 1, 85)[k]) for k, (image, place) in enumerate(volume.places(address))]
        print(f"    &[{', '.join(f'wrong({image!r}, {at}, {change})' for image, at, change in places)}],".replace("'", '"'))
    cases = [(n,) for n in range(len(found))] + [(m, n) for n in range(len(found)) for m in range(n)]
    told = b""
    for lost in cases:
        came = case(volume, opening, [found[n] for n in lost])
        if os.environ.get("LINES"):
            print("//", *lost, came.decode("latin-1"))
        told += came
    print(f"{len(cases)} cases, {crc(told)}")


if __name__ == "__main__":
    if len(sys.argv) != 3:
        sys.exit(__doc__)
    main(*sys.argv[1:])
