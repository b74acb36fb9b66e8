"""The parts of the on-disk format that the changes need: checksums, superblocks, tree blocks, and which blocks the trees have."""
import hashlib, struct

PAGE = 4096
SUPERS = (65536, 67108864)
MAGIC = b"_BHRfS_M"
HEADER, ITEM, POINTER = 101, 25, 33
ROOT_ITEM, EXTENT_DATA = 132, 108


def _table():
    table = []
    for n in range(256):
        for _ in range(8):
            n = n >> 1 ^ 0x82F63B78 if n & 1 else n >> 1
        table.append(n)
    return table


TABLE = _table()


def crc32c(data, table=TABLE):
    crc = 0xFFFFFFFF
    for byte in data:
        crc = table[(crc ^ byte) & 255] ^ crc >> 8
    return struct.pack("<I", crc ^ 0xFFFFFFFF)


P1, P2, P3, P4, P5 = 11400714785074694791, 14029467366897019727, 1609587929392839161, 9650029242287828579, 2870177450012600261
WORD = (1 << 64) - 1


def _turn(x, n):
    return (x << n | x >> 64 - n) & WORD


def _round(a, x):
    return _turn(a + x * P2 & WORD, 31) * P1 & WORD


def xxh64(data):
    """XXH64 with the seed 0, of a length that is a multiple of 8: the blocks here are."""
    lanes = [P1 + P2 & WORD, P2, 0, -P1 & WORD]
    whole = len(data) // 32 * 32
    for four in struct.iter_unpack("<4Q", data[:whole]):
        lanes = [_round(a, x) for a, x in zip(lanes, four)]
    h = sum(_turn(a, n) for a, n in zip(lanes, (1, 7, 12, 18))) & WORD
    for a in lanes:
        h = ((h ^ _round(0, a)) * P1 + P4) & WORD
    h = h + len(data) & WORD
    for (x,) in struct.iter_unpack("<Q", data[whole:]):
        h = (_turn(h ^ _round(0, x), 27) * P1 + P4) & WORD
    h = (h ^ h >> 33) * P2 & WORD
    h = (h ^ h >> 29) * P3 & WORD
    return struct.pack("<Q", h ^ h >> 32)


SUMS = {0: crc32c, 1: xxh64, 2: lambda data: hashlib.sha256(data).digest()}


def sealed(block, kind):
    """The block with the checksum that it should have."""
    return (SUMS[kind](block[32:]) + bytes(32))[:32] + block[32:]


def number(block, at, size=8):
    return int.from_bytes(block[at:at + size], "little")


def entries(block):
    """Where the entries of a tree block stand, and how long each is."""
    size = POINTER if block[100] else ITEM
    count = min(number(block, 96, 4), (len(block) - HEADER) // size)
    return [HEADER + size * i for i in range(count)], size


def item_body(block, entry):
    """Where the body of a leaf's item stands, and how long it is."""
    return HEADER + number(block, entry + 17, 4), number(block, entry + 21, 4)


class Super:
    """What is needed of a superblock."""

    def __init__(self, block):
        self.fsid, self.generation, self.nodesize, self.sums = block[32:48], number(block, 72), number(block, 148, 4), number(block, 196, 2)
        self.header_id = block[571:587] if number(block, 188) & 0x400 else self.fsid
        self.roots = [(number(block, 80), self.generation), (number(block, 88), number(block, 164))]


def places_of(images, sup):
    """The places (image, offset) of each tree block that passes its checksum, by its address and generation."""
    found = {}
    for slot, pages in enumerate(images):
        for offset, page in pages.items():
            if page[32:48] == sup.header_id and offset not in SUPERS:
                block = b"".join(pages.get(offset + n, bytes(PAGE)) for n in range(0, sup.nodesize, PAGE))
                if sealed(block, sup.sums) == block:
                    found.setdefault((number(block, 48), number(block, 80)), []).append((slot, offset, block))
    return found


def live_blocks(images, sup):
    """The blocks that the trees have: by the address, what is there and its places."""
    found, live, left = places_of(images, sup), {}, list(sup.roots)
    while left:
        address, generation = left.pop()
        if address in live or (address, generation) not in found:
            continue
        copies = found[address, generation]
        block = copies[0][2]
        live[address] = (block, [(slot, offset) for slot, offset, _ in copies])
        for entry in entries(block)[0]:
            if block[100]:
                left.append((number(block, entry + 17), number(block, entry + 25)))
            elif block[entry + 8] == ROOT_ITEM:
                at, size = item_body(block, entry)
                if size >= 239:
                    left.append((number(block, at + 176), number(block, at + 160)))
    return live
