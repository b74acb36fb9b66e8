"""Changes of a volume: bytes, fields, keys, pointers and whole entries of its blocks, most of them sealed again with a right checksum."""
from format import HEADER, ITEM, entries, item_body, number, sealed

ODD = (0, 1, 2, 3, 4, 5, 6, 7, 16, 255, 256, 257, 4095, 4096, 65535, 65536, 1 << 20, (1 << 31) - 1, 1 << 31, (1 << 32) - 1, 1 << 32,
       1 << 60, (1 << 63) - 1, 1 << 63, (1 << 64) - 4096, (1 << 64) - 256, (1 << 64) - 9, (1 << 64) - 8, (1 << 64) - 2, (1 << 64) - 1)
TYPES = (0, 1, 12, 13, 24, 48, 84, 96, 108, 128, 132, 144, 156, 168, 169, 176, 178, 182, 184, 192, 204, 216, 228, 240, 255)

# Numbers of a superblock, by their places and sizes, from the generation to the device's bytes.
NUMBERS = ((72, 8), (80, 8), (88, 8), (96, 8), (112, 8), (120, 8), (136, 8), (144, 4), (148, 4), (160, 4), (164, 8), (172, 8), (180, 8), (188, 8), (196, 2),
           (198, 1), (199, 1), (201, 8), (209, 8))


class Changes:
    """A random change of a volume, by the dice."""

    def __init__(self, volume, dice):
        self.volume, self.dice, self.said = volume, dice, []

    def put(self, block, at, size, value):
        block[at:at + size] = (value & (1 << 8 * size) - 1).to_bytes(size, "little")

    def value(self, old):
        """Another value for a number."""
        dice = self.dice
        return dice.choice((
            lambda: dice.choice(ODD),
            lambda: dice.choice(ODD),
            lambda: old + dice.choice((-4096, -1, 1, 4096, 65536)),
            lambda: old ^ 1 << dice.randrange(64),
            lambda: dice.getrandbits(dice.choice((8, 16, 32, 64))),
            lambda: dice.choice(list(self.volume.live)),
            lambda: dice.choice(self.volume.trees),
        ))()

    def field(self, block, first, end):
        """Changes a number between two places."""
        size = min(self.dice.choice((1, 2, 4, 8, 8)), end - first)
        if size > 0:
            at = self.dice.randrange(first, end - size + 1)
            if self.dice.random() < 0.7:
                at = first + (at - first) // size * size
            self.put(block, at, size, self.value(number(block, at, size)))

    def key(self, block, entry):
        part = self.dice.randrange(3)
        if part == 1:
            block[entry + 8] = self.dice.choice(TYPES)
        else:
            at = entry + (0, 0, 9)[part]
            self.put(block, at, 8, self.value(number(block, at)))

    def item(self, block, entry):
        at, size = item_body(block, entry)
        way = self.dice.randrange(8)
        if way == 0:
            self.key(block, entry)
        elif way == 1:
            self.field(block, entry + 17, entry + ITEM)
        elif size and at + size <= len(block):
            self.field(block, at, at + size)

    def pointer(self, block, entry):
        way = self.dice.randrange(5)
        if way == 0:
            self.key(block, entry)
        elif way == 1:
            self.put(block, entry + 25, 8, self.value(number(block, entry + 25)))
        elif way == 2:
            self.put(block, entry + 17, 8, self.value(number(block, entry + 17)))
        else:
            address = self.dice.choice(list(self.volume.live))
            other = self.volume.live[address][0]
            self.put(block, entry + 17, 8, address)
            self.put(block, entry + 25, 8, number(other, 80))
            if way == 4:
                first = entries(other)[0]
                if first:
                    block[entry:entry + 17] = other[first[0]:first[0] + 17]

    def order(self, block, all_entries, size):
        """Swaps, repeats or takes out an entry."""
        one, other = self.dice.choice(all_entries), self.dice.choice(all_entries)
        way = self.dice.randrange(3)
        if way == 0:
            block[one:one + size], block[other:other + size] = block[other:other + size], block[one:one + size]
        elif way == 1:
            block[one:one + size] = block[other:other + size]
        else:
            end = all_entries[-1] + size
            block[one:end - size] = block[one + size:end]
            self.put(block, 96, 4, len(all_entries) - 1)

    def header(self, block):
        at, size = self.dice.choice(((48, 8), (56, 8), (80, 8), (88, 8), (96, 4), (100, 1), (32, 8)))
        self.put(block, at, size, self.value(number(block, at, size)))

    def tree_block(self, block):
        all_entries, size = entries(block)
        way = self.dice.random()
        if way < 0.1:
            self.header(block)
        elif way < 0.2:
            self.field(block, 32, len(block))
        elif way < 0.3 and all_entries:
            self.order(block, all_entries, size)
        elif all_entries:
            (self.pointer if block[100] else self.item)(block, self.dice.choice(all_entries))
        else:
            self.field(block, HEADER, len(block))

    def superblock(self, laid):
        """Changes a number of the superblocks, of one alone or of all alike."""
        places = self.volume.supers if self.dice.random() < 0.7 else [self.dice.choice(self.volume.supers)]
        in_array = (811 + self.dice.randrange(200), self.dice.choice((1, 8)))
        anywhere = (self.dice.randrange(32, 4088), self.dice.choice((1, 2, 4, 8)))
        at, size = self.dice.choice((*NUMBERS, in_array, in_array, anywhere))
        value = self.value(number(self.volume.images[0][65536], at, size))
        for slot, offset in places:
            block = bytearray(self.volume.images[slot][offset])
            self.put(block, at, size, value)
            laid.write(slot, offset, sealed(bytes(block), self.volume.super.sums))
        self.said.append(f"superblocks {places}: {size} bytes at {at} are {value}")

    def spoil(self, laid):
        """Random bytes over some of a page of data, or of one copy of a tree block."""
        dice = self.dice
        if self.volume.data and dice.random() < 0.5:
            slot, offset = dice.choice(self.volume.data)
        else:
            slot, offset = dice.choice(dice.choice(list(self.volume.live.values()))[1])
        page = bytearray(self.volume.images[slot][offset])
        at = dice.randrange(len(page))
        page[at:at + dice.choice((1, 8, 4096))] = dice.randbytes(8)
        laid.write(slot, offset, bytes(page[:4096]).ljust(4096, b"\0"))
        self.said.append(f"image {slot}: random bytes at {offset} + {at}")

    def changed_block(self, laid):
        address = self.dice.choice(list(self.volume.live))
        old, places = self.volume.live[address]
        block = bytearray(old)
        for _ in range(self.dice.choice((1, 1, 1, 2, 5))):
            self.tree_block(block)
        whole = sealed(bytes(block[:len(old)]), self.volume.super.sums)
        if self.dice.random() < 0.25:
            places = [self.dice.choice(places)]
        for slot, offset in places:
            laid.write(slot, offset, whole)
        self.said.append(f"block {address} of tree {number(old, 88)}, copies {places}")

    def make(self, laid):
        for _ in range(self.dice.choice((1, 1, 1, 2, 3, 8))):
            way = self.dice.random()
            if way < 0.08:
                self.superblock(laid)
            elif way < 0.2:
                self.spoil(laid)
            else:
                self.changed_block(laid)
