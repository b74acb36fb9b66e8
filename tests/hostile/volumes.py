"""Small filesystems, made by mkfs.btrfs and filled by the kernel."""
import os, subprocess
from format import MAGIC, PAGE, SUPERS, Super, live_blocks, number

# A name, how many devices, the options of mkfs.btrfs, those of the mount, and whether it has snapshots.
KINDS = (
    ("single", 1, "-m single -d single", "defaults", True),
    ("dup", 1, "-m dup -d dup", "defaults", True),
    ("old", 1, "-m dup -d single -O ^no-holes,^skinny-metadata -R ^free-space-tree", "space_cache=v1", True),
    ("mixed", 1, "-M", "defaults", False),
    ("zlib", 1, "-m dup -d single", "compress-force=zlib", True),
    ("no-sums", 2, "-m raid1 -d raid1", "nodatasum", True),
    ("raid0", 2, "-m raid0 -d raid0", "defaults", False),
    ("raid1", 2, "-m raid1 -d raid1", "defaults", True),
    ("raid1c3", 3, "-m raid1c3 -d raid1c3", "defaults", False),
    ("raid10", 4, "-m raid10 -d raid10", "defaults", False),
    ("raid5", 3, "-m raid5 -d raid5", "defaults", True),
    ("raid6", 4, "-m raid6 -d raid6", "defaults", False),
    ("xxhash", 2, "-m raid1 -d single --csum xxhash", "defaults", True),
    ("sha256", 3, "-m raid1 -d raid5 --csum sha256", "defaults", False),
    ("deep", 1, "-m single -d single", "defaults", False),
)
SIZE = 256 << 20


def ran(*words):
    subprocess.run([str(it) for it in words], check=True, stdout=subprocess.DEVNULL, stderr=subprocess.PIPE)


def write(path, data):
    with open(path, "wb") as it:
        it.write(data)


def fill(top, dice):
    """Files of many shapes below a folder."""
    os.makedirs(f"{top}/a/b/c/d")
    for n in range(60):
        write(f"{top}/a/file{n}", dice.randbytes(dice.choice((0, 1, 90, 1500, 4096, 9000))))
    for n in range(25):
        os.link(f"{top}/a/file{n % 3}", f"{top}/a/b/a link with a name that is long enough to fill its leaf soon {n}")
    write(f"{top}/a/b/random", dice.randbytes(150000))
    write(f"{top}/a/b/c/text", b"the same line again and again\n" * 4000)
    with open(f"{top}/a/b/c/holes", "wb") as it:
        for n in (3, 9, 40):
            it.seek(n * 8192)
            it.write(dice.randbytes(5000))
    with open(f"{top}/a/b/c/d/preallocated", "wb") as it:
        os.posix_fallocate(it.fileno(), 0, 65536)
        it.write(dice.randbytes(5000))
    os.symlink("../random", f"{top}/a/b/c/symbolic")
    os.mkfifo(f"{top}/a/b/c/fifo")
    subprocess.run(["cp", "--reflink=always", f"{top}/a/b/random", f"{top}/a/clone"], stderr=subprocess.DEVNULL)
    os.setxattr(f"{top}/a/b/random", "user.one", b"value" * 100)


def fill_all(name, top, has_snapshots, dice):
    fill(f"{top}/top", dice)
    if name == "deep":
        os.mkdir(f"{top}/many")
        for n in range(300):
            write(f"{top}/many/{n}", dice.randbytes(1800))
    if has_snapshots:
        ran("btrfs", "subvolume", "create", f"{top}/sub")
        fill(f"{top}/sub/in", dice)
        ran("btrfs", "subvolume", "snapshot", f"{top}/sub", f"{top}/snap")
        write(f"{top}/snap/in/a/file1", dice.randbytes(20000))
        ran("btrfs", "subvolume", "snapshot", "-r", f"{top}/snap", f"{top}/sub/nested")


def make(folder, kind, dice):
    """Makes the images of a kind in a folder, or raises where this system can't."""
    name, count, options, mounted, has_snapshots = kind
    at = f"{folder}/{name}"
    os.makedirs(f"{at}/mount")
    images, devices = [f"{at}/{n}" for n in range(count)], []
    try:
        for image in images:
            ran("truncate", "-s", SIZE, image)
            devices.append(subprocess.run(["losetup", "--show", "-f", image], check=True, stdout=subprocess.PIPE, text=True).stdout.strip())
        ran("mkfs.btrfs", "-q", "-f", "-n", 4096, *options.split(), *devices)
        ran("mount", "-o", mounted, devices[0], f"{at}/mount")
        try:
            fill_all(name, f"{at}/mount", has_snapshots, dice)
        finally:
            ran("umount", f"{at}/mount")
    finally:
        for device in devices:
            subprocess.run(["losetup", "-d", device])
    os.rmdir(f"{at}/mount")


class Volume:
    """A filesystem whose images are kept as their pages that aren't zeros, with what its trees have."""

    def __init__(self, folder, name):
        self.name, self.images, self.length = name, [], []
        for slot in sorted(os.listdir(f"{folder}/{name}"), key=int):
            self.images.append(pages_of(f"{folder}/{name}/{slot}"))
            self.length.append(os.path.getsize(f"{folder}/{name}/{slot}"))
        self.super = Super(self.images[0][SUPERS[0]])
        self.live = live_blocks(self.images, self.super)
        self.trees = sorted({number(block, 88) for block, _ in self.live.values()})
        tree_pages = {(slot, offset + n) for _, places in self.live.values() for slot, offset in places for n in range(0, self.super.nodesize, PAGE)}
        self.data = [(slot, offset) for slot, pages in enumerate(self.images) for offset in pages
                     if offset >= 1 << 20 and offset not in SUPERS and (slot, offset) not in tree_pages]
        self.supers = [(slot, offset) for slot, pages in enumerate(self.images) for offset in SUPERS if pages.get(offset, b"")[64:72] == MAGIC]


def pages_of(path):
    pages = {}
    with open(path, "rb") as it:
        at, end = 0, os.path.getsize(path)
        while at < end:
            try:
                at = os.lseek(it.fileno(), at, os.SEEK_DATA) // PAGE * PAGE
            except OSError:
                break
            page = os.pread(it.fileno(), PAGE, at)
            if page.count(0) != len(page):
                pages[at] = page
            at += PAGE
    return pages


class Laid:
    """The images of a volume as files that are changed and put back."""

    def __init__(self, volume, folder):
        self.volume, self.touched = volume, set()
        self.paths = [f"{folder}/{volume.name}{slot}" for slot in range(len(volume.images))]
        self.files = [os.open(path, os.O_RDWR | os.O_CREAT | os.O_TRUNC, 0o600) for path in self.paths]
        self.put_all()

    def put_all(self):
        """Puts all images back, whatever was written over them."""
        for file, pages, length in zip(self.files, self.volume.images, self.volume.length):
            os.ftruncate(file, 0)
            os.ftruncate(file, length)
            for offset, page in pages.items():
                os.pwrite(file, page, offset)
        self.touched.clear()

    def write(self, slot, offset, data):
        os.pwrite(self.files[slot], data, offset)
        self.touched.update((slot, offset + n) for n in range(0, len(data), PAGE))

    def put_back(self):
        """Puts back what was written here."""
        for slot, offset in self.touched:
            os.pwrite(self.files[slot], self.volume.images[slot].get(offset, bytes(PAGE)), offset)
        self.touched.clear()

    def state(self):
        """What changes where a call writes to an image."""
        return [(it.st_mtime_ns, it.st_size) for it in map(os.fstat, self.files)]

    def close(self):
        for file, path in zip(self.files, self.paths):
            os.close(file)
            os.unlink(path)
