#!/usr/bin/env python3
"""Restores what is left of a damaged filesystem by `restore -i` of the program and by `btrfs restore -i -s`, and counts what each has right:

    tests/salvage.py PROGRAM

A filesystem of FILES (18000) files with one copy of each block is made through a mount. For each kind, data or trees, each count of LOST ("1 3 10") and
each of SEEDS (5) seeds so many blocks of 4096 bytes, or tree blocks, are overwritten in a copy of the image. Of each program it is counted how many files
are right, how many are there with other bytes, how many are missing and named (by `skip`, `broken` or `part`, itself or a directory above it), and how many are
missing or wrong without a word. It needs root, loop devices, a kernel with btrfs, and btrfs-progs. The gate doesn't run it.
"""
import filecmp, os, random, re, shutil, subprocess, sys, tempfile

FILES = int(os.environ.get("FILES", "18000"))
LOST = [int(it) for it in os.environ.get("LOST", "1 3 10").split()]
SEEDS = int(os.environ.get("SEEDS", "5"))


def call(*words, may_fail=False):
    ran = subprocess.run(words, stdin=subprocess.DEVNULL, stdout=subprocess.PIPE, stderr=subprocess.STDOUT, errors="replace")
    if ran.returncode and not may_fail:
        sys.exit(f"{' '.join(words)}: {ran.stdout.strip()}")
    return ran.stdout


def make(image, mount):
    call("truncate", "-s", "2G", image)
    call("mkfs.btrfs", "-q", "-m", "single", "-d", "single", image)
    call("mount", "-o", "loop", image, mount)
    maker = random.Random(7)
    for number in range(FILES):
        folder = f"{mount}/d{number % 40}/e{number % 13}"
        os.makedirs(folder, exist_ok=True)
        size = maker.choice([20, 900, 3000, 5000, 9000, 20000, 70000]) + number % 97
        with open(f"{folder}/f{number}", "wb") as file:
            file.write(maker.randbytes(size))
    call("sync", "-f", mount)


def chunks(image):
    found, at = [], None
    for line in call("btrfs", "inspect-internal", "dump-tree", "-t", "chunk", image).splitlines():
        key = re.search(r"key \(FIRST_CHUNK_TREE CHUNK_ITEM (\d+)\)", line)
        at = int(key[1]) if key else at
        length = re.search(r"length (\d+) owner", line)
        size = int(length[1]) if length else locals().get("size", 0)
        stripe = re.search(r"stripe 0 devid \d+ offset (\d+)", line)
        if stripe and at is not None:
            found.append((at, size, int(stripe[1])))
    return found


def place(table, address):
    return next(offset + address - start for start, size, offset in table if start <= address < start + size)


def blocks(image):
    """Returns the addresses of the data sectors of files, and of the leaves and nodes of the top tree but its root."""
    data, trees = [], []
    for line in call("btrfs", "inspect-internal", "dump-tree", "-t", "5", image).splitlines():
        extent = re.search(r"extent data disk byte (\d+) nr (\d+)", line)
        if extent and extent[1] != "0":
            data += range(int(extent[1]), int(extent[1]) + int(extent[2]), 4096)
        node = re.match(r"(leaf|node) (\d+) ", line)
        if node:
            trees.append(int(node[2]))
    return data, trees[1:]


def regular(top):
    return {os.path.relpath(f"{at}/{it}", top): f"{at}/{it}" for at, _, names in os.walk(top) for it in names}


def is_named(path, named):
    parts = path.split("/")
    return any("/" + "/".join(parts[:n]) in named for n in range(len(parts) + 1)) or "/" in named


def count(top, whole, named):
    there = regular(top)
    right = wrong = told = silent = 0
    for path, original in whole.items():
        if path in there and filecmp.cmp(there[path], original, shallow=False):
            right += 1
        elif path in there:
            wrong += 1
        elif is_named(path, named):
            told += 1
        else:
            silent += 1
    return right, wrong, told, silent


def names_in(text):
    return {it[1].rstrip("/") or "/" for it in re.findall(r"(?m)^(skip \S+|broken \S+ \d+|part \S+ \d+) (/.*)$", text)}


def main(program):
    sums = {}
    with tempfile.TemporaryDirectory() as room:
        os.mkdir(f"{room}/mount")
        make(f"{room}/image", f"{room}/mount")
        shutil.copytree(f"{room}/mount", f"{room}/whole")
        call("umount", f"{room}/mount")
        whole, table = regular(f"{room}/whole"), chunks(f"{room}/image")
        data, trees = blocks(f"{room}/image")
        print(f"{len(whole)} files, {len(data)} sectors of data, {len(trees)} tree blocks")
        print("kind   lost seed   program: right wrong named silent   btrfs restore: right wrong silent")
        for kind, found, size in (("data", data, 4096), ("trees", trees, 16384)):
            for lost in LOST:
                for seed in range(SEEDS):
                    shutil.copy(f"{room}/image", f"{room}/broken")
                    with open(f"{room}/broken", "r+b") as file:
                        for address in random.Random(seed).sample(found, lost):
                            file.seek(place(table, address))
                            file.write(b"\xa5" * size)
                    for it in ("ours", "theirs"):
                        shutil.rmtree(f"{room}/{it}", ignore_errors=True)
                        os.mkdir(f"{room}/{it}")
                    text = call(program, "restore", "-i", f"{room}/ours", f"{room}/broken", may_fail=True)
                    call("btrfs", "restore", "-i", "-s", f"{room}/broken", f"{room}/theirs", may_fail=True)
                    ours, theirs = count(f"{room}/ours", whole, names_in(text)), count(f"{room}/theirs", whole, set())
                    print(f"{kind:6} {lost:4} {seed:4}   {ours[0]:14} {ours[1]:5} {ours[2]:5} {ours[3]:6}   {theirs[0]:21} {theirs[1]:5} {theirs[3]:6}", flush=True)
                    sums.setdefault("ours", []).append(ours)
                    sums.setdefault("theirs", []).append(theirs)
    bad = [a for a, b in zip(sums["ours"], sums["theirs"]) if a[1] or a[3] or a[0] < b[0]]
    print(f"salvage: {len(sums['ours'])} runs, {len(bad)} with a wrong file, a missing one without a word, or fewer right than btrfs restore")
    return 1 if bad else 0


if __name__ == "__main__":
    if len(sys.argv) != 2:
        sys.exit(__doc__)
    sys.exit(main(os.path.abspath(sys.argv[1])))
