#!/usr/bin/env python3
"""Times the built program beside btrfs-progs, and prints the table "All commands beside btrfs-progs" of docs/SPEED-LOG.md.

    python3 tests/speed.py --program $PWD/crates/btr_tool/out/launcher/btr_tool [--times 5] [--only ROW] [--warm] [--keep]
        [--work DIR]

It wants btrfs-progs on the PATH, and room for some 6 GB in DIR, by default a folder `speed` among the temporary files. There
it makes images, where they aren't there yet. By `mkfs.btrfs --rootdir`: `a` of 8 files of 64 MiB of random bytes, `b` of
20,000 files of 100 to 20,000 bytes in 200 folders, and `c` of 200,000 files of 40 to 5,000 bytes in 2,000 folders. By a mount, as
root: `s1`, `s10`, `s100` and `s1000`, the files of `b` in a subvolume with as many snapshots, before each of which one file is
written anew. Rows of an image that can't be made are left out. Each row is run by the two programs in turn, and its figures are
medians; `super` is called 200 times in a row. Processor time is that of the user and of the system, and the most memory is that of one
more run, by `/usr/bin/time`, where that is there. What is printed by the programs goes into a file. btrfs-progs drops the image's pages from memory as it opens it and as it ends, so both read from the
disk; with --warm the image is read before each run, and only this program finds it in memory. Each restore goes into a new
folder; folders of small files are deleted only at the end, since for minutes an ext4 without a journal passes by the inodes of
deleted files one by one; with --keep they are left in DIR, some 250 MB for each of the --times, so that a run soon after isn't
slowed by that. Ends with 1 where a goal is missed or a command fails.
"""
import argparse
import os
import random
import resource
import shutil
import statistics
import subprocess
import sys
import tempfile
import time
from collections import namedtuple

Row = namedtuple("Row", "name image words peer goal clock")
Took = namedtuple("Took", "status wall processor")

IMAGE = "{image}"
DEST = "{dest}"


def check_row(what, image, goal):
    """A row of `check` without the data."""
    return Row(f"`check`, {what}", image, ["check", IMAGE], ["btrfs", "check", "--force", IMAGE], goal, "processor")


ROWS = [
    Row("`super`", "b", ["super", IMAGE], ["btrfs", "inspect-internal", "dump-super", IMAGE], 0.5, "processor"),
    Row(
        "`dump-tree`, small files",
        "b",
        ["inspect-internal", "dump-tree", IMAGE],
        ["btrfs", "inspect-internal", "dump-tree", IMAGE],
        0.5,
        "processor",
    ),
    Row("`restore`, large files", "a", ["restore", DEST, IMAGE], ["btrfs", "restore", IMAGE, DEST], 1.0, "wall"),
    Row("`restore`, small files", "b", ["restore", DEST, IMAGE], ["btrfs", "restore", IMAGE, DEST], 0.5, "wall"),
    check_row("small files", "b", 0.6),
    check_row("small files, 1 snapshot", "s1", None),
    check_row("small files, 10 snapshots", "s10", None),
    check_row("small files, 100 snapshots", "s100", 1.0),
    check_row("small files, 1000 snapshots", "s1000", None),
    check_row("200,000 files", "c", 0.6),
    Row(
        "`check --check-data-csum`, large files",
        "a",
        ["check", "--check-data-csum", IMAGE],
        ["btrfs", "check", "--force", "--check-data-csum", IMAGE],
        0.6,
        "processor",
    ),
    Row("`scrub start -r`, large files", "a", ["scrub", "start", "-r", IMAGE], None, None, "processor"),
]
OFTEN = ["sh", "-c", 'i=0; while [ $i -lt 200 ]; do "$@" || exit 9; i=$((i + 1)); done', "sh"]
SIZES = (100, 700, 3000, 5000, 20000)
SMALLER = (40, 300, 1200, 2500, 5000)


def write_file(path, content):
    with open(path, "wb") as file:
        file.write(content)


def fill(name, root):
    """Writes the files of an image below a folder."""
    made = random.Random(name)
    if name == "a":
        for i in range(8):
            write_file(os.path.join(root, f"f{i}"), made.randbytes(64 << 20))
        return
    for i in range(200000 if name == "c" else 20000):
        folder = os.path.join(root, f"d{i // 100:03}")
        os.makedirs(folder, exist_ok=True)
        write_file(os.path.join(folder, f"file{i:05}"), made.randbytes(made.choice(SMALLER if name == "c" else SIZES)))


def run_quietly(*words):
    subprocess.run(words, check=True, stdout=sys.stderr)


def snapshot(mounted, count):
    """Fills a mounted filesystem with the files of `b` in a subvolume, and takes snapshots of it."""
    files = os.path.join(mounted, "files")
    run_quietly("btrfs", "-q", "subvolume", "create", files)
    fill("b", files)
    os.makedirs(os.path.join(mounted, "snapshots"))
    for i in range(count):
        write_file(os.path.join(files, f"d{i % 200:03}", f"file{i % 200 * 100:05}"), b"%d" % i * 50)
        run_quietly("btrfs", "-q", "subvolume", "snapshot", files, os.path.join(mounted, "snapshots", str(i)))


def make_snapshots(count, part):
    """Makes an image with snapshots, by a mount."""
    mounted = tempfile.mkdtemp()
    run_quietly("mkfs.btrfs", "-q", part)
    run_quietly("mount", "-o", "loop", part, mounted)
    try:
        snapshot(mounted, count)
    finally:
        run_quietly("umount", mounted)
        os.rmdir(mounted)


def make_image(name, path):
    part = path + ".part"
    with open(part, "wb") as file:
        file.truncate(4 << 30 if name == "c" else 2 << 30)
    if name[0] == "s":
        make_snapshots(int(name[1:]), part)
    else:
        root = path + ".root"
        os.makedirs(root)
        fill(name, root)
        run_quietly("mkfs.btrfs", "-q", "--rootdir", root, part)
        shutil.rmtree(root)
    os.rename(part, path)


def once(words, out):
    """Runs a command, whose text goes into a file."""
    with open(out, "wb") as file:
        before = resource.getrusage(resource.RUSAGE_CHILDREN)
        start = time.perf_counter()
        status = subprocess.run(words, stdout=file, stderr=subprocess.DEVNULL).returncode
        wall = time.perf_counter() - start
        after = resource.getrusage(resource.RUSAGE_CHILDREN)
    return Took(status, wall, after.ru_utime - before.ru_utime + after.ru_stime - before.ru_stime)


def read_through(path):
    """Reads a file, so that its pages are in memory."""
    with open(path, "rb", buffering=0) as file:
        while file.read(1 << 20):
            pass


def run(row, command, image, room, warm):
    """Runs one command of a row, with a new folder in the place of the destination."""
    if warm:
        read_through(image)
    dest = tempfile.mkdtemp(dir=room)
    words = [word.format(image=image, dest=dest) for word in command]
    if row.name == "`super`":
        words = OFTEN + words
    took = once(words, os.path.join(room, "out"))
    if row.image == "a":
        shutil.rmtree(dest)
    return took


def median(runs):
    return Took(max(r.status for r in runs), statistics.median(r.wall for r in runs), statistics.median(r.processor for r in runs))


def most_memory(words, image):
    """Returns the most memory that a command takes which writes nothing, in MB, as text; nothing where that can't be told."""
    if DEST in words or not os.path.exists("/usr/bin/time"):
        return ""
    words = [word.format(image=image) for word in words]
    with tempfile.NamedTemporaryFile("r") as file:
        subprocess.run(["/usr/bin/time", "-f", "%M", "-o", file.name] + words, stdout=subprocess.DEVNULL, stderr=subprocess.DEVNULL)
        return f", {int(file.read().split()[-1]) * 1024 / 1e6:.1f} MB"


def shown(took, memory):
    return f"{took.wall:.2f} s, {took.processor:.2f} s{memory}"


def print_row(row, ours, peer, given, image):
    """Prints a row of the table, and answers whether its goal was kept."""
    memory = most_memory([given.program] + row.words, image)
    if ours.status != 0:
        print(f"| {row.name} | ended with {ours.status} | | | |", flush=True)
        return False
    if peer is None:
        print(f"| {row.name} | {shown(ours, memory)} | no such command | | |", flush=True)
        return True
    ratio = getattr(ours, row.clock) / max(getattr(peer, row.clock), 1e-6)
    missed = row.goal is not None and ratio > row.goal
    goal = "" if row.goal is None else f"{row.goal} {row.clock}" + (", missed" if missed else "")
    print(f"| {row.name} | {shown(ours, memory)} | {shown(peer, most_memory(row.peer, image))} | {ratio:.2f} | {goal} |", flush=True)
    return not missed


def time_row(row, given, room):
    """Times a row, prints it, and answers whether its goal was kept."""
    image = os.path.join(given.work, row.image + ".img")
    if not os.path.exists(image):
        if row.image[0] == "s" and os.geteuid() != 0:
            print(f"| {row.name} | left out: its image is made by a mount, as root | | | |", flush=True)
            return True
        make_image(row.image, image)
    ours, peer = [], []
    for _ in range(given.times):
        ours.append(run(row, [given.program] + row.words, image, room, given.warm))
        if row.peer:
            peer.append(run(row, row.peer, image, room, given.warm))
    return print_row(row, median(ours), median(peer) if peer else None, given, image)


def main():
    parser = argparse.ArgumentParser(description="times the program beside btrfs-progs")
    parser.add_argument("--program", required=True)
    parser.add_argument("--times", type=int, default=5)
    parser.add_argument("--only", help="rows whose name holds this")
    parser.add_argument("--warm", action="store_true", help="read the image before each run")
    parser.add_argument("--keep", action="store_true", help="leave the folders of small files")
    parser.add_argument("--work", default=os.path.join(tempfile.gettempdir(), "speed"))
    given = parser.parse_args()
    if not shutil.which("mkfs.btrfs") or not shutil.which("btrfs"):
        sys.exit("btrfs-progs is not on the PATH")
    os.makedirs(given.work, exist_ok=True)
    print("| Command | This program: wall and processor time, the most memory | btrfs-progs | Ratio | Goal |")
    print("|---|---|---|---|---|", flush=True)
    room = tempfile.mkdtemp(dir=given.work)
    try:
        kept = [time_row(row, given, room) for row in ROWS if not given.only or given.only in row.name]
    finally:
        if not given.keep:
            shutil.rmtree(room)
    sys.exit(0 if all(kept) else 1)


main()
