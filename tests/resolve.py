#!/usr/bin/env python3
"""Holds `inspect-internal logical-resolve` of the program to that of btrfs-progs on a mount of the same filesystem:

    tests/resolve.py PROGRAM IMAGE [IMAGE ..]

The images are put on loop devices and mounted read-only. For COUNT (20) data extents, spread over the extent tree, the first byte, one in the middle and the
last one are resolved by both: each owner that the kernel tells, by its tree, inode and position, has to be told by the program, and no others. It needs
root, loop devices, a kernel with btrfs, and btrfs-progs. The gate doesn't run it.
"""
import os, re, subprocess, sys, tempfile

COUNT = int(os.environ.get("COUNT", "20"))


def said(*words, may_fail=False):
    ran = subprocess.run(words, stdout=subprocess.PIPE, stderr=subprocess.PIPE, errors="replace")
    if ran.returncode and not may_fail:
        sys.exit(f"{' '.join(words)}: {ran.stderr.strip()}")
    return ran.stdout


def data_extents(device):
    """Returns the addresses and lengths of the data extents that the extent tree has."""
    found, at = [], None
    for line in said("btrfs", "inspect-internal", "dump-tree", "-t", "extent", device).splitlines():
        item = re.search(r"key \((\d+) EXTENT_ITEM (\d+)\)", line)
        if item:
            at = int(item[1]), int(item[2])
        elif at and re.search(r"flags DATA", line):
            found.append(at)
            at = None
        elif re.search(r"\bkey \(", line):
            at = None
    return found


def owners_of_kernel(address, mount):
    lines = said("btrfs", "inspect-internal", "logical-resolve", "-s", "65536", "-P", str(address), mount, may_fail=True)
    return {tuple(map(int, it)) for it in re.findall(r"inode (\d+) offset (\d+) root (\d+)", lines)}


def owners_of_program(program, address, images):
    lines = said(program, "inspect-internal", "logical-resolve", str(address), *images, may_fail=True)
    last = lines.splitlines()[-1] if lines else ""
    rows = re.findall(r"(?m)^tree (\d+) inode (\d+) position (\d+) path ", lines)
    if last != f"owners {len(rows)}":
        return last
    return {(int(inode), int(position), int(tree)) for tree, inode, position in rows}


def spread(items, count):
    return [items[i * len(items) // count] for i in range(min(count, len(items)))] if len(items) > count else items


def compare(program, images, device, mount):
    wrong = owners = 0
    for address, length in spread(data_extents(device), COUNT):
        for byte in (address, address + length // 2, address + length - 1):
            ours, theirs = owners_of_program(program, byte, images), owners_of_kernel(byte, mount)
            owners += len(theirs)
            if ours != theirs:
                wrong += 1
                print(f"{byte}: the program {sorted(ours) if isinstance(ours, set) else ours}, the kernel {sorted(theirs)}")
    return wrong, owners


def main(program, *images):
    loops, mounted = [], False
    with tempfile.TemporaryDirectory() as mount:
        try:
            for image in images:
                loops.append(said("losetup", "--show", "-r", "-f", image).strip())
            said("btrfs", "device", "scan", *loops)
            others = [f"device={it}" for it in loops[1:]]
            subprocess.run(["mount", "-t", "btrfs", "-o", ",".join(["ro", "rescue=nologreplay", "degraded", *others]), loops[0], mount], check=True)
            mounted = True
            wrong, owners = compare(program, images, loops[0], mount)
        finally:
            if mounted:
                subprocess.run(["umount", mount])
            for it in loops:
                subprocess.run(["losetup", "-d", it])
    print(f"resolve: {owners} owners by the kernel, {wrong} addresses differ")
    return 1 if wrong else 0


if __name__ == "__main__":
    if len(sys.argv) < 3:
        sys.exit(__doc__)
    sys.exit(main(*sys.argv[1:]))
