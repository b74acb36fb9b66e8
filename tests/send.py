#!/usr/bin/env python3
"""Tries `send` of the program with `btrfs receive`, and beside a mount of the same filesystem:

    tests/send.py PROGRAM IMAGE [IMAGE ..]

The stream of the top subvolume is read by `btrfs receive --dump`, and received into a new Btrfs on a loop device. Each file of the mount that the program
doesn't name as left out has to be there with its bytes, and no other file. It needs root, loop devices, a kernel with btrfs, and btrfs-progs. The gate
doesn't run it. SIZE=2G is the size of the new Btrfs.
"""
import filecmp, os, re, subprocess, sys, tempfile

SIZE = os.environ.get("SIZE", "2G")


def call(*words, may_fail=False):
    ran = subprocess.run(words, stdout=subprocess.PIPE, stderr=subprocess.PIPE)
    if ran.returncode and not may_fail:
        sys.exit(f"{' '.join(words)}: {ran.stderr.decode(errors='replace').strip()}")
    return ran


def loop(image, *flags):
    return call("losetup", "--show", *flags, "-f", image).stdout.decode().strip()


def shown(name):
    return "".join(chr(b) if 0x20 <= b <= 0x7E and b != 0x5C else "\\x%02x" % b for b in name)


def left_out(text):
    """Returns the paths that the program names as left out."""
    return {line.split(" ", 2)[2] for line in text.splitlines() if line.startswith("skip ")}


def files_below(top, skipped):
    """Returns the regular files below a folder, but those at or below paths that were left out."""
    found = {}
    for at, folders, files in os.walk(os.fsencode(top)):
        inside = b"/" + os.path.relpath(at, os.fsencode(top)) if at != os.fsencode(top) else b""
        folders[:] = [it for it in folders if shown(inside + b"/" + it) not in skipped and not os.path.islink(os.path.join(at, it))]
        for name in files:
            path = os.path.join(at, name)
            if shown(inside + b"/" + name) not in skipped and os.path.isfile(path) and not os.path.islink(path):
                found[inside + b"/" + name] = path
    return found


def compare(received, mounted, skipped):
    ours, theirs = files_below(received, set()), files_below(mounted, skipped)
    wrong = 0
    for path in sorted(ours.keys() | theirs.keys()):
        if path not in ours or path not in theirs:
            wrong += 1
            print(f"{shown(path)}: only {'received' if path in ours else 'on the mount'}")
        elif not filecmp.cmp(ours[path], theirs[path], shallow=False):
            wrong += 1
            print(f"{shown(path)}: other bytes")
    return len(theirs), wrong


def main(program, *images):
    with tempfile.TemporaryDirectory() as room:
        sent = call(program, "send", f"{room}/out", "sent", *images, may_fail=True)
        text = sent.stdout.decode(errors="replace")
        if not re.search(r"^directories \d+ files \d+ skipped \d+$", text, re.M):
            print(text.strip().splitlines()[-1] if text.strip() else "no line")
            return 1
        dumped = call("btrfs", "receive", "--dump", "-f", f"{room}/out/sent", may_fail=True)
        print(f"btrfs receive --dump: {'ok' if not dumped.returncode else dumped.stderr.decode(errors='replace').strip()}")
        call("truncate", "-s", SIZE, f"{room}/new")
        call("mkfs.btrfs", "-q", f"{room}/new")
        loops, mounts = [], []
        try:
            for name in ("to", "from"):
                os.mkdir(f"{room}/{name}")
            loops.append(loop(f"{room}/new"))
            call("mount", loops[0], f"{room}/to")
            mounts.append(f"{room}/to")
            received = call("btrfs", "receive", "-f", f"{room}/out/sent", f"{room}/to", may_fail=True)
            print(f"btrfs receive: {'ok' if not received.returncode else received.stderr.decode(errors='replace').strip()}")
            for image in images:
                loops.append(loop(image, "-r"))
            call("btrfs", "device", "scan", *loops[1:])
            others = [f"device={it}" for it in loops[2:]]
            call("mount", "-t", "btrfs", "-o", ",".join(["ro", "rescue=nologreplay", "degraded", "subvolid=5", *others]), loops[1], f"{room}/from")
            mounts.append(f"{room}/from")
            files, wrong = compare(f"{room}/to/sent", f"{room}/from", left_out(text))
        finally:
            for it in mounts:
                subprocess.run(["umount", it])
            for it in loops:
                subprocess.run(["losetup", "-d", it])
    print(f"send: {files} files, {wrong} wrong")
    return 1 if wrong or received.returncode or dumped.returncode else 0


if __name__ == "__main__":
    if len(sys.argv) < 3:
        sys.exit(__doc__)
    sys.exit(main(*sys.argv[1:]))
