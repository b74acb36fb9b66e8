#!/usr/bin/env python3
"""Spoils pages of an image, and tells what became of them:

    tests/pages.py spoil IMAGE COUNT SEED >LIST      COUNT pages of 4096 bytes that aren't zeros, and in which no superblock lies, get random bytes
    tests/pages.py compare BEFORE IMAGE LIST         `right R spoiled S other O`: how many of these are as in BEFORE, how many as they were spoiled,
                                                     and how many pages, of these or of all others, are neither

Holes are passed over, so a sparse image of any size will do. BEFORE is a copy of the image from before it was spoiled. The random bytes of a page are
those of its number. `tests/sets.sh` calls it.
"""
import os, random, sys

PAGE = 4096
SUPERBLOCKS = {place // PAGE for place in (1 << 16, 1 << 26, 1 << 38)}


def bytes_of(page):
    return random.Random(page).randbytes(PAGE)


def held(file):
    """Yields the numbers of the pages that aren't holes."""
    at, end = 0, os.fstat(file).st_size
    while at < end:
        try:
            at = os.lseek(file, at, os.SEEK_DATA)
        except OSError:
            return
        hole = os.lseek(file, at, os.SEEK_HOLE)
        yield from range(at // PAGE, -(-hole // PAGE))
        at = hole


def read(file, page):
    return os.pread(file, PAGE, page * PAGE)


def spoil(image, count, seed):
    file = os.open(image, os.O_RDWR)
    pages = [page for page in held(file) if page not in SUPERBLOCKS and any(read(file, page))]
    for page in sorted(random.Random(seed).sample(pages, min(count, len(pages)))):
        os.pwrite(file, bytes_of(page), page * PAGE)
        print(page)


def compare(before, image, spoiled):
    old, new = os.open(before, os.O_RDONLY), os.open(image, os.O_RDONLY)
    right = left = other = 0
    for page in sorted({*held(old), *held(new)}):
        was, now = read(old, page), read(new, page)
        right += page in spoiled and now == was
        left += page in spoiled and now == bytes_of(page)
        other += now not in (was, bytes_of(page)) if page in spoiled else now != was
    print(f"right {right} spoiled {left} other {other}")


if sys.argv[1] == "spoil":
    spoil(sys.argv[2], int(sys.argv[3]), int(sys.argv[4]))
else:
    with open(sys.argv[4]) as listed:
        compare(sys.argv[2], sys.argv[3], {int(line) for line in listed})
