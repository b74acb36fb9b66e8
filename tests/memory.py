#!/usr/bin/env python3
"""Refuses a built program one request for memory after another, and looks how each command ends:

    tests/memory.py PROGRAM [IMAGE..]

A small C library, which cc makes and the loader puts before the C library, refuses the Nth of the program's requests for memory: N is 1, 2 and on, until none
is refused any more. Each command goes so twice, as one request is refused and as all behind it are too, over the images given, or else over a filesystem with
one device that mkfs.btrfs fills; and again where pages of the first image were spoiled. A call has to end with status 5 and the line `error: no memory`,
behind a first part of what it puts otherwise, or with its whole answer where the rest needs no memory. No image may change, but for a scrub's, of which each
page is as before or as after the whole scrub. What a restore left has to be a first part, in its order, of what it makes otherwise: only the last file may
lack bytes at its end.

STEP=N in the environment tries each Nth request alone, and ONLY="WORD.." the commands of these first words. It needs Linux on x86-64, cc, and btrfs-progs
where no image is given. It makes some 6,300 calls, in six minutes on a busy machine, of which `self-test` takes the most. The gate doesn't run it. Ends
with 0 where nothing is wrong.
"""
import collections, os, random, re, shutil, struct, subprocess, sys, tempfile

PAGE = 4096
LIMIT = 60
NO_MEMORY = b"error: no memory\n"
HERE = os.path.dirname(os.path.abspath(__file__))

# Requests of the loader come before `begin`, and aren't counted.
LIBRARY = r"""
#include <errno.h>
#include <fcntl.h>
#include <stddef.h>
#include <stdlib.h>
#include <unistd.h>

extern void *__libc_malloc(size_t), *__libc_calloc(size_t, size_t), *__libc_realloc(void *, size_t), *__libc_memalign(size_t, size_t);

static long first, requests;
static int refuses_later;
static const char *mark;

__attribute__((constructor)) static void begin(void) {
    first = atol(getenv("REFUSED"));
    refuses_later = getenv("REFUSED_LATER") != NULL;
    mark = getenv("REFUSED_MARK");
    requests = 0;
}

static int is_refused(void) {
    requests++;
    if (first == 0 || requests < first || (requests > first && !refuses_later)) return 0;
    if (requests == first) close(open(mark, O_WRONLY | O_CREAT, 0600));
    errno = ENOMEM;
    return 1;
}

void *malloc(size_t size) { return is_refused() ? NULL : __libc_malloc(size); }
void *calloc(size_t count, size_t size) { return is_refused() ? NULL : __libc_calloc(count, size); }
void *realloc(void *at, size_t size) { return is_refused() ? NULL : __libc_realloc(at, size); }
void *aligned_alloc(size_t to, size_t size) { return is_refused() ? NULL : __libc_memalign(to, size); }
int posix_memalign(void **at, size_t to, size_t size) {
    *at = is_refused() ? NULL : __libc_memalign(to, size);
    return *at == NULL ? ENOMEM : 0;
}
"""

Command = collections.namedtuple("Command", "name words writes makes")
Ended = collections.namedtuple("Ended", "text status said made was_refused")


def commands(root, data):
    """Each command: its words in front of the images, whether it may write to them, and whether it makes something."""
    shown = [("super",), ("inspect-internal", "dump-tree"), ("inspect-internal", "dump-tree", "-r"), ("inspect-internal", "dump-tree", "-t", "5"),
             ("inspect-internal", "dump-tree", "-b", str(root)), ("inspect-internal", "logical-resolve", str(data)), ("restore", "-l"), ("check",),
             ("check", "--check-data-csum"), ("scrub", "start", "-r"), ("restore", "-D", "-v", "-s", "OUT")]
    made = [("restore", "-v", "-s", "OUT"), ("restore", "-i", "-s", "OUT"), ("send", "OUT", "stream")]
    yield from (Command(" ".join(it), it, False, False) for it in shown)
    yield from (Command(" ".join(it), it, False, True) for it in made)
    yield Command("scrub start", ("scrub", "start"), True, False)


class Images:
    """Images, which can be put back as they were; holes stay holes."""

    def __init__(self, paths):
        self.paths, self.kept, self.state = paths, [pages_of(path) for path in paths], None
        self.looked()

    def looked(self):
        self.state = self.times()

    def times(self):
        return [(it.st_mtime_ns, it.st_ctime_ns, it.st_size) for it in map(os.stat, self.paths)]

    def are_untouched(self):
        return self.times() == self.state

    def put_back(self):
        for path, kept in zip(self.paths, self.kept):
            with open(path, "r+b") as it:
                for page, content in differing(pages_of(path), kept):
                    it.seek(page * PAGE)
                    it.write(content)
        self.looked()


def pages_of(path):
    """The pages of a file that aren't zeros, by their numbers."""
    found = {}
    with open(path, "rb") as it:
        at, end = 0, os.fstat(it.fileno()).st_size
        while at < end:
            try:
                at = os.lseek(it.fileno(), at, os.SEEK_DATA)
            except OSError:
                break
            hole = os.lseek(it.fileno(), at, os.SEEK_HOLE)
            for page in range(at // PAGE, -(-hole // PAGE)):
                content = os.pread(it.fileno(), PAGE, page * PAGE)
                if content.strip(b"\0"):
                    found[page] = content
            at = hole
    return found


def differing(pages, others):
    """The pages that differ, with the others' bytes."""
    for page in sorted(pages.keys() | others.keys()):
        other = others.get(page, b"\0" * PAGE)
        if pages.get(page, b"\0" * PAGE) != other:
            yield page, other


def is_between(pages, before, after):
    """Whether each page is as it was before, or as it is after the whole scrub."""
    return all(pages.get(at, b"\0" * PAGE) == after.get(at, b"\0" * PAGE) for at, _ in differing(pages, before))


def tree_of(top):
    """What stands below a folder: the bytes of each file, and None for each folder."""
    found = {}
    for at, folders, files in os.walk(os.fsencode(top)):
        below = os.path.relpath(at, os.fsencode(top))
        found.update((os.path.normpath(os.path.join(below, name)), None) for name in folders)
        for name in files:
            with open(os.path.join(at, name), "rb") as it:
                found[os.path.normpath(os.path.join(below, name))] = it.read()
    return found


def lines_of_paths(text):
    """The paths of `dir` and `file` lines, in their order. The names that are made here are shown as they are."""
    return [line.split(b" /", 1)[1] for line in text.splitlines() if line.startswith((b"dir /", b"file /"))]


def is_first_part(made, whole, order):
    """Whether what was made is the first part of the whole, by the order of its entries."""
    if made is None:
        return True
    if whole is None:
        return False
    names = [name for name in order if name in whole] or sorted(whole)
    count = len(made)
    if set(names[:count]) != set(made):
        return False
    return all(made[name] == whole[name] or
               at == count - 1 and made[name] is not None and whole[name] is not None and whole[name].startswith(made[name])
               for at, name in enumerate(names[:count]))


class Caller:
    """Calls the program with requests for memory refused."""

    def __init__(self, program, room):
        self.program, self.room, self.library = program, room, f"{room}/refuses.so"
        with open(f"{room}/refuses.c", "w", encoding="ascii") as it:
            it.write(LIBRARY)
        subprocess.run(["cc", "-shared", "-fPIC", "-O1", "-o", self.library, f"{room}/refuses.c"], check=True)

    def call(self, command, images, number=0, refuses_later=False):
        out, mark = f"{self.room}/out", f"{self.room}/mark"
        shutil.rmtree(out, ignore_errors=True)
        if os.path.exists(mark):
            os.remove(mark)
        words = [out if it == "OUT" else it for it in command.words]
        settings = dict(os.environ, LD_PRELOAD=self.library, REFUSED=str(number), REFUSED_MARK=mark)
        if refuses_later:
            settings["REFUSED_LATER"] = "1"
        if command.makes and command.words[0] == "send":
            os.mkdir(out)
        try:
            it = subprocess.run([self.program, *words, *images], env=settings, stdin=subprocess.DEVNULL, capture_output=True, timeout=LIMIT, check=False)
        except subprocess.TimeoutExpired:
            return Ended(b"", "none: it hangs", b"", None, True)
        made = tree_of(out) if command.makes and os.path.isdir(out) else None
        return Ended(it.stdout, it.returncode, it.stderr, made, os.path.exists(mark))


def wrong_in(ended, whole, order):
    """What is wrong with a call of which requests were refused; None where nothing is."""
    if (ended.text, ended.status, ended.said, ended.made) == (whole.text, whole.status, whole.said, whole.made):
        return None
    if ended.status != 5:
        return f"status {ended.status}"
    if not ended.text.endswith(NO_MEMORY):
        return "another last line"
    if not whole.text.startswith(ended.text[:-len(NO_MEMORY)]):
        return "not a first part of the text"
    if ended.said:
        return "words on the standard error"
    return None if is_first_part(ended.made, whole.made, order) else "not a first part of what it makes"


class Bench:
    """Counts calls, and what is wrong with them."""

    def __init__(self, caller):
        self.caller, self.calls, self.whole, self.wrong = caller, 0, 0, 0
        self.step = int(os.environ.get("STEP", "1"))

    def tell(self, name, what, ended):
        self.wrong += 1
        print(f"{name}: {what}: status {ended.status}, {ended.text[-200:]!r} {ended.said[-200:]!r}", flush=True)

    def try_command(self, what, command, images, order):
        """Refuses one request of a command after another."""
        paths = images.paths if images else []
        whole = self.caller.call(command, paths)
        after = [pages_of(path) for path in paths] if command.writes else None
        if images and not command.writes and not images.are_untouched():
            self.tell(f"{what}{command.name}", "an image changed", whole)
        counts = [self.refuse_each(f"{what}{command.name}", command, images, (whole, order, after), later) for later in (False, True)]
        print(f"{what}{command.name}: status {whole.status}; {counts[0]} and {counts[1]} calls with a request refused", flush=True)

    def refuse_each(self, name, command, images, expected, refuses_later):
        whole, order, after = expected
        count, number = 0, 1
        while True:
            if command.writes:
                images.put_back()
            ended = self.caller.call(command, images.paths if images else [], number, refuses_later)
            if not ended.was_refused:
                return count
            count += 1
            self.calls += 1
            self.whole += ended.status != 5
            what = wrong_in(ended, whole, order)
            if images and not what:
                what = self.wrong_in_images(command, images, after)
            if what:
                self.tell(name, f"request {number}{' and all behind' if refuses_later else ''}: {what}", ended)
            number += self.step

    def wrong_in_images(self, command, images, after):
        if not command.writes:
            return None if images.are_untouched() else "an image changed"
        pages = zip(images.paths, images.kept, after)
        return None if all(is_between(pages_of(path), before, whole) for path, before, whole in pages) else "pages that no scrub makes"


def fill(top):
    """Files and folders of some shapes."""
    dice = random.Random(1)
    for n in range(12):
        os.makedirs(f"{top}/folder {n}/below/it")
        for k, size in enumerate((0, 5, 300, 3000, 4096, 9000, 70000)):
            with open(f"{top}/folder {n}/file {k}", "wb") as it:
                it.write(dice.randbytes(size))
    os.link(f"{top}/folder 1/file 5", f"{top}/folder 2/below/linked")
    os.symlink("file 5", f"{top}/folder 3/symbolic")
    with open(f"{top}/large", "wb") as it:
        it.write(dice.randbytes(1500000))
    with open(f"{top}/folder 4/{'n' * 255}", "wb") as it:
        it.write(b"a long name")


def filled(room):
    """An image of one device that mkfs.btrfs fills: two copies of metadata, one of data."""
    os.mkdir(f"{room}/files")
    fill(f"{room}/files")
    image = f"{room}/image"
    with open(image, "wb") as it:
        it.truncate(160 << 20)
    subprocess.run(["mkfs.btrfs", "-q", "-m", "dup", "-d", "single", "--rootdir", f"{room}/files", image], check=True, stdout=subprocess.DEVNULL)
    return [image]


def spoil(path, count):
    """Spoils some pages of an image."""
    with open(f"{path}.pages", "wb") as it:
        subprocess.run([sys.executable, f"{HERE}/pages.py", "spoil", path, str(count), "1"], check=True, stdout=it)


def root_of(path):
    """The address of the root tree's root, by the first superblock."""
    with open(path, "rb") as it:
        it.seek(65536)
        return struct.unpack_from("<Q", it.read(PAGE), 0x50)[0]


def data_of(text):
    """The address of the first extent of a file, by the text of its tree."""
    found = re.search(rb"regular disk (\d+)", text)
    return int(found[1]) if found else 0


def main(words):
    if not words:
        sys.exit(__doc__)
    program = os.path.abspath(words[0])
    wanted = os.environ.get("ONLY", "").split()
    with tempfile.TemporaryDirectory() as room:
        bench = Bench(Caller(program, room))
        paths = []
        for n, path in enumerate(words[1:] or filled(room)):
            paths.append(f"{room}/{n}.img")
            subprocess.run(["cp", "--sparse=always", path, paths[-1]], check=True)
        files = bench.caller.call(Command("", ("inspect-internal", "dump-tree", "-t", "5"), False, False), paths)
        root, data = root_of(paths[0]), data_of(files.text)
        for what, count in (("", 0), ("spoiled: ", 25)):
            if count:
                spoil(paths[0], count)
            images = Images(paths)
            for command in commands(root, data):
                if wanted and command.words[0] not in wanted:
                    continue
                listed = Command("", ("restore", "-D", "-v", "-s", "OUT"), False, False)
                order = lines_of_paths(bench.caller.call(listed, paths).text) if command.makes else []
                bench.try_command(what, command, images, order)
                images.put_back()
        if not wanted or "self-test" in wanted:
            bench.try_command("", Command("self-test 1", ("self-test", "1"), False, False), None, [])
    print(f"memory: {bench.calls} calls with a request refused, {bench.whole} of them with the whole answer, {bench.wrong} wrong")
    return 1 if bench.wrong else 0


if __name__ == "__main__":
    sys.exit(main(sys.argv[1:]))
