"""Calls of the program, each with a limit of time and of memory."""
import os, resource, shutil, signal, time
from texts import strange

LONG, KILLED, LARGE, ROOM = 10, 30, 100 << 20, 2 << 30
FILE_LIMIT = 256 << 20


class Call:
    """What came of a call."""

    def __init__(self, words, text, status, signalled, seconds, memory):
        self.words, self.text, self.status, self.signalled, self.seconds, self.memory = words, text, status, signalled, seconds, memory


class Caller:
    """Calls a program with the images of a volume, and counts what is wrong."""

    def __init__(self, program, room):
        self.program, self.room, self.calls, self.found = program, room, 0, []
        self.spent = self.largest = self.longest = 0
        self.text = os.open(f"{room}/text", os.O_RDWR | os.O_CREAT, 0o600)
        resource.setrlimit(resource.RLIMIT_CORE, (0, 0))
        # A program that writes a larger file is told so, and not killed.
        signal.signal(signal.SIGXFSZ, signal.SIG_IGN)
        resource.setrlimit(resource.RLIMIT_FSIZE, (FILE_LIMIT, FILE_LIMIT))

    def call(self, *words):
        os.ftruncate(self.text, 0)
        os.lseek(self.text, 0, os.SEEK_SET)
        began = time.monotonic()
        child = os.posix_spawn(self.program, [self.program, *words], os.environ, file_actions=[
            (os.POSIX_SPAWN_DUP2, self.text, 1), (os.POSIX_SPAWN_OPEN, 2, "/dev/null", os.O_WRONLY, 0)])
        resource.prlimit(child, resource.RLIMIT_AS, (ROOM, ROOM))
        signal.signal(signal.SIGALRM, lambda *_: os.kill(child, signal.SIGKILL))
        signal.setitimer(signal.ITIMER_REAL, KILLED)
        _, status, usage = os.wait4(child, 0)
        signal.setitimer(signal.ITIMER_REAL, 0)
        seconds, memory = time.monotonic() - began, usage.ru_maxrss << 10
        self.calls += 1
        self.spent += seconds
        self.longest, self.largest = max(self.longest, seconds), max(self.largest, memory)
        os.lseek(self.text, 0, os.SEEK_SET)
        text = os.read(self.text, FILE_LIMIT)
        signalled = os.WIFSIGNALED(status)
        return Call(words, text, os.WTERMSIG(status) if signalled else os.WEXITSTATUS(status), signalled, seconds, memory)

    def judged(self, command, *words):
        """A call whose end, time, memory and text are looked at; what is wrong is kept."""
        it = self.call(*words)
        if it.signalled or it.status > 5:
            what = "crash"
        elif it.seconds > LONG:
            what = "over 10 s"
        elif it.memory > LARGE:
            what = "over 100 MB"
        else:
            what = None
        if what:
            self.found.append((what, words, f"status {it.status}, {it.seconds:.1f} s, {it.memory >> 20} MB"))
        elif it.status not in (4, 5) or it.text:
            wrong = strange(command, it.text, it.status)
            if wrong:
                self.found.append(("text", words, wrong))
        return it

    def unlike(self, what, words, detail):
        self.found.append((what, words, detail))

    def folder(self):
        """A folder that isn't there yet."""
        at = f"{self.room}/out"
        shutil.rmtree(at, ignore_errors=True)
        return at


def tree_of(top):
    """The folders and files below a folder, with their bytes; where nothing was written, none."""
    found = {}
    for at, folders, files in os.walk(os.fsencode(top)):
        for name in folders:
            found[os.path.relpath(at + b"/" + name, os.fsencode(top))] = None
        for name in files:
            path = at + b"/" + name
            size = os.path.getsize(path)
            with open(path, "rb") as it:
                found[os.path.relpath(path, os.fsencode(top))] = it.read(1 << 22), size
    return found
