"""Runs a program once, on one text, under limits, and tells how it ended and what it took.

A small shell starts the program, and this process adopts it: a copy of this process would be slow to make, and its memory would
be taken for the program's own.
"""

import collections
import ctypes
import os
import select
import signal
import time

KIB = 1024
ADOPT = 36

Limits = collections.namedtuple("Limits", "stack memory processor wall", defaults=(8192 * KIB, 8192 * KIB, 1, 20.0))
Outcome = collections.namedtuple("Outcome", "late signal status output errors wall processor resident")

# For each line, the path of the input: starts the program and writes its number. The program waits for a line from the gate (5),
# which is opened once the inner shell has ended and the program has been adopted.
LAUNCHER = """
while read -r input; do
    echo $(
        {
            read -r go <&5
            ulimit -c 0; ulimit -t "$1"; ulimit -s "$2"; ulimit -v "$3"
            if [ "$input" = closed ]; then exec "$0" <&- 3>&- 4>&- 5<&-; else exec "$0" <"$input" 3>&- 4>&- 5<&-; fi
        } >&3 &
        echo $!
    ) >&4
done
"""


class Runner:
    def __init__(self, program, limits=Limits()):
        self.limits = limits
        self.input, self.output, self.errors = (os.memfd_create(name) for name in ("input", "output", "errors"))
        orders, self.orders = os.pipe()
        self.numbers, numbers = os.pipe()
        gate, self.gate = os.pipe()
        if ctypes.CDLL(None).prctl(ADOPT, 1, 0, 0, 0) != 0:
            raise OSError("cannot adopt processes")
        self.launcher = os.fork()
        if self.launcher == 0:
            self.become_launcher(os.path.abspath(program), (orders, self.errors, self.errors, self.output, numbers, gate))
        for fd in (orders, numbers, gate):
            os.close(fd)

    def become_launcher(self, program, fds):
        try:
            signal.signal(signal.SIGPIPE, signal.SIG_DFL)
            for target, fd in enumerate([os.dup(fd) for fd in fds]):
                os.dup2(fd, target)
            limits = (self.limits.processor, self.limits.stack // KIB, self.limits.memory // KIB)
            os.execve("/bin/sh", ["sh", "-c", LAUNCHER, program, *map(str, limits)], {})
        finally:
            os._exit(127)

    def close(self):
        os.close(self.orders)
        os.waitpid(self.launcher, 0)
        for fd in (self.input, self.output, self.errors, self.numbers, self.gate):
            os.close(fd)

    def run(self, text, feed="file"):
        """`text` comes from a file, through a pipe in pieces of some bytes (feed is their length), or standard input is closed."""
        for fd in (self.input, self.output, self.errors):
            os.ftruncate(fd, 0)
            os.lseek(fd, 0, os.SEEK_SET)
        source, sink = os.pipe() if isinstance(feed, int) else (self.input, None)
        if sink is None:
            os.write(self.input, text)
        os.write(self.orders, b"closed\n" if feed == "closed" else b"/proc/%d/fd/%d\n" % (os.getpid(), source))
        child = int(os.read(self.numbers, 20))
        watch = os.pidfd_open(child)
        begun = time.monotonic()
        os.write(self.gate, b"\n")
        if sink is not None:
            pour(sink, text, feed)
        late = not readable(watch, begun + self.limits.wall)
        os.close(watch)
        if sink is not None:
            os.close(source)
        if late:
            os.kill(child, signal.SIGKILL)
        _, status, usage = os.wait4(child, 0)
        wall = time.monotonic() - begun
        self.end_strays()
        output, errors = (os.pread(fd, 1 << 20, 0) for fd in (self.output, self.errors))
        ended_by = os.WTERMSIG(status) if os.WIFSIGNALED(status) else 0
        code = os.WEXITSTATUS(status) if os.WIFEXITED(status) else None
        return Outcome(late, ended_by, code, output, errors, wall, usage.ru_utime + usage.ru_stime, usage.ru_maxrss * KIB)

    def end_strays(self):
        """What the program started and left behind has been adopted too."""
        with open("/proc/self/task/%d/children" % os.getpid()) as children:
            strays = [int(child) for child in children.read().split() if int(child) != self.launcher]
        for stray in strays:
            os.kill(stray, signal.SIGKILL)
            os.waitpid(stray, 0)


def readable(fd, until):
    poll = select.poll()
    poll.register(fd, select.POLLIN)
    return bool(poll.poll(max(0, 1000 * (until - time.monotonic()))))


def pour(sink, text, piece):
    """Writes in pieces, the first ones slowly, so that the program reads some of them alone.

    A pipe holds 64 KiB, so a text of legal length never waits here; of a longer one the program reads only the front.
    """
    os.set_blocking(sink, False)
    try:
        for i in range(0, len(text), piece):
            if i < 6 * piece:
                time.sleep(0.001)
            os.write(sink, text[i : i + piece])
    except (BlockingIOError, BrokenPipeError):
        pass
    os.close(sink)
