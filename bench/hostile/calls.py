"""One run of the program, bounded in time and memory."""

import os
import select
import subprocess
import tempfile
import time
from typing import NamedTuple

HALF = 2**20


class Answer(NamedTuple):
    """What a run answered and what it took."""

    status: int | None  # below 0: the signal by which it died; None: it had not ended in time
    text: bytes  # whole, or its beginning and its end where it is longer than two halves
    clock: float
    processor: float
    held: int

    @property
    def seconds(self):
        """What the run needs alone: neither the time that it waits for others nor that of several threads counts."""
        return min(self.clock, self.processor)


def built(root):
    """The program of a checkout, which is proved and built first where that is not done."""
    subprocess.run([root / "pathway", "check"], stdin=subprocess.DEVNULL, stdout=subprocess.DEVNULL)
    return root / "crates/pathway/out/pathway"


def text_of(sink, half):
    """What stands in a file, without the middle of a text that is longer than two halves."""
    size = sink.seek(0, os.SEEK_END)
    sink.seek(0)
    if size <= 2 * half:
        return sink.read()
    head = sink.read(half)
    sink.seek(size - half)
    return head + sink.read()


def processor_time(pid):
    """The seconds that the processors gave to a process so far."""
    with open(f"/proc/{pid}/stat", "rb") as file:
        fields = file.read().rpartition(b")")[2].split()
    return (int(fields[11]) + int(fields[12])) / os.sysconf("SC_CLK_TCK")


def has_ended(watch, pid, patience):
    """Waits until a process ends, but no longer than so many seconds of the processors or without any of theirs."""
    last, moved = 0.0, time.monotonic()
    while not select.select([watch], [], [], 1)[0]:
        now = processor_time(pid)
        if now > last:
            last, moved = now, time.monotonic()
        if now > patience or time.monotonic() - moved > patience:
            return False
    return True


def call(program, words, data, patience, environment=None, half=HALF):
    """One run over an input, which is ended where it goes beyond the patience."""
    with tempfile.TemporaryFile() as source, tempfile.TemporaryFile() as sink:
        source.write(data)
        source.seek(0)
        began = time.monotonic()
        child = subprocess.Popen(
            [program, *words], stdin=source, stdout=sink, stderr=subprocess.DEVNULL, env=environment
        )
        watch = os.pidfd_open(child.pid)
        is_over = has_ended(watch, child.pid, patience)
        if not is_over:
            child.kill()
        _, state, usage = os.wait4(child.pid, 0)
        os.close(watch)
        child.returncode = os.waitstatus_to_exitcode(state)
        clock = time.monotonic() - began
        return Answer(
            child.returncode if is_over else None, text_of(sink, half), clock, usage.ru_utime + usage.ru_stime,
            usage.ru_maxrss * 1024,
        )
