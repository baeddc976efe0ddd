#!/usr/bin/env python3
"""Proves and builds the program: each crate that it stands on once those that it names are built, as many side by side as there
are processors and memory, and then the program itself. Standard error tells which crate is taken up, and for how long all has
worked.

The kit lets one command at a time work on a crate and on those below it. So crates are proved in lanes: the first is this
checkout, each other one a copy of its crates, and each takes over what another one has built."""
import glob, os, shutil, signal, subprocess, sys, tempfile, time

HERE = os.path.dirname(os.path.realpath(__file__))
PROGRAM = "pathway"
BUILT = f"{HERE}/crates/{PROGRAM}/out/{PROGRAM}"
# The memory that the proof of a crate is reckoned with, in GiB.
PROOF_MEMORY = 5
BEGAN = time.monotonic()


def say(text):
    print(f"{PROGRAM}: {text}", file=sys.stderr, flush=True)


def named_crates():
    """The crates of crates.txt, each with those of them that it names."""
    with open(f"{HERE}/crates.txt") as file:
        rows = [line.partition(":") for line in file if ":" in line and not line.startswith("#")]
    named = {head.split()[0]: libraries.split() for head, _, libraries in rows}
    return {crate: [it for it in libraries if it in named] for crate, libraries in named.items()}


def add_with_those_below(order, crate, named):
    """Adds to the order the crates that this one stands on, each behind those that it names, and then itself."""
    if crate not in order:
        for below in named[crate]:
            add_with_those_below(order, below, named)
        order.append(crate)


def lines_of(crate):
    """The lines of a crate's code."""
    lines = 0
    for at, _, names in os.walk(f"{HERE}/crates/{crate}/src"):
        for name in names:
            with open(f"{at}/{name}", "rb") as file:
                lines += file.read().count(b"\n")
    return lines


def longest_first(order, named):
    """The crates in the order in which they are taken up: those first on which the longest rows of others stand, by lines."""
    own = {crate: lines_of(crate) for crate in order}
    rows = dict(own)
    for crate in reversed(order):
        for below in named[crate]:
            rows[below] = max(rows[below], own[below] + rows[crate])
    return sorted(order, key=lambda crate: -rows[crate])


def lane_count():
    """As many lanes as there are processors and memory, and one where the copies of a repository share nothing by this kit."""
    said = subprocess.run(["rt", "help"], stdout=subprocess.PIPE, stderr=subprocess.STDOUT, text=True).stdout
    if "rt ci NAME" not in said:
        return 1
    with open("/proc/meminfo") as file:
        free = next(int(line.split()[1]) for line in file if line.startswith("MemAvailable"))
    return max(1, min(len(os.sched_getaffinity(0)), free // (PROOF_MEMORY << 20)))


def lanes_in(room):
    """The folders of the lanes: this checkout, and copies of its crates without what was made of them."""
    lanes = [HERE]
    for number in range(2, lane_count() + 1):
        lanes.append(f"{room}/{number}")
        shutil.copytree(f"{HERE}/crates", f"{lanes[-1]}/crates", ignore=shutil.ignore_patterns("out"))
        for name in ("crates.txt", "HANDLES"):
            shutil.copyfile(f"{HERE}/{name}", f"{lanes[-1]}/{name}")
    return lanes


class Work:
    """A crate that is proved in a lane."""

    def __init__(self, crate, lane, options, log):
        self.crate, self.lane = crate, lane
        # The kit builds a program where it runs it. Without words it only prints its usage.
        words = ["rt", "run" if crate == PROGRAM else "lib", *options]
        with open(log, "w") as file:
            self.process = subprocess.Popen(words, cwd=f"{lane}/crates/{crate}", stdin=subprocess.DEVNULL, stdout=file, stderr=file)

    def has_ended(self):
        return self.process.poll() is not None

    def is_built(self):
        """Whether the crate is built. The status of a program that was built is its own."""
        return os.access(BUILT, os.X_OK) if self.crate == PROGRAM else self.process.returncode == 0

    def stop(self):
        self.process.terminate()
        self.process.wait()


class Build:
    """The crates that wait, those at work and those that are built."""

    def __init__(self, order, named, lanes, logs):
        self.total, self.named, self.lanes, self.logs = len(order), named, lanes, logs
        # Side by side each crate has one job: each job works out anew what it needs, and a large crate takes longer with two.
        self.options = ["--jobs", "1"] if len(lanes) > 1 else []
        self.waiting, self.at_work, self.built = list(order), [], set()

    def log_of(self, crate):
        return f"{self.logs}/{crate}"

    def take_up(self):
        """Takes up crates whose libraries are built, while lanes are free. The program comes last, when each lane is, and so in
        the first, which is the checkout."""
        ready = [it for it in self.waiting if self.built.issuperset(self.named[it])]
        free = [lane for lane in self.lanes if lane not in [work.lane for work in self.at_work]]
        for crate, lane in zip(ready, free):
            self.waiting.remove(crate)
            minutes, seconds = divmod(int(time.monotonic() - BEGAN), 60)
            say(f"proving crate {self.total - len(self.waiting)} of {self.total}, {crate} ({minutes} min {seconds:02} s so far)")
            self.at_work.append(Work(crate, lane, self.options, self.log_of(crate)))

    def run(self):
        """Builds all, and gives the crate that was not built, if there is one."""
        try:
            while self.waiting or self.at_work:
                self.take_up()
                time.sleep(0.2)
                for work in [it for it in self.at_work if it.has_ended()]:
                    self.at_work.remove(work)
                    if not work.is_built():
                        return work.crate
                    self.built.add(work.crate)
        finally:
            for work in self.at_work:
                work.stop()
        return None


def main():
    signal.signal(signal.SIGTERM, lambda *_: sys.exit(6))
    if not shutil.which("rt"):
        say("rt, the command of the kit, is not on the PATH: see Prove it in README.md")
        return 6
    order, named = [], named_crates()
    add_with_those_below(order, PROGRAM, named)
    if os.path.exists(BUILT):
        os.remove(BUILT)
    # Beside the checkout's own files, where the kit makes links in place of copies, and git and the gate do not look.
    beside = f"{HERE}/.git"
    # What a call that was killed left: pathway makes one call at a time.
    for left in glob.glob(f"{beside}/lanes-*"):
        shutil.rmtree(left)
    with tempfile.TemporaryDirectory(prefix="lanes-", dir=beside if os.path.isdir(beside) else None) as room:
        build = Build(longest_first(order, named), named, lanes_in(room), room)
        failed = build.run()
        if failed:
            with open(build.log_of(failed)) as log:
                sys.stderr.write(log.read())
            say("the program is not built")
    return 6 if failed else 0


if __name__ == "__main__":
    try:
        sys.exit(main())
    except KeyboardInterrupt:
        sys.exit(6)
