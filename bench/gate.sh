#!/usr/bin/env bash
# What the gate costs from nothing: for each crate the processor time of its proof, of its tests and of
# its must-fail edits, in minutes, the dearest first, and the time by the clock. With names of crates it
# is the same for these and those below them, where the kit's gate takes names. It works in a clone of what is committed.
# Interrupted, it tells what it has seen so far.
#
#     bench/gate.sh [CRATE..]
set -eu
cd "$(dirname "$0")/.."
exec python3 - "$@" << 'END'
import collections, os, re, resource, signal, subprocess, sys, tempfile, time

MARK = f"PATHWAY_GATE={os.getpid()}"
TICKS = os.sysconf("SC_CLK_TCK")
PARTS = ("proof", "tests", "edits")


def read(path):
    """The bytes of a file of /proc, none where its process is gone."""
    try:
        with open(path, "rb") as file:
            return file.read()
    except OSError:
        return b""


def part_of(pid):
    """The crate and the part for which a process works, if it tells."""
    try:
        folder = os.readlink(f"/proc/{pid}/cwd")
    except OSError:
        return None
    words = read(f"/proc/{pid}/cmdline").split(b"\0")
    if b"--crate-name" in words[:-1]:
        crate = words[words.index(b"--crate-name") + 1].decode()
    elif found := re.search(r"/crates/(\w+)", folder):
        crate = found[1]
    else:
        return None
    part = "edits" if "/rt-edit" in folder else "tests" if b"--test" in words else "proof"
    return crate, part


def sample(seen):
    """Notes the processor time of each process of the gate so far."""
    for pid in filter(str.isdigit, os.listdir("/proc")):
        if MARK.encode() not in read(f"/proc/{pid}/environ").split(b"\0"):
            continue
        fields = read(f"/proc/{pid}/stat").rpartition(b")")[2].split()
        part = part_of(pid)
        if part and len(fields) > 19:
            seen[pid, fields[19]] = part, (int(fields[11]) + int(fields[12])) / TICKS


def gate_of(crates):
    """The words that run the gate from nothing: a kit whose gate keeps what passed has a flag for that."""
    said = subprocess.run(["rt", "help"], capture_output=True, text=True)
    if "--anew" in said.stdout + said.stderr:
        return ["rt", "ci", "--anew", *crates]
    if crates:
        sys.exit("gate.sh: the gate of this kit takes no names of crates")
    return ["rt", "ci"]


def lines_of(crate):
    """The lines of a crate's code and of its specifications and proofs."""
    names = subprocess.run(["git", "ls-files", f"crates/{crate}"], capture_output=True, text=True).stdout.split()
    count = lambda end: sum(read(name).count(b"\n") for name in names if name.endswith(end))
    return count(".rt"), count(".antt")


def main(crates):
    seen, began = {}, time.monotonic()
    with tempfile.TemporaryDirectory(prefix="gate-") as room:
        subprocess.run(["git", "clone", "-q", ".", f"{room}/clone"], check=True)
        with open("/tmp/gate.log", "w") as log:
            gate = subprocess.Popen(gate_of(crates), cwd=f"{room}/clone", stdout=log,
                stderr=subprocess.STDOUT, env={**os.environ, "PATHWAY_GATE": str(os.getpid())}, start_new_session=True)
            try:
                while gate.poll() is None:
                    sample(seen)
                    time.sleep(0.5)
            except KeyboardInterrupt:
                os.killpg(gate.pid, signal.SIGTERM)
                gate.wait()
    clock = (time.monotonic() - began) / 60
    used = resource.getrusage(resource.RUSAGE_CHILDREN)
    costs = collections.defaultdict(lambda: dict.fromkeys(PARTS, 0.0))
    for (crate, part), seconds in seen.values():
        costs[crate][part] += seconds / 60
    total = lambda crate: sum(costs[crate].values())
    print(f"{'crate':20}{'minutes':>9}" + "".join(f"{part:>9}" for part in PARTS) + f"{'code':>8}{'proof':>8}")
    for crate in sorted(costs, key=total, reverse=True):
        code, proof = lines_of(crate)
        print(f"{crate:20}{total(crate):9.1f}" + "".join(f"{costs[crate][part]:9.1f}" for part in PARTS) + f"{code:8}{proof:8}")
    told = [sum(costs[crate][part] for crate in costs) for part in PARTS]
    print(f"{'all':20}{sum(told):9.1f}" + "".join(f"{it:9.1f}" for it in told))
    print(f"all processes {(used.ru_utime + used.ru_stime) / 60:.1f} processor minutes, {clock:.1f} minutes by the clock")
    print(read("/tmp/gate.log").decode(errors="replace").strip().rpartition("\n")[2])
    return gate.returncode


sys.exit(main(sys.argv[1:]))
END
