"""Looks at what a call finds in a folder: all that it has to, and nothing else."""
import os, pathlib, tempfile, typing

from crashing import program
from crashing.ledger import READS, Ledger, found_in

# The folders that are tried lie in memory where that can be, since what they lose is said by the model and not by the disk.
ROOM = "/dev/shm" if os.access("/dev/shm", os.W_OK) else None
AGAIN = Ledger(999, 2, 2)


def put(folder, files):
    """Makes a folder of these files, by their names below it."""
    for name, content in files.items():
        path = pathlib.Path(folder, name)
        path.parent.mkdir(parents=True, exist_ok=True)
        path.write_bytes(content)


def taken(folder):
    """The files of a folder, by their names below it."""
    paths = [it for it in sorted(pathlib.Path(folder).rglob("*")) if it.is_file() and not it.is_symlink()]
    return {str(it.relative_to(folder)): it.read_bytes() for it in paths}


class Wanted(typing.NamedTuple):
    """The units that are to be found: all of `before`, and of `order` the first ones, as many as `counts` has."""

    before: frozenset
    order: list
    counts: frozenset

    def least(self):
        return min(self.counts)

    def amiss(self, keys):
        """What is amiss with the units that were found, or nothing."""
        if lost := self.before - keys:
            return f"{len(lost)} units from before are lost: {sorted(lost)[:5]}"
        more = keys - self.before
        count = len(more)
        if lost := [key for key in self.order[: self.least()] if key not in more]:
            return f"{len(lost)} units that were told are lost: {lost[:5]}"
        if more != set(self.order[:count]):
            return f"{count} units were found, and they are not the first ones"
        if count not in self.counts:
            return f"{count} units were found, of {sorted(self.counts)}"
        return ""


def judged(folder, wanted, goes_on=False):
    """Opens the store in a folder with a deck that only reads: what is amiss, or nothing; and how many units there are. With `goes_on`
    another run has to add its own units, and a last call has to find all of them."""
    ran = program.call(folder, READS)
    if ran.status != 0:
        return f"status {ran.status}: {(ran.output + ran.error).strip()[:200]}", 0
    found = found_in(ran.output)
    amiss = found.amiss or wanted.amiss(found.keys)
    if not amiss and goes_on:
        ran = program.call(folder, AGAIN.deck, *program.FOLLOW)
        added = AGAIN.units(ran.output) if ran.status == 0 else []
        again = found_in(program.call(folder, READS).output)
        if ran.status != 0 or again.amiss or len(added) != 4 or again.keys != found.keys | set(added):
            amiss = f"the next run ends with status {ran.status}, and then {again.amiss or sorted(again.keys ^ found.keys)[:5]}"
    return amiss, len(found.keys)


def state_judged(state, wanted, goes_on=False):
    """The same of a state: the files below the folder above the store's, or None where the folder is not there."""
    if state is None or not any(name.startswith("store") for name in state):
        state = {}
    with tempfile.TemporaryDirectory(dir=ROOM) as room:
        put(room, state)
        os.makedirs(f"{room}/store", exist_ok=True)
        return judged(f"{room}/store", wanted, goes_on)
