"""A model of a disk: what was synced is there; of what was not, any part may be.

A file's changes since its last sync are kept, and a folder's new names since its own. A crash leaves of a file's changes any subset, in any
order, each whole or torn; a part of a file that grew may be zeros, or other bytes; and of the names any subset, each at once."""
import typing


class Change(typing.NamedTuple):
    """A change of a file that was not synced: `data` at `at`, or a cut to the length `at` where `data` is None."""

    at: int
    data: typing.Optional[bytes]


class Inode:
    """A file: what its last sync left, and what has changed since."""

    def __init__(self, settled=b""):
        self.settled, self.changes = settled, []

    def now(self):
        """What a read gives."""
        return made(self.settled, self.changes)


def made(content, changes):
    """What changes make of a content."""
    content = bytearray(content)
    for change in changes:
        if change.data is None:
            del content[change.at :]
            content.extend(bytes(change.at - len(content)))
        else:
            content.extend(bytes(max(0, change.at - len(content))))
            content[change.at : change.at + len(change.data)] = change.data
    return bytes(content)


def folder_of(name):
    """The folder in which a name stands."""
    return name.rpartition("/")[0]


class Disk:
    """The files and folders by their names, as calls see them (`names`) and as the last syncs left them (`settled`)."""

    FOLDER = "folder"

    def __init__(self, files, is_made=True):
        """A disk with these files by name, all synced. The store's folder is there too, but where it is to be made."""
        self.settled = {"store": self.FOLDER} if is_made else {}
        self.settled |= {name: Inode(content) for name, content in files.items()}
        self.names = dict(self.settled)
        # What was done to names and not synced: each is what becomes of some names at once.
        self.steps = []

    def take(self, event, keeps=True):
        """What an event of a run makes of the disk. A sync that is not to be kept does nothing."""
        kind, name = event.kind, event.name
        if kind in ("make", "folder"):
            self.step({name: Inode() if kind == "make" else self.FOLDER})
        elif kind == "rename":
            self.step({event.other: self.names[name], name: None})
        elif kind == "unlink":
            self.step({name: None})
        elif kind == "write":
            self.names[name].changes.append(Change(event.at, event.data))
        elif kind == "cut":
            self.names[name].changes.append(Change(event.at, None))
        elif kind == "sync" and keeps:
            self.sync(name)

    def step(self, names):
        self.steps.append(names)
        for name, it in names.items():
            self.names[name] = it

    def sync(self, name):
        """A sync of a file, or of a folder."""
        it = self.names.get(name, self.FOLDER)
        if it is not self.FOLDER:
            it.settled, it.changes = it.now(), []
            return
        left = []
        for step in self.steps:
            if any(folder_of(one) == name for one in step):
                self.settled |= step
            else:
                left.append(step)
        self.steps = left

    def open_files(self):
        """The files that have changes, each once, in a fixed order."""
        them = []
        for it in [*self.settled.values(), *(it for step in self.steps for it in step.values())]:
            if isinstance(it, Inode) and it.changes and it not in them:
                them.append(it)
        return them

    def image(self, steps, contents):
        """The files that a crash leaves: of the names these steps, and of the files these contents, or what they settled."""
        names = dict(self.settled)
        for step in steps:
            names |= step
        if names.get("store") is None:
            return None
        return {name: contents.get(id(it), it.settled) for name, it in names.items() if isinstance(it, Inode)}


class Crashes:
    """The states in which a crash may leave a disk: all that are systematic, and as many as are wanted that are drawn."""

    SECTOR = 512

    def __init__(self, disk):
        self.disk, self.files = disk, disk.open_files()

    def prefixes(self):
        """The steps of names that are there: each beginning of them, and each of them alone missing."""
        steps = self.disk.steps
        them = [steps[:count] for count in range(len(steps) + 1)]
        return them + [steps[:at] + steps[at + 1 :] for at in range(len(steps) - 1)]

    def systematic(self):
        """Each state in which one file is in the midst of its changes, and all others are whole or as they were."""
        for steps in self.prefixes():
            for others in (False, True):
                rest = {id(it): it.now() for it in self.files} if others else {}
                yield self.disk.image(steps, rest)
                for file in self.files:
                    for content in self.contents(file):
                        yield self.disk.image(steps, rest | {id(file): content})

    def contents(self, file):
        """What is left of one file: each change missing, alone, or the last one, torn."""
        changes = file.changes
        for at in range(len(changes)):
            yield made(file.settled, changes[: at + 1])
            yield made(file.settled, changes[:at] + changes[at + 1 :])
            yield made(file.settled, changes[at : at + 1])
            for piece in self.tears(changes[at]):
                yield made(file.settled, changes[:at] + piece)
                yield made(file.settled, changes[:at] + piece + changes[at + 1 :])

    def tears(self, change):
        """The change in part: its beginning or its end up to each sector, and up to its first and last bytes and its middle."""
        if change.data is None or len(change.data) < 2:
            return
        length = len(change.data)
        sectors = range(self.SECTOR - change.at % self.SECTOR, length, self.SECTOR)
        for at in sorted({1, 2, 3, 4, length // 2, length - 1, *sectors}):
            if 0 < at < length:
                yield [change._replace(data=change.data[:at])]
                yield [Change(change.at + at, change.data[at:])]
                # The file has grown, and what it grew by was not written.
                yield [Change(change.at, bytes(length)), change._replace(data=change.data[:at])]

    def draw(self, drawn):
        """Any state."""
        steps = [it for it in self.disk.steps if drawn.random() < 0.5] if drawn.random() < 0.5 else drawn.choice(self.prefixes())
        return self.disk.image(steps, {id(it): self.drawn_content(it, drawn) for it in self.files})

    def drawn_content(self, file, drawn):
        kept = [it for it in file.changes if drawn.random() < 0.7]
        if drawn.random() < 0.3:
            drawn.shuffle(kept)
        pieces = []
        for change in kept:
            pieces += self.torn(change, drawn) if drawn.random() < 0.6 else [change]
        return made(file.settled, pieces)

    def torn(self, change, drawn):
        """A change of which any sectors are made, or any run of its bytes, with zeros, other bytes or what was there around them."""
        if change.data is None or not change.data:
            return [change]
        length = len(change.data)
        around = drawn.choice((None, None, bytes(length), drawn.randbytes(length)))
        pieces = [] if around is None else [Change(change.at, around)]
        if drawn.random() < 0.5:
            cuts = sorted((drawn.randrange(length + 1), drawn.randrange(length + 1)))
            return [*pieces, Change(change.at + cuts[0], change.data[cuts[0] : cuts[1]])]
        ends = [*range(self.SECTOR - change.at % self.SECTOR, length, self.SECTOR), length]
        for begin, end in zip([0, *ends], ends):
            if drawn.random() < 0.5:
                pieces.append(Change(change.at + begin, change.data[begin:end]))
        return pieces
