"""The pieces of a store's files, by docs/design/STORAGE.md."""
import struct

SHUT, OPEN, HEAD = b"SHUT", b"OPEN", 20


def pieces_of(trail):
    """The extents of a trail, each whole with its gate, and what begins with the shut gate."""
    pieces, at = [], 0
    while trail[at : at + 4] != SHUT:
        if at + HEAD > len(trail):
            raise ValueError(f"there is no extent at {at}")
        (length,) = struct.unpack_from(">I", trail, at + 4)
        pieces.append(trail[at : at + HEAD + length])
        at += HEAD + length
    return pieces, trail[at:]


def joined(pieces, end):
    return b"".join(pieces) + end
