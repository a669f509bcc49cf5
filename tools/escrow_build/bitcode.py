"""Whether a file has the whole of an LLVM module, and isn't cut off."""

from __future__ import annotations

import struct

_MAGIC = b"BC\xc0\xde"
# At the top of a module stand blocks alone: an abbreviation of two bits says so, and the block's length in words of four bytes follows.
_ENTER_BLOCK = 1


def is_whole(data: bytes) -> bool:
    """Whether the blocks of a module, one behind the other, end exactly where the data does."""
    if not data.startswith(_MAGIC) or len(data) % 4 != 0:
        return False
    at = len(_MAGIC)
    while at + 8 <= len(data):
        head, length = struct.unpack_from("<II", data, at)
        if head & 3 != _ENTER_BLOCK:
            return False
        at += 8 + 4 * length
    return at == len(data) > len(_MAGIC)
