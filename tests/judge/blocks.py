"""Blocks of 128 little-endian words: turning bytes into words and back, the running check, sealing."""

import struct
from collections.abc import Sequence

WORDS = 128
SIZE = 4 * WORDS
CHECK = WORDS - 1
MASK = 0xFFFF_FFFF


def words_of(data: bytes) -> list[int]:
    """The words of bytes whose length is a multiple of four."""
    return list(struct.unpack(f"<{len(data) // 4}I", data))


def bytes_of(words: Sequence[int]) -> bytes:
    """The bytes of some words, low byte first."""
    return struct.pack(f"<{len(words)}I", *words)


def check_of(words: Sequence[int], block: int) -> int:
    """The check that block number `block` of the file should carry in its last word."""
    total = block + 1
    for word in words[WORDS * block : WORDS * block + CHECK]:
        # The bit pushed above bit 31 by the shift comes back at bit 0; the mask removes its old place.
        total = ((total << 1) + (total >> 31) + word) & MASK
    return total


def sealed(words: Sequence[int], block: int) -> bool:
    """Whether the block carries the check it should."""
    return words[WORDS * block + CHECK] == check_of(words, block)


def seal(words: list[int], only: Sequence[int] | None = None) -> None:
    """Writes the right check into every block, or into the blocks named."""
    for block in range(len(words) // WORDS) if only is None else only:
        words[WORDS * block + CHECK] = check_of(words, block)
