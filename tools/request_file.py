"""The block that a request file is: the words at their places in docs/FORMAT.md, and the check behind them."""
import struct
from collections.abc import Sequence


def words_of(inputs: Sequence[int], outputs: Sequence[int], rows: Sequence[Sequence[int]]) -> list[int]:
    """The 127 words of content, from the capacities of both sides and the demands, a row for each input."""
    content = [0] * 127
    content[0:3] = [1, len(inputs), len(outputs)]
    content[3 : 3 + len(inputs)] = inputs
    content[11 : 11 + len(outputs)] = outputs
    for u, row in enumerate(rows):
        content[19 + 8 * u : 19 + 8 * u + len(row)] = row
    return content


def check_of(content: Sequence[int]) -> int:
    """The running sum over block 0: rotate left by one bit, add the word, drop the carry."""
    total = 1
    for word in content:
        total = ((total << 1 | total >> 31) + word) & 0xFFFFFFFF
    return total


def file_of(inputs: Sequence[int], outputs: Sequence[int], rows: Sequence[Sequence[int]]) -> bytes:
    """The 512 bytes of a request with at most 8 ports on each side; its numbers have to fit 32 bits, no more."""
    content = words_of(inputs, outputs, rows)
    return struct.pack("<128I", *content, check_of(content))
