"""Damaged files: one or more faults at once, broken seals, wrong lengths."""

from random import Random

import blocks
from blocks import CHECK, MASK, WORDS
from faults import Fault


def break_seal(rng: Random, words: list[int]) -> None:
    """Changes a file without sealing it again: one bit, one word, two words exchanged, a wrong seal."""
    at, other = rng.randrange(len(words)), rng.randrange(len(words))
    block = rng.randrange(len(words) // WORDS)
    seal = WORDS * block + CHECK
    pick = rng.randrange(5)
    if pick == 0:
        words[at] ^= 1 << rng.randrange(32)
    elif pick == 1:
        words[at] = rng.randint(0, MASK)
    elif pick == 2:
        words[at], words[other] = words[other], words[at]
    elif pick == 3:
        words[seal] = rng.choice((0, MASK, words[seal] ^ 1))
    else:
        # The seal that the same content would have one block further on.
        words[seal] = blocks.check_of([0] * WORDS + words, block + 1)


def wrong_length(rng: Random, data: bytes) -> bytes:
    """The bytes cut or drawn out to some other length."""
    lengths = [0, 1, 4, 511, 512, 513, 1024, 1535, 1536, 1537, 2048, 4096, rng.randrange(4097)]
    length = rng.choice([length for length in lengths if length != len(data)])
    return (data + rng.choice((bytes(4096), data * 8)))[:length]


def damaged(rng: Random, words: list[int], faults: tuple[Fault, ...]) -> bytes:
    """The file with one to three faults; mostly sealed again, so that the later rows are reached."""
    words = list(words)
    pick = rng.random()
    if pick < 0.9:
        for fault in rng.choices(faults, k=rng.choice((1, 1, 1, 2, 3))):
            fault(rng, words)
    if pick < 0.85:
        blocks.seal(words)
    if pick > 0.8:
        break_seal(rng, words)
    data = blocks.bytes_of(words)
    return wrong_length(rng, data) if rng.random() < 0.06 else data
