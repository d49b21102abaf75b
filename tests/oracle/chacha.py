"""The random words of a run: by seed, stream and place (docs/WORLD.md, "Random words").

The words are the keystream of ChaCha20 (the block function of RFC 8439), with the seed as key,
a 64-bit counter from 0 and the stream as a 64-bit nonce.
"""

from functools import lru_cache

MASK = 0xFFFFFFFF
CONSTANTS = (0x61707865, 0x3320646E, 0x79622D32, 0x6B206574)
COLUMNS = ((0, 4, 8, 12), (1, 5, 9, 13), (2, 6, 10, 14), (3, 7, 11, 15))
DIAGONALS = ((0, 5, 10, 15), (1, 6, 11, 12), (2, 7, 8, 13), (3, 4, 9, 14))


def quarter_round(x, a, b, c, d):
    """Changes four words of the state `x` as RFC 8439, section 2.1, says."""
    i, j, k, l = x[a], x[b], x[c], x[d]
    i = (i + j) & MASK
    l ^= i
    l = (l << 16 & MASK) | l >> 16
    k = (k + l) & MASK
    j ^= k
    j = (j << 12 & MASK) | j >> 20
    i = (i + j) & MASK
    l ^= i
    l = (l << 8 & MASK) | l >> 24
    k = (k + l) & MASK
    j ^= k
    x[a], x[b], x[c], x[d] = i, (j << 7 & MASK) | j >> 25, k, l


@lru_cache(maxsize=4096)
def block(seed, stream, counter):
    """Returns the 16 words of a block. `seed` has 32 bytes; the other two are below 2**64."""
    key = [int.from_bytes(seed[i:i + 4], "little") for i in range(0, 32, 4)]
    start = [*CONSTANTS, *key, counter & MASK, counter >> 32, stream & MASK, stream >> 32]
    x = list(start)
    for _ in range(10):
        for places in COLUMNS:
            quarter_round(x, *places)
        for places in DIAGONALS:
            quarter_round(x, *places)
    return tuple((word + first) & MASK for word, first in zip(x, start))


def word(seed, stream, place):
    """Returns the word at a place (from 0) of a stream: a number below 2**32."""
    return block(seed, stream, place // 16)[place % 16]
