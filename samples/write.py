"""Writes the albums, the texts and the lines of samples/ from what stands below: run `python3 samples/write.py`."""
from math import comb
from pathlib import Path

P = 65521


def album(lists):
    out, place = bytes([len(lists)]), 1 + 4 * len(lists)
    for c in lists:
        out += two_bytes([len(c) - 1, place])
        place += 2 * len(c)
    return out + b"".join(map(two_bytes, lists))


def two_bytes(words):
    """Each number as two bytes, low byte first."""
    return bytes(b for w in words for b in (w % 256, w // 256))


def text(lists):
    return "".join(" ".join(map(str, c)) + "\n" for c in lists)


def times(f, g):
    """The product of two lists, by its scaled form."""
    d, e = len(f) - 1, len(g) - 1
    scaled = [0] * (d + e + 1)
    for i, x in enumerate(f):
        for j, y in enumerate(g):
            scaled[i + j] += comb(d, i) * x * comb(e, j) * y
    return [s * pow(comb(d + e, k), -1, P) % P for k, s in enumerate(scaled)]


def raised(f, k):
    """The list of k more words that means the same."""
    return times(f, [1] * (k + 1))


def some_words(n, seed):
    """n words that follow no pattern."""
    words = []
    for _ in range(n):
        seed = (13849 + 25173 * seed) % P
        words.append(seed)
    return words


EXAMPLE = [[0, 1], [0, 0, 1]]
FACTOR = [3, 1, 4, 1]
SHARED = [times(FACTOR, some_words(n, n)) for n in (2, 3, 5)]
POWERS = [[1, 0], [1, 0, 0]]
# one factor 1-t in each
RAISED = [times(raised(c, k), [1, 0]) for k, c in zip((3, 2, 4), SHARED)]
ZERO_LISTS = [[0, 0, 0], SHARED[0], [0], SHARED[1]]
LOOSE_WORD = [[0, 1], [0, 0, P]]
LARGEST = [some_words(1024, k) for k in range(1, 17)]
EXAMPLE_BYTES = album(EXAMPLE)

SAMPLES = {
    "example": EXAMPLE_BYTES,
    "shared_factor": album(SHARED),
    "powers": album(POWERS),
    "factor_and_powers": album([times(c, [1] + [0] * k) for k, c in zip((3, 2, 4), SHARED)]),
    "raised_constant": album([[1, 1], [1, 1, 1]]),
    "raised_factor": album(RAISED),
    "coprime": album([some_words(n, 7 * n) for n in (4, 6, 8)]),
    "zero_lists": album(ZERO_LISTS),
    "all_zero": album([[0], [0, 0]]),
    "one_list": album([[5, 7, 0, 0]]),
    "four_lists": album([[1, 2], [3, 4], [0, 1, 4], [5, 6]]),
    "largest": album(LARGEST),
    "seventeen_lists": bytes([17]) + EXAMPLE_BYTES[1:],
    "cut": EXAMPLE_BYTES[:-1],
    "byte_too_many": EXAMPLE_BYTES + bytes(1),
    "wrong_place": EXAMPLE_BYTES[:7] + bytes([14]) + EXAMPLE_BYTES[8:],
    "degree_too_high": album([some_words(1025, 1)]),
    "loose_word": album(LOOSE_WORD),
}

# a text has the name of its album; those that are refused have none
TEXTS = {
    "example": text(EXAMPLE),
    "shared_factor": text(SHARED),
    "powers": text(POWERS),
    "zero_lists": text(ZERO_LISTS),
    "largest": text(LARGEST),
    "empty_line": text([[0, 1], [], [0, 0, 1]]),
    "word_too_large": text(LOOSE_WORD),
}

# samples/README.md names an album for each
LINES = {
    "example": "(0+1)*D 2-3",
    "from_the_left": "0-1-2",
    "derivative_first": "D 0*1",
    "no_such_list": "0+4",
    "over": "0*1",
    "two_operators": "0+-1",
    "parted_digits": "0 0+1",
    "deep": 33 * "(" + "0" + 33 * ")",
}

for name, content in SAMPLES.items():
    Path(__file__).with_name(name + ".album").write_bytes(content)
for name, content in TEXTS.items():
    Path(__file__).with_name(name + ".txt").write_bytes(content.encode())
for name, content in LINES.items():
    Path(__file__).with_name(name + ".line").write_bytes(content.encode() + b"\n")
