"""The same as gcd.c from Python, by way of a shared object made from the static library. Build and run: examples/run"""
import ctypes
import struct
from pathlib import Path

DONE, H_LEN, ANSWER_LEN = 0, 2048, 6  # of include/bernstein.h
library = ctypes.CDLL(str(Path(__file__).resolve().parent.parent / "target/libbernstein.so"))


def call(name, *parts):
    """Calls a function on bytes and buffers, each with its length. A buffer has a byte more, so that none is null."""
    function = getattr(library, name)
    function.restype = ctypes.c_uint8
    arguments = []
    for part in parts:
        is_list = isinstance(part, bytes)
        arguments += [ctypes.c_char_p(part) if is_list else part, ctypes.c_size_t(len(part) if is_list else len(part) - 1)]
    number = function(*arguments)
    if number != DONE:
        raise SystemExit(f"refused {number}")


def put(words):
    return struct.pack(f"<{len(words)}H", *words)


def buffer(length):
    return ctypes.create_string_buffer(length + 1)


def words(part):
    return struct.unpack(f"<{(len(part) - 1) // 2}H", part.raw[:-1])


# [1, 2] times [3, 5, 1], and [1, 2] times [4, 0, 7]
h, answer = buffer(H_LEN), buffer(ANSWER_LEN)
call("bernstein_gcd", put([3, 43686, 7, 2]), put([4, 21843, 43683, 14]), h, answer)
print("w c rounds", *words(answer))
print("h", *words(h)[: words(answer)[0] + 1])

# [3, 4] by [2]: the remainder has no words
g, f = put([3, 4]), put([2])
q, r = buffer(len(g) - len(f) + 2), buffer(len(f) - 2)
call("bernstein_division", g, f, q, r)
print("q", *words(q))
