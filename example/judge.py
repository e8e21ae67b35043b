"""Judges products through the shared library, one line for each.

    python3 judge.py LIBRARY PRODUCT ..
"""
import ctypes
import os
import sys

VERDICT_WORDS = 3  # AMBROTHEL_VERDICT_WORDS of include/ambrothel.h


def open_library(path):
    """The library, with what its call takes and returns."""
    library = ctypes.CDLL(os.path.abspath(path))
    words = ctypes.POINTER(ctypes.c_uint64)
    library.ambrothel_judge.argtypes = [ctypes.c_char_p, ctypes.c_size_t, words, ctypes.c_size_t]
    library.ambrothel_judge.restype = ctypes.c_uint32
    return library


def judge(library, product):
    """The number of the refusal, its place and its entry; three zeros where the product is accepted."""
    words = (ctypes.c_uint64 * VERDICT_WORDS)()
    returned = library.ambrothel_judge(product, len(product), words, VERDICT_WORDS)
    if returned != 0:
        raise ValueError(f"ambrothel_judge returned {returned}")
    return tuple(words)


def main():
    if len(sys.argv) < 3:
        sys.exit(__doc__)
    library = open_library(sys.argv[1])
    for name in sys.argv[2:]:
        with open(name, "rb") as file:
            number, place, entry = judge(library, file.read())
        print(f"{name}: refused {number} {place} {entry}" if number else f"{name}: accepted")


main()
