#!/usr/bin/env python3
"""yearbook.py JOURNAL [FOLDER]: prints the listing of a journal, then a maximum demand divided among three consumers.

FOLDER holds libyearbook.so.1 and libshare.so.1; without it the system finds them by name."""
import ctypes
import os
import struct
import sys

# yearbook.h: no listing is longer
LISTING_MAX = 45288


def library(name, folder):
    """a library of the firm capacity book"""
    file = f"lib{name}.so.1"
    return ctypes.CDLL(os.path.join(os.path.abspath(folder), file) if folder else file)


def listing(yearbook, journal):
    """the listing of the bytes of a journal"""
    yearbook_list = yearbook.yearbook_list
    yearbook_list.restype = ctypes.c_uint32
    yearbook_list.argtypes = [
        ctypes.c_char_p, ctypes.c_size_t,
        ctypes.c_char_p, ctypes.c_size_t,
        ctypes.POINTER(ctypes.c_uint64),
    ]
    text = ctypes.create_string_buffer(LISTING_MAX)
    written = ctypes.c_uint64()
    number = yearbook_list(journal, len(journal), text, len(text), ctypes.byref(written))
    if number != 0:
        raise ValueError(f"yearbook_list answers {number}")
    return text.raw[: written.value].decode("ascii")


def divide(share, total, weights):
    """the amounts of a total that is divided by weights, in whole units"""
    share_divide = share.share_divide
    share_divide.restype = ctypes.c_uint32
    share_divide.argtypes = [
        ctypes.c_uint64,
        ctypes.c_char_p, ctypes.c_size_t,
        ctypes.c_char_p, ctypes.c_size_t,
    ]
    lent = struct.pack(f"<{len(weights)}I", *weights)
    amounts = ctypes.create_string_buffer(8 * len(weights))
    number = share_divide(total, lent, len(lent), amounts, len(amounts))
    if number != 0:
        raise ValueError(f"share_divide answers {number}")
    return list(struct.unpack(f"<{len(weights)}Q", amounts.raw))


def main(words):
    if len(words) not in (1, 2):
        sys.exit("usage: yearbook.py JOURNAL [FOLDER]")
    folder = words[1] if len(words) == 2 else None
    try:
        with open(words[0], "rb") as file:
            journal = file.read()
        print(listing(library("yearbook", folder), journal), end="")
        print("10000 kW by 1000, 1000, 1000:", *divide(library("share", folder), 10000, [1000, 1000, 1000]))
    except (OSError, ValueError) as error:
        sys.exit(f"yearbook.py: {error}")


if __name__ == "__main__":
    main(sys.argv[1:])
