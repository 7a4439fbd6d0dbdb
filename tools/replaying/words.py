"""Words that the tools have in common which replay traces."""
import argparse
import os

LEAST_HEAP, MOST_HEAP = 16, 4_194_304


def heap(text):
    if not text.isascii() or not text.isdigit() or not LEAST_HEAP <= int(text) <= MOST_HEAP:
        raise argparse.ArgumentTypeError(f"{text!r} is no number of words from {LEAST_HEAP} to {MOST_HEAP}")
    return int(text)


def beside(path, ending):
    """The file of the same recording with another ending."""
    return os.path.splitext(path)[0] + ending
