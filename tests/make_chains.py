#!/usr/bin/env python3
"""Makes the images that tests/stack.c reads: chains of 2,048 nodes with names of one byte, the deepest with one Complex, in every edition.

    tests/make_chains.py FOLDER

In `up` each parent has a lower number than its child, in `down` a higher one. It shares no code with the library.
"""
import argparse
import os

from make_images import COMPLEX, EDITIONS, VOID
from make_listings import make

NODES = 2048


def chains():
    """Name and nodes of each chain; a node is (parent, name, kind, count), numbered from 1."""
    for edition in EDITIONS:
        up = [(k, b"x", VOID, 0) for k in range(NODES - 1)] + [(NODES - 1, b"x", COMPLEX, 1)]
        down = [(2, b"x", COMPLEX, 1)] + [(k + 1, b"x", VOID, 0) for k in range(2, NODES)] + [(0, b"x", VOID, 0)]
        yield f"up{edition}.aff", make(edition, up)
        yield f"down{edition}.aff", make(edition, down)


def write(folder):
    """Writes the images, and returns their paths."""
    os.makedirs(folder, exist_ok=True)
    paths = []
    for name, image in chains():
        paths.append(os.path.join(folder, name))
        with open(paths[-1], "wb") as file:
            file.write(image)
    return paths


if __name__ == "__main__":
    parser = argparse.ArgumentParser(description=__doc__, formatter_class=argparse.RawDescriptionHelpFormatter)
    parser.add_argument("folder", metavar="FOLDER")
    write(parser.parse_args().folder)
