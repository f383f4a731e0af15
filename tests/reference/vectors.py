#!/usr/bin/env python3
"""Writes crates/vectors/stdin and crates/vectors/stdout: the stored vectors, with the answers of the reference beside this file, or of the Rust
(tests/oracle/sample.tsv), alone. vectors.py FOLDER writes them there instead (tests/run.sh compares them with those stored)."""
import os
import sys

import agree_vectors
import count_vectors
import entry_vectors
import listing_vectors
import long_vectors
import oracle_vectors
import prime_vectors
import reading_vectors
import refusal_vectors
import seek_vectors
import tilde_vectors
import undo_vectors

HOME = os.path.join(os.path.dirname(os.path.abspath(__file__)), "..", "..", "crates", "vectors")
MOST = 64 * 262144  # what the program reads at most: so many pieces


def main():
    groups = (reading_vectors, entry_vectors, count_vectors, refusal_vectors, seek_vectors, long_vectors, prime_vectors, tilde_vectors, undo_vectors, listing_vectors, oracle_vectors, agree_vectors)
    both = [line for group in groups for line in group.lines()]
    home = sys.argv[1] if len(sys.argv) > 1 else HOME
    for name, column in (("stdin", 0), ("stdout", 1)):
        with open(os.path.join(home, name), "w") as f:
            f.write("".join(line[column] + "\n" for line in both))
    size = os.path.getsize(os.path.join(home, "stdin"))
    assert size <= MOST, size
    print(len(both), "cases,", size, "bytes")


if __name__ == "__main__":
    main()
