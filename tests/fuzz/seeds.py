#!/usr/bin/env python3
"""Writes seeds for the fuzz target: each text of the stored sample as raw bytes, every second one with curly primes, and as many random choices for the speller.
seeds.py SAMPLE FOLDER"""
import os
import random
import sys

random.seed(1)
with open(sys.argv[1], encoding="utf-8", newline="\n") as f:
    texts = [line.split("\t")[0].encode() for line in f.read().split("\n") if line and not line.startswith("#")]
for k, text in enumerate(texts):
    if k % 2:
        text = text.replace(b"'", ("\u2019", "\u2032")[k // 2 % 2].encode())
    for raw in (True, False):
        head = bytearray(random.randbytes(16))
        head[0], head[11], head[12] = 0xFF, random.choice((0, 1, 3, 4)), 7 if raw else 0
        with open(os.path.join(sys.argv[2], f"seed{k}{'raw' if raw else ''}"), "wb") as f:
            f.write(bytes(head) + (text if raw else random.randbytes(random.randrange(200))))
