#!/usr/bin/env python3
"""Prints the table of crates/vectors/src/pdf417.rt: data words with their check words.

The checks are those of a PDF417 symbol of error correction level 1, made as that symbology
describes it: division by the level's generator polynomial with a shift register over the
numbers modulo 929. The coefficients are the published ones of level 1. Nothing of this
repository is used. Run: python3 tests/pdf417.py > crates/vectors/src/pdf417.rt
"""

import random

COEFFICIENTS = [522, 568, 723, 809]  # of x^0 to x^3
MODULUS = 929
DATA = 8
ROWS = 20


def checks(data):
    register = [0, 0, 0, 0]
    for word in data:
        feedback = (word + register[3]) % MODULUS
        for j in (3, 2, 1, 0):
            below = register[j - 1] if j else 0
            register[j] = (below + MODULUS - feedback * COEFFICIENTS[j] % MODULUS) % MODULUS
    return [(MODULUS - c) % MODULUS for c in reversed(register)]


def main():
    random.seed(417)
    print("// Data words with the check words of a PDF417 symbol of error correction level 1.")
    print("// Printed by tests/pdf417.py, which uses nothing of this repository.")
    print()
    print(f"pub const WORDS: [[u32; {DATA + 4}]; {ROWS}] = [")
    for _ in range(ROWS):
        data = [random.randrange(MODULUS) for _ in range(DATA)]
        print("    [" + ", ".join(str(n) for n in data + checks(data)) + "],")
    print("];")


main()
