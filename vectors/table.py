#!/usr/bin/env python3
"""Prints the table of 1,152 tail products, a constant of the source code.

The entry at 6 n + l is the number of the tail that equals tail n times letter l
on its right, phase included, l counted in H W X Y Z S. Computed by exact matrices.
"""

import sys

sys.dont_write_bytecode = True

import oracle

TABLE_LETTERS = b"HWXYZS"


def tail_product(tail, letter):
    product = oracle.record_product(
        oracle.matrix_of(tail), oracle.LETTER_MATRIX[letter]
    )
    return oracle.TAIL_NUMBER_OF_MATRIX[oracle.least(product)]


def tail_products():
    return [
        tail_product(tail, letter) for tail in oracle.TAILS for letter in TABLE_LETTERS
    ]


def main():
    """One tail a line."""
    entries = tail_products()
    rows = [entries[i : i + 6] for i in range(0, len(entries), 6)]
    print(",\n".join(", ".join(map(str, row)) for row in rows))


if __name__ == "__main__":
    main()
