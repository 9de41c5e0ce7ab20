#!/usr/bin/env python3
"""Independent oracle: Matsumoto-Amano normal forms by exact matrices.

The answers here come from whole-number arithmetic of any size and never from
a table of letters on tails. A string is multiplied out to its exact matrix.
The rotation matrix of that, over Z[sqrt 2], names the leftmost syllable by
the parities of its rows; syllables are taken off the left until the exponent
is 0. What is then left of the exact matrix, phase included, is looked up
among the 192 tails. A wrong syllable would leave no tail, so each form
that comes out has the right matrix.

Commands:  letters, frames, call_tests   lines from standard input, answers out
           make DIR, check DIR      the stored tests, in DIR/crates/PROGRAM/
           selftest                 the claims that the oracle rests on
"""

import argparse
import functools
import re
import sys
from typing import NamedTuple

sys.dont_write_bytecode = True

# --- Limits and numbers of document 01 ---------------------------------------

LETTERS = b"HSTWXYZ"
STRING_LIMIT = 4096
FORM_LIMIT = 12301
EXPONENT_LIMIT = 40
COEFFICIENT_LIMIT = 1048576
FRAME_LENGTH = 138
CHECK_WORD_PLACE = 130
WORD = 2**32

BAD_LETTER = 1
TEXT_TOO_LONG = 2
NO_ROOM = 3
EXPONENT_TOO_LARGE = 4
COEFFICIENT_TOO_LARGE = 5
NOT_UNITARY = 6
NOT_A_FORM = 7
LEAST_EXPONENT_TOO_LARGE = 8
NOT_A_FRAME = 9
CHECK_WORD_WRONG = 10


class Refusal(Exception):
    """Number and place; comparison adds which string it concerns."""

    def __init__(self, number, place, which=None):
        super().__init__(number, place, which)
        self.number = number
        self.place = place
        self.which = which


# --- Ring elements: (a0, a1, a2, a3) is a0 + a1 w + a2 w^2 + a3 w^3 ----------

ZERO = (0, 0, 0, 0)
ONE = (1, 0, 0, 0)
MINUS_ONE = (-1, 0, 0, 0)
OMEGA = (0, 1, 0, 0)
OMEGA_SQUARED = (0, 0, 1, 0)
ROOT_TWO = (0, 1, 0, -1)


def ring_sum(a, b):
    return (a[0] + b[0], a[1] + b[1], a[2] + b[2], a[3] + b[3])


def ring_product(a, b):
    """Product with w^4 = -1."""
    a0, a1, a2, a3 = a
    b0, b1, b2, b3 = b
    return (
        a0 * b0 - a1 * b3 - a2 * b2 - a3 * b1,
        a0 * b1 + a1 * b0 - a2 * b3 - a3 * b2,
        a0 * b2 + a1 * b1 + a2 * b0 - a3 * b3,
        a0 * b3 + a1 * b2 + a2 * b1 + a3 * b0,
    )


def conjugate(a):
    return (a[0], -a[3], -a[2], -a[1])


def root_two_divides(a):
    return (a[0] - a[2]) % 2 == 0 and (a[1] - a[3]) % 2 == 0


def divided_by_root_two(a):
    """Times sqrt 2, then an exact halving."""
    doubled = ring_product(a, ROOT_TWO)
    return tuple(coefficient // 2 for coefficient in doubled)


# --- Records: (exponent, (top left, top right, bottom left, bottom right)) ---


def record_product(first, second):
    (j, (a, b, c, d)), (k, (e, f, g, h)) = first, second
    return j + k, (
        ring_sum(ring_product(a, e), ring_product(b, g)),
        ring_sum(ring_product(a, f), ring_product(b, h)),
        ring_sum(ring_product(c, e), ring_product(d, g)),
        ring_sum(ring_product(c, f), ring_product(d, h)),
    )


def adjoint(record):
    exponent, (a, b, c, d) = record
    return exponent, (conjugate(a), conjugate(c), conjugate(b), conjugate(d))


def least(record):
    exponent, elements = record
    while exponent > 0 and all(map(root_two_divides, elements)):
        exponent -= 1
        elements = tuple(map(divided_by_root_two, elements))
    return exponent, elements


def times_omega(record):
    exponent, elements = record
    return exponent, tuple(ring_product(OMEGA, element) for element in elements)


def is_unitary(record):
    """The adjoint times the record is 2^k times the identity, before division."""
    size = (2 ** record[0], 0, 0, 0)
    return record_product(adjoint(record), record)[1] == (size, ZERO, ZERO, size)


def record_of(exponent, coefficients):
    elements = tuple(tuple(coefficients[i : i + 4]) for i in range(0, 16, 4))
    return exponent, elements


def coefficients_of(record):
    return [coefficient for element in record[1] for coefficient in element]


# --- Matrices of letters and of strings --------------------------------------

IDENTITY = (0, (ONE, ZERO, ZERO, ONE))
LETTER_MATRIX = {
    ord("H"): (1, (ONE, ONE, ONE, MINUS_ONE)),
    ord("S"): (0, (ONE, ZERO, ZERO, OMEGA_SQUARED)),
    ord("T"): (0, (ONE, ZERO, ZERO, OMEGA)),
    ord("W"): (0, (OMEGA, ZERO, ZERO, OMEGA)),
    ord("X"): (0, (ZERO, ONE, ONE, ZERO)),
    ord("Y"): (0, (ZERO, (0, 0, -1, 0), OMEGA_SQUARED, ZERO)),
    ord("Z"): (0, (ONE, ZERO, ZERO, MINUS_ONE)),
}
BLOCK_LENGTH = 4


@functools.lru_cache(maxsize=None)
def matrix_of_block(block):
    record = IDENTITY
    for letter in block:
        record = record_product(record, LETTER_MATRIX[letter])
    return least(record)


def matrix_of(text):
    """Least record of a string. Neighbours meet in pairs, so that most products
    are of small numbers."""
    places = range(0, len(text), BLOCK_LENGTH)
    records = [matrix_of_block(text[i : i + BLOCK_LENGTH]) for i in places]
    while len(records) > 1:
        pairs = zip(records[0::2], records[1::2])
        rest = records[-1:] if len(records) % 2 else []
        records = [least(record_product(*pair)) for pair in pairs] + rest
    return records[0] if records else IDENTITY


# --- Rotation matrices: (exponent, three rows of (a, b)) is (a + b sqrt 2) / sqrt 2^m

PAULIS = [LETTER_MATRIX[letter] for letter in b"XYZ"]


def real_trace(record):
    """The trace as (a, b); it is real, so w^2 has no part and w^3 that of -w."""
    a0, a1, a2, a3 = ring_sum(record[1][0], record[1][3])
    assert a2 == 0 and a3 == -a1
    return a0, a1


def rotation_of(record):
    """Half traces of P U Q U-adjoint: two more in the exponent for the half."""
    turned = [
        record_product(record_product(record, column), adjoint(record))
        for column in PAULIS
    ]
    rows = [
        [real_trace(record_product(row, matrix)) for matrix in turned]
        for row in PAULIS
    ]
    return least_rotation(2 * record[0] + 2, rows)


def is_even_row(row):
    return all(a % 2 == 0 for a, _ in row)


def least_rotation(exponent, rows):
    """(a + b sqrt 2) / sqrt 2 = b + (a / 2) sqrt 2, while all parities are even."""
    while exponent > 0 and all(map(is_even_row, rows)):
        exponent -= 1
        rows = [[(b, a // 2) for a, b in row] for row in rows]
    return exponent, rows


def row_times_columns(row, columns):
    """One row of a product; zeros are skipped, they are most of a syllable."""
    factors = [(i, c, d) for i, (c, d) in enumerate(row) if c or d]
    return [
        (
            sum(c * column[i][0] + 2 * d * column[i][1] for i, c, d in factors),
            sum(c * column[i][1] + d * column[i][0] for i, c, d in factors),
        )
        for column in columns
    ]


def rotation_product(first, second):
    columns = list(zip(*second[1]))
    rows = [row_times_columns(row, columns) for row in first[1]]
    return least_rotation(first[0] + second[0], rows)


SYLLABLE_OF_EVEN_ROW = (b"HT", b"SHT", b"T")
ROTATION_OFF = {
    syllable: rotation_of(adjoint(matrix_of(syllable)))
    for syllable in SYLLABLE_OF_EVEN_ROW
}


def leftmost_syllable(rotation):
    even = [is_even_row(row) for row in rotation[1]]
    assert even.count(True) == 1
    return SYLLABLE_OF_EVEN_ROW[even.index(True)]


def syllables_of(rotation):
    syllables = []
    while rotation[0] > 0:
        syllable = leftmost_syllable(rotation)
        rest = rotation_product(ROTATION_OFF[syllable], rotation)
        assert rest[0] == rotation[0] - 1
        syllables.append(syllable)
        rotation = rest
    return syllables


# --- Tails and forms ---------------------------------------------------------

TAIL_COUNT = 192


def tail_text(number):
    """Spelling of tail 64 h + 32 b + 8 c + a."""
    start = (b"", b"H", b"SH")[number // 64]
    x, s, w = number // 32 % 2, number // 8 % 4, number % 8
    return start + b"X" * x + b"S" * s + b"W" * w


TAILS = [tail_text(number) for number in range(TAIL_COUNT)]
TAIL_NUMBER_OF_TEXT = {text: number for number, text in enumerate(TAILS)}
TAIL_NUMBER_OF_MATRIX = {matrix_of(text): n for n, text in enumerate(TAILS)}

# Greedy is right: a T after H can only end a syllable, an H after S only belong
# to SH, so the match ends where the longest prefix that is a form ends.
FORM = re.compile(rb"(?P<front>T?(?:HT|SHT)*)(?P<tail>(?:H|SH)?X?S{0,3}W{0,7})")


def form_of(record):
    """The form with exactly this matrix, for a unitary record."""
    front = b"".join(syllables_of(rotation_of(least(record))))
    rest = least(record_product(adjoint(matrix_of(front)), record))
    form = front + TAILS[TAIL_NUMBER_OF_MATRIX[rest]]
    assert FORM.fullmatch(form)
    return form


def t_count(form):
    return form.count(b"T")


def h_count(form):
    """Syllables HT and SHT: HT stands once in each and nowhere else."""
    return form.count(b"HT")


# --- The calls of document 01 ------------------------------------------------


class FormAnswer(NamedTuple):
    form: bytes
    t_count: int
    h_count: int


class ReaderAnswer(NamedTuple):
    length: int
    t_count: int
    h_count: int
    tail: int


def refuse_text(text, limit):
    if len(text) > limit:
        raise Refusal(TEXT_TOO_LONG, limit)
    for place, letter in enumerate(text):
        if letter not in LETTERS:
            raise Refusal(BAD_LETTER, place)


def refuse_record(exponent, coefficients):
    if exponent > EXPONENT_LIMIT:
        raise Refusal(EXPONENT_TOO_LARGE, 0)
    for index, coefficient in enumerate(coefficients):
        if not -COEFFICIENT_LIMIT <= coefficient <= COEFFICIENT_LIMIT:
            raise Refusal(COEFFICIENT_TOO_LARGE, index)
    if not is_unitary(record_of(exponent, coefficients)):
        raise Refusal(NOT_UNITARY, 0)


def fitted(answer, room):
    if len(answer) > room:
        raise Refusal(NO_ROOM, len(answer))
    return answer


def form_answer(record, room):
    form = fitted(form_of(record), room)
    return FormAnswer(form, t_count(form), h_count(form))


def string_to_form(text, room):
    refuse_text(text, STRING_LIMIT)
    return form_answer(matrix_of(text), room)


def string_to_matrix(text):
    """The least record: exponent and sixteen coefficients."""
    refuse_text(text, STRING_LIMIT)
    record = matrix_of(text)
    if record[0] > EXPONENT_LIMIT:
        raise Refusal(LEAST_EXPONENT_TOO_LARGE, 0)
    return record[0], coefficients_of(record)


def read_form(text):
    refuse_text(text, FORM_LIMIT)
    match = FORM.match(text)
    if match.end() < len(text):
        raise Refusal(NOT_A_FORM, match.end())
    tail = TAIL_NUMBER_OF_TEXT[match["tail"]]
    return ReaderAnswer(len(text), t_count(text), h_count(text), tail)


def refuse_compared(text, which):
    try:
        refuse_text(text, STRING_LIMIT)
    except Refusal as refusal:
        raise Refusal(refusal.number, refusal.place, which) from None


def compare(first, second):
    """0 for same, 1 to 7 for the phase j of first = w^j second, None for different."""
    refuse_compared(first, "first")
    refuse_compared(second, "second")
    wanted, turned = matrix_of(first), matrix_of(second)
    for phase in range(8):
        if wanted == turned:
            return phase
        turned = times_omega(turned)
    return None


def matrix_to_form(exponent, coefficients, room):
    refuse_record(exponent, coefficients)
    return form_answer(record_of(exponent, coefficients), room)


# --- Frames ------------------------------------------------------------------

HEXADECIMAL = b"0123456789abcdef"


def check_word(exponent, coefficients):
    return (exponent + sum(coefficients)) % WORD


def frame_text(exponent, coefficients):
    """A frame of any record that its digits can hold, refused or not."""
    words = [coefficient % WORD for coefficient in coefficients]
    words.append(check_word(exponent, coefficients))
    return b"%02x" % exponent + b"".join(b"%08x" % word for word in words)


def refuse_frame_digits(frame):
    if len(frame) != FRAME_LENGTH:
        raise Refusal(NOT_A_FRAME, min(len(frame), FRAME_LENGTH))
    for place, digit in enumerate(frame):
        if digit not in HEXADECIMAL:
            raise Refusal(NOT_A_FRAME, place)


def signed_word(digits):
    word = int(digits, 16)
    return word - WORD if word >= WORD // 2 else word


def frame_record(frame):
    """Exponent and coefficients of 138 digits, the check word not looked at."""
    places = range(2, CHECK_WORD_PLACE, 8)
    return int(frame[:2], 16), [signed_word(frame[i : i + 8]) for i in places]


def frame_to_matrix(frame):
    """The record as written, not reduced."""
    refuse_frame_digits(frame)
    exponent, coefficients = frame_record(frame)
    if int(frame[CHECK_WORD_PLACE:], 16) != check_word(exponent, coefficients):
        raise Refusal(CHECK_WORD_WRONG, CHECK_WORD_PLACE)
    refuse_record(exponent, coefficients)
    return exponent, coefficients


def frame_to_form(frame, room):
    exponent, coefficients = frame_to_matrix(frame)
    return form_answer(record_of(exponent, coefficients), room)


def matrix_to_frame(exponent, coefficients, room):
    refuse_record(exponent, coefficients)
    return fitted(frame_text(exponent, coefficients), room)


# --- Programs: one line in, one line out -------------------------------------


def refusal_line(refusal):
    which = b" " + refusal.which.encode() if refusal.which else b""
    return b"no %d %d" % (refusal.number, refusal.place) + which


def form_line(answer):
    return b"ok %d %d %s" % (answer.t_count, answer.h_count, answer.form)


def letters_line(line):
    return form_line(string_to_form(line, FORM_LIMIT))


def frames_line(line):
    return form_line(frame_to_form(line, FORM_LIMIT))


def read_line(text):
    return b"ok %d %d %d %d" % read_form(text)


def compare_line(texts):
    first, _, second = texts.partition(b" ")
    phase = compare(first, second)
    if phase is None:
        return b"different"
    return b"phase %d" % phase if phase else b"same"


def matrix_line(text):
    exponent, coefficients = string_to_matrix(text)
    numbers = [exponent, *coefficients]
    return b"ok " + b" ".join(b"%d" % number for number in numbers)


def frame_line(text):
    return b"ok " + matrix_to_frame(*frame_to_matrix(text), FRAME_LENGTH)


CALLS = {
    b"read": read_line,
    b"compare": compare_line,
    b"matrix": matrix_line,
    b"frame": frame_line,
}


def call_tests_line(line):
    name, _, arguments = line.partition(b" ")
    return CALLS[name](arguments)


PROGRAMS = {"letters": letters_line, "frames": frames_line, "call_tests": call_tests_line}


def lines_of(data):
    """A last line without an end counts if it has a byte."""
    lines = data.split(b"\n")
    return lines if lines[-1] else lines[:-1]


def answer_line(program, line):
    try:
        return PROGRAMS[program](line)
    except Refusal as refusal:
        return refusal_line(refusal)


def answers(program, data):
    """The whole output of a program for its whole input."""
    return b"".join(answer_line(program, line) + b"\n" for line in lines_of(data))


# --- Command line ------------------------------------------------------------


def arguments():
    parser = argparse.ArgumentParser(description="oracle for normal forms")
    commands = parser.add_subparsers(dest="command", required=True)
    for name in (*PROGRAMS, "selftest"):
        commands.add_parser(name)
    for name in ("make", "check"):
        commands.add_parser(name).add_argument("directory")
    return parser.parse_args()


def main():
    chosen = arguments()
    if chosen.command in PROGRAMS:
        data = sys.stdin.buffer.read()
        sys.stdout.buffer.write(answers(chosen.command, data))
        return 0
    if chosen.command == "selftest":
        import selftest

        return selftest.run()
    import stored

    return getattr(stored, chosen.command)(chosen.directory)


if __name__ == "__main__":
    # The other files import this one by name; one copy of Refusal serves all.
    from oracle import main as named_main

    sys.exit(named_main())
