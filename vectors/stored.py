"""The stored tests: inputs chosen here, outputs answered by the oracle.

Everything comes from fixed seeds and from random.random() alone, whose values
are the same in all versions of Python, so the files can be made again.
"""

import itertools
import os
import random

import oracle
from oracle import LETTERS, STRING_LIMIT, FORM_LIMIT, EXPONENT_LIMIT

PROGRAM_SEEDS = {"letters": 2008, "frames": 2013, "call_tests": 2018}
CLIFFORD_LETTERS = b"HSWXYZ"
LIMIT = oracle.COEFFICIENT_LIMIT
SMALLEST_WORD = -(2**31)


class Dice:
    def __init__(self, seed):
        self.random = random.Random(seed).random

    def below(self, count):
        return int(self.random() * count)

    def between(self, low, high):
        return low + self.below(high - low + 1)

    def pick(self, choices):
        return choices[self.below(len(choices))]

    def text(self, letters, length):
        return bytes(self.pick(letters) for _ in range(length))


# --- Random strings ----------------------------------------------------------


def uniform_text(dice, length):
    return dice.text(LETTERS, length)


def t_rich_text(dice, length):
    return dice.text(b"TTTTTTHHSXWYZ", length)


def clifford_text(dice, length):
    return dice.text(CLIFFORD_LETTERS, length)


def run_text(dice, length):
    """Long runs of S, Z and W, short ones of the others."""
    text = b""
    while len(text) < length:
        text += bytes([dice.pick(b"SZW")]) * dice.between(1, 20)
        text += dice.text(LETTERS, dice.between(0, 2))
    return text[:length]


def alternating_text(dice, length):
    """H and T in turn, at times an S: the T-count grows with the length."""
    text = b"T" * dice.below(2)
    while len(text) < length:
        text += dice.pick((b"HT", b"HT", b"SHT"))
    return text[:length]


def syllable_text(dice, length):
    """Syllables with Clifford letters between: a large T-count, and busy tails."""
    text = b""
    while len(text) < length:
        text += dice.pick((b"HT", b"SHT", b"XHT", b"HZT", b"WHT", b"HYT"))
    return text[:length]


MIXES = (
    uniform_text,
    t_rich_text,
    run_text,
    alternating_text,
    syllable_text,
    clifford_text,
)
BAD_BYTES = b"\x00\r\t !09AGIKRUVhstwxyz[\x7f\x80\xc3\xd4\xff"


def mixed_text(dice, length):
    return dice.pick(MIXES)(dice, length)


def usual_length(dice):
    """Mostly short to medium."""
    return dice.pick((dice.below(12), dice.below(40), dice.below(160), dice.below(500)))


def with_bad_bytes(dice, text):
    damaged = bytearray(text)
    for _ in range(dice.between(1, 3)):
        damaged.insert(dice.below(len(damaged) + 1), dice.pick(BAD_BYTES))
    return bytes(damaged)


def all_texts(letters, longest):
    for length in range(longest + 1):
        for text in itertools.product(letters, repeat=length):
            yield bytes(text)


# --- Lines for the first program ---------------------------------------------

WORKED_STRINGS = (
    b"",
    b"TTTTTTTT",
    b"HH",
    b"WWWWWWWW",
    b"TT",
    b"Z",
    b"Y",
    b"HSHSHS",
    b"XT",
    b"TXT",
    b"TXTX",
    b"HTT",
    b"STH",
    b"ZH",
    b"XH",
    b"HTTHT",
    b"THSHSHTH",
    b"HTHT",
    b"HQ",
    b"THT",
    b"TTTT",
)


def limit_strings(dice):
    """At the string limit and past it; a short line after each keeps step."""
    full = mixed_text(dice, STRING_LIMIT)
    yield full
    yield full + b"H"
    yield b"Q" + full
    yield full + b"\r"
    yield full[:-1] + b"q"
    yield full[:-1]
    yield full[:-1] + b"\r"
    yield b"\x00" * (STRING_LIMIT + 1)
    for letter in LETTERS:
        yield bytes([letter]) * STRING_LIMIT
        yield bytes([letter]) * (STRING_LIMIT + 1)
        yield bytes([letter])
    yield b"HT" * (STRING_LIMIT // 2)
    yield b"HT" * STRING_LIMIT
    yield b"HT"
    yield b"T" * 70001
    yield b"T"


def bad_strings(dice):
    for byte in range(256):
        if byte != ord("\n"):
            yield bytes([byte])
    for text in (b"TT\r", b"\r", b"ht", b"Ht", b"hT", b" HT", b"HT ", b"H T", b"\x00T"):
        yield text
    for _ in range(300):
        yield with_bad_bytes(dice, mixed_text(dice, usual_length(dice)))


def letters_lines(dice):
    yield from WORKED_STRINGS
    yield from all_texts(LETTERS, 4)
    yield from bad_strings(dice)
    yield from limit_strings(dice)
    for length in range(301):
        yield mixed_text(dice, length)
    for mix in MIXES:
        for _ in range(500):
            yield mix(dice, usual_length(dice))
        for _ in range(12):
            yield mix(dice, dice.between(500, STRING_LIMIT))
        for _ in range(7):
            yield mix(dice, STRING_LIMIT)
    yield b"THSHSHTH"


# --- Records -----------------------------------------------------------------


def times_root_two(record):
    """The same matrix with the exponent one higher."""
    exponent, elements = record
    raised = (oracle.ring_product(oracle.ROOT_TWO, element) for element in elements)
    return exponent + 1, tuple(raised)


def raised_to(record, exponent):
    while record[0] < exponent:
        record = times_root_two(record)
    return record


def random_front(dice, syllables):
    text = b"".join(dice.pick((b"HT", b"SHT")) for _ in range(syllables))
    return b"T" * dice.below(2) + text


def random_tail(dice):
    return oracle.TAILS[dice.below(oracle.TAIL_COUNT)]


def random_form(dice, syllables):
    return random_front(dice, syllables) + random_tail(dice)


def string_of_exponent(dice, exponent):
    """A string whose least exponent is the one given: about two T's for each."""
    while True:
        syllables = dice.between(max(0, 2 * exponent - 4), 2 * exponent)
        text = random_form(dice, syllables)
        if oracle.matrix_of(text)[0] == exponent:
            return text


def string_in_exponent_limit(dice):
    while True:
        text = mixed_text(dice, usual_length(dice))
        if oracle.matrix_of(text)[0] <= EXPONENT_LIMIT:
            return text


def frame_of(record):
    return oracle.frame_text(record[0], oracle.coefficients_of(record))


def diagonal(exponent, first, last):
    return exponent, (first, oracle.ZERO, oracle.ZERO, last)


def whole(number):
    return (number, 0, 0, 0)


# --- Lines for the second program --------------------------------------------

H_FRAME = (
    b"01"
    b"00000001000000000000000000000000"
    b"00000001000000000000000000000000"
    b"00000001000000000000000000000000"
    b"ffffffff000000000000000000000000"
    b"00000003"
)
H_RECORD = oracle.matrix_of(b"H")
UNREDUCED_WORKED = (
    diagonal(2, whole(2), whole(2)),
    diagonal(1, oracle.ROOT_TWO, oracle.ROOT_TWO),
)


def replaced(frame, place, digit):
    return frame[:place] + bytes([digit]) + frame[place + 1 :]


def checked(frame):
    """The frame with its check word made right."""
    return oracle.frame_text(*oracle.frame_record(frame))


def frames_of_wrong_digits():
    """Refusal 9 by each cause, alone and together with a wrong check word."""
    yield from (b"", b"0", H_FRAME[:-1], H_FRAME[1:], H_FRAME + b"0", H_FRAME * 2)
    yield from (H_FRAME + b"\r", H_FRAME[:-1] + b"\r", b" " + H_FRAME, H_FRAME + b" ")
    yield from (b"g" * 137, b"g" * 139, b"0" * 5000, b"0" * 70001)
    yield H_FRAME.upper()
    for place in (0, 1, 2, 9, 98, 129, 130, 137):
        for digit in b"FAGg/:`@ \x00\r\x80\xff":
            yield replaced(H_FRAME, place, digit)
    yield replaced(replaced(H_FRAME, 137, ord("x")), 60, ord("A"))


def frames_of_wrong_check_word():
    for place in range(oracle.CHECK_WORD_PLACE, oracle.FRAME_LENGTH):
        for digit in b"0123456789abcdef":
            yield replaced(H_FRAME, place, digit)
    yield H_FRAME[:-8] + b"ffffffff"
    yield replaced(H_FRAME, 1, ord("2"))
    yield b"29" + H_FRAME[2:]
    yield replaced(H_FRAME, 2, ord("8"))
    yield b"0" * oracle.FRAME_LENGTH


def frames_of_wrong_exponent():
    for exponent in (41, 42, 64, 127, 128, 255):
        yield frame_of(diagonal(exponent, whole(1), whole(1)))
        yield frame_of((exponent, H_RECORD[1]))
    yield frame_of(raised_to(H_RECORD, 41))
    yield frame_of(diagonal(41, whole(LIMIT + 1), whole(1)))


def frames_of_wrong_coefficient():
    values = (LIMIT, -LIMIT, LIMIT + 1, -LIMIT - 1, 2**31 - 1, SMALLEST_WORD)
    for index in range(16):
        for value in values:
            for exponent in (0, EXPONENT_LIMIT):
                coefficients = [0] * 16
                coefficients[index] = value
                yield oracle.frame_text(exponent, coefficients)
    for value in values:
        yield oracle.frame_text(EXPONENT_LIMIT, [value] * 16)
        yield frame_of(diagonal(EXPONENT_LIMIT, whole(value), whole(value)))
    yield oracle.frame_text(0, [0] * 9 + [LIMIT + 1, 0, 0, SMALLEST_WORD, 0, 0, 0])


def records_that_break_one_equation():
    """Of the eight equations of a unitary record, exactly one fails in each."""
    one, root, skew = oracle.ONE, oracle.ROOT_TWO, (1, 1, 0, 0)
    yield diagonal(0, whole(3), one)
    yield diagonal(0, one, whole(3))
    yield diagonal(1, skew, root)
    yield diagonal(1, root, skew)
    power = one
    for _ in range(4):
        yield 1, (one, power, one, power)
        power = oracle.ring_product(power, oracle.OMEGA)


def frames_not_unitary():
    for record in records_that_break_one_equation():
        yield frame_of(record)
    yield frame_of(diagonal(1, (1, 1, 0, 0), (1, 1, 0, 0)))
    yield frame_of((0, H_RECORD[1]))
    yield frame_of((2, H_RECORD[1]))
    yield frame_of(diagonal(0, whole(LIMIT), whole(LIMIT)))
    yield oracle.frame_text(0, [0] * 16)
    yield oracle.frame_text(EXPONENT_LIMIT, [0] * 16)


def frames_of_each_exponent(dice):
    """Least exponents 0 to 40, each also raised to 40; one raised at all steps."""
    for exponent in range(EXPONENT_LIMIT + 1):
        for _ in range(12):
            record = oracle.matrix_of(string_of_exponent(dice, exponent))
            yield frame_of(record)
        yield frame_of(raised_to(record, EXPONENT_LIMIT))
    for text in (b"", b"WWWW", b"Y", b"H", b"T", b"HTSHTXSSW"):
        for exponent in range(oracle.matrix_of(text)[0], EXPONENT_LIMIT + 1):
            yield frame_of(raised_to(oracle.matrix_of(text), exponent))


def frames_of_longest_forms():
    """T-count 80 at exponent 40; the last of them has 249 bytes, the most there are."""
    for front in (b"T" + b"HT" * 79, b"T" + b"SHT" * 79):
        for tail in oracle.TAILS[7:64:8]:
            yield frame_of(oracle.matrix_of(front + tail))


def frame_of_random_string(dice, text):
    record = oracle.matrix_of(text)
    if dice.below(2):
        return frame_of(record)
    return frame_of(raised_to(record, dice.between(record[0], EXPONENT_LIMIT)))


def frame_with_changed_digit(dice, frame):
    place = dice.below(len(frame))
    others = [digit for digit in oracle.HEXADECIMAL if digit != frame[place]]
    return replaced(frame, place, dice.pick(others))


def random_frames(dice, count):
    """Most right; some with one digit changed, the check word mended or not."""
    for turn in range(count):
        if turn % 2:
            text = string_in_exponent_limit(dice)
        else:
            text = string_of_exponent(dice, dice.between(0, EXPONENT_LIMIT))
        frame = frame_of_random_string(dice, text)
        if turn % 8 == 6:
            frame = frame_with_changed_digit(dice, frame)
        if turn % 8 == 7:
            frame = checked(frame_with_changed_digit(dice, frame))
        yield frame


def refused_frames():
    yield from frames_of_wrong_digits()
    yield from frames_of_wrong_check_word()
    yield from frames_of_wrong_exponent()
    yield from frames_of_wrong_coefficient()
    yield from frames_not_unitary()


def frames_lines(dice):
    yield H_FRAME
    yield from map(frame_of, UNREDUCED_WORKED)
    yield from refused_frames()
    for tail in oracle.TAILS:
        yield frame_of(oracle.matrix_of(tail))
    yield from frames_of_each_exponent(dice)
    yield from frames_of_longest_forms()
    yield from random_frames(dice, 2000)
    yield H_FRAME


# --- Lines for the calls: form reader ----------------------------------------

WORKED_FORMS = (b"HST", b"TT", b"XX", b"HSTQ", b"", b"T", b"HT", b"SHT", b"HTT", b"XS")


def limit_forms():
    """12,301 bytes with a tail of twelve, then one letter more."""
    front = b"T" + b"SHT" * 4096
    full = front + b"SHXSSSWWWWWW"
    assert len(full) == FORM_LIMIT
    yield full
    yield full + b"W"
    yield full + b"Q"
    yield b"Q" + full
    yield full[:-1] + b"H"
    yield full[:-1] + b"q"
    yield b"TT" + full[2:]
    yield b"SHT" * 4100 + b"H"
    yield b"HT" * 6150 + b"X"
    yield b"HT" * 6149 + b"XX"
    yield b"T" * FORM_LIMIT


def damaged_form(dice, form):
    """One letter changed, put in, taken out, or made a bad one."""
    place = dice.below(len(form) + 1)
    letter = bytes([dice.pick(LETTERS if dice.below(8) else BAD_BYTES)])
    rest = form[place + dice.below(2) :]
    return form[:place] + (letter if dice.below(4) else b"") + rest


def reader_texts(dice):
    yield from WORKED_FORMS
    for front in (b"", b"T", b"HT", b"SHT", b"THT", b"TSHT"):
        yield from (front + tail for tail in oracle.TAILS)
    yield from all_texts(b"HSTXW", 4)
    for _ in range(800):
        form = random_form(dice, dice.below(dice.pick((4, 20, 80))))
        yield form
        yield damaged_form(dice, form)
    for _ in range(300):
        yield mixed_text(dice, dice.below(60))
    yield from limit_forms()


# --- Comparison --------------------------------------------------------------

SAME_LETTERS = {
    ord("H"): (b"HHH", b"XHZ", b"WWWWWWWWH"),
    ord("S"): (b"TT", b"TSTSSS", b"SHH"),
    ord("T"): (b"ZTZ", b"TTTSZ", b"YYT"),
    ord("W"): (b"HSHSHS", b"WXX", b"TXTX"),
    ord("X"): (b"HZH", b"HSSH", b"ZXZWWWW"),
    ord("Y"): (b"XSSWW", b"WWXZ", b"WXZW"),
    ord("Z"): (b"SS", b"TTTT", b"HXH"),
}


def written_differently(dice, text):
    """The same matrix, phase included, in other letters."""
    pieces = []
    for letter in text:
        plain = bytes([letter])
        pieces.append(plain if dice.below(2) else dice.pick(SAME_LETTERS[letter]))
    return b"".join(pieces)


def with_phase(dice, text, phase):
    """Letters W at any places: each turns the matrix by w."""
    turned = bytearray(text)
    for _ in range(phase):
        turned.insert(dice.below(len(turned) + 1), ord("W"))
    return bytes(turned)


def with_letter_changed(dice, text):
    place = dice.below(len(text) + 1)
    return text[:place] + bytes([dice.pick(LETTERS)]) + text[place + 1 :]


def equal_pairs(dice, count):
    for _ in range(count):
        text = mixed_text(dice, usual_length(dice))
        yield text, written_differently(dice, text)
        yield text, oracle.form_of(oracle.matrix_of(text))


def phase_pairs(dice, count):
    for phase in range(1, 8):
        yield b"W" * phase, b""
        yield b"", b"W" * phase
        for _ in range(count):
            text = mixed_text(dice, usual_length(dice))
            yield with_phase(dice, written_differently(dice, text), phase), text


def different_pairs(dice, count):
    yield from itertools.product(all_texts(LETTERS, 1), repeat=2)
    for _ in range(count):
        text = mixed_text(dice, 1 + usual_length(dice))
        yield text, with_letter_changed(dice, text)
        yield text, mixed_text(dice, usual_length(dice))


def full_pairs(dice):
    """Both at the string limit; T-counts in the hundreds, no limit on the exponent."""
    for mix in MIXES:
        text = mix(dice, STRING_LIMIT - 16)
        yield text + b"T" * 16, b"WWWWHHWWWWXXYYZZ" + text
        yield b"WWW" + text, text
        yield text, with_letter_changed(dice, text)


def refused_pairs(dice):
    full = uniform_text(dice, STRING_LIMIT)
    refused = (b"Q", b"HTQ", b"\x00", b"H\r", full + b"T", b"q" + full, full[:-1] + b"w")
    for text in refused:
        yield text, b""
        yield b"", text
        yield b"HT", text
        yield text, b"HT"
    yield from itertools.product(refused[:4], repeat=2)
    yield from ((refused[4], refused[0]), (refused[0], refused[4]), (refused[4],) * 2)
    yield b"HT", b"H T"
    yield b"HT", b" HT"
    for _ in range(60):
        text = mixed_text(dice, usual_length(dice))
        damaged = with_bad_bytes(dice, text).replace(b" ", b"_")
        yield from ((damaged, text), (text, damaged), (damaged, damaged))


def compared_pairs(dice):
    yield from ((b"HSHSHS", b""), (b"TXTX", b"W"), (b"TTTT", b""), (b"XT", b"TXS"))
    yield from equal_pairs(dice, 120)
    yield from phase_pairs(dice, 25)
    yield from different_pairs(dice, 120)
    yield from full_pairs(dice)
    yield from refused_pairs(dice)


# --- String to matrix, frames, and all lines for the calls -------------------


def strings_for_matrix(dice):
    yield from WORKED_STRINGS
    yield from (b"Q", b"HHq", b"T" * (STRING_LIMIT + 1), b"Q" * (STRING_LIMIT + 1))
    yield from all_texts(LETTERS, 2)
    for exponent in range(30, 48):
        for _ in range(6):
            yield string_of_exponent(dice, exponent)
    for _ in range(300):
        yield mixed_text(dice, usual_length(dice))
    for mix in MIXES:
        yield mix(dice, STRING_LIMIT)
        yield mix(dice, STRING_LIMIT)


def frames_for_call_tests(dice):
    yield H_FRAME
    yield from map(frame_of, UNREDUCED_WORKED)
    refused = list(refused_frames())
    yield from (dice.pick(refused) for _ in range(120))
    yield from random_frames(dice, 240)


def call_tests_lines(dice):
    for text in reader_texts(dice):
        yield b"read " + text
    for first, second in compared_pairs(dice):
        yield b"compare " + first + b" " + second
    for text in strings_for_matrix(dice):
        yield b"matrix " + text
    for frame in frames_for_call_tests(dice):
        yield b"frame " + frame


# --- Files -------------------------------------------------------------------

LINES = {"letters": letters_lines, "frames": frames_lines, "call_tests": call_tests_lines}


LAST_LINE_END = {"letters": b"", "frames": b"", "call_tests": b"\n"}


def stored_files():
    """Names and contents. The programs' inputs stop without a line end on purpose."""
    for program, lines in LINES.items():
        dice = Dice(PROGRAM_SEEDS[program])
        data = b"\n".join(lines(dice)) + LAST_LINE_END[program]
        yield os.path.join("crates", program, "stdin"), data
        yield os.path.join("crates", program, "stdout"), oracle.answers(program, data)


def make(directory):
    for name, content in stored_files():
        with open(os.path.join(directory, name), "wb") as file:
            file.write(content)
        print(name, len(content), "bytes,", content.count(b"\n"), "line ends")
    return 0


def stored_content(directory, name):
    try:
        with open(os.path.join(directory, name), "rb") as file:
            return file.read()
    except FileNotFoundError:
        return None


def check(directory):
    status = 0
    for name, content in stored_files():
        agrees = stored_content(directory, name) == content
        print(name, "agrees" if agrees else "DIFFERS")
        status = status if agrees else 1
    return status
