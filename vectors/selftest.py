"""Self-tests: the claims of document 01 that the oracle rests on, and its worked cases."""

import cmath
import itertools
import time

import oracle
import stored
from oracle import LETTERS, FORM_LIMIT, STRING_LIMIT, IDENTITY
from oracle import matrix_of, record_product

ROOM = FORM_LIMIT
STARRED = {
    b"": b"",
    b"TTTTTTTT": b"",
    b"HH": b"",
    b"TT": b"S",
    b"Z": b"SS",
    b"Y": b"XSSWW",
    b"HSHSHS": b"W",
    b"XT": b"TXSWWWWWWW",
    b"TXT": b"XW",
    b"STH": b"TSH",
    b"ZH": b"HX",
    b"XH": b"HSS",
    b"HTTHT": b"SHTX",
    b"THSHSHTH": b"HW",
    b"HTHT": b"HTHT",
}
OTHER_WORKED = {
    b"WWWWWWWW": b"",
    b"TXTX": b"W",
    b"HTT": b"HS",
    b"TTTT": b"SS",
    b"THT": b"THT",
}


def expect(got, wanted, about=""):
    if got != wanted:
        raise SystemExit(f"selftest: {about!r}: got {got!r}, wanted {wanted!r}")


def expect_refusal(number, place, call, *arguments, which=None):
    try:
        answer = call(*arguments)
    except oracle.Refusal as refusal:
        wanted = (number, place, which)
        expect((refusal.number, refusal.place, refusal.which), wanted, call.__name__)
    else:
        expect(answer, f"refusal {number}, place {place}", call.__name__)


def form_of_string(text):
    return oracle.string_to_form(text, ROOM).form


def random_strings(seed, count, length):
    dice = stored.Dice(seed)
    return [stored.mixed_text(dice, dice.below(length)) for _ in range(count)]


# --- Numbers and matrices ----------------------------------------------------


def complex_entries(record):
    omega = cmath.exp(0.25j * cmath.pi)
    scale = 2 ** (-0.5 * record[0])
    return [scale * sum(a * omega**i for i, a in enumerate(e)) for e in record[1]]


def test_letters_against_complex_numbers():
    """The matrices of 01 typed again as complex numbers, and their products."""
    half, turn = 0.5**0.5, cmath.exp(0.25j * cmath.pi)
    typed = {
        b"H": [half, half, half, -half],
        b"S": [1, 0, 0, 1j],
        b"T": [1, 0, 0, turn],
        b"W": [turn, 0, 0, turn],
        b"X": [0, 1, 1, 0],
        b"Y": [0, -1j, 1j, 0],
        b"Z": [1, 0, 0, -1],
    }
    for text in random_strings(1, 200, 40):
        a, b, c, d = 1, 0, 0, 1
        for i in range(len(text)):
            e, f, g, h = typed[text[i : i + 1]]
            a, b, c, d = a * e + b * g, a * f + b * h, c * e + d * g, c * f + d * h
        exact = complex_entries(matrix_of(text))
        far = max(abs(x - y) for x, y in zip(exact, (a, b, c, d)))
        expect(far < 1e-9, True, text)


def test_identities():
    """Those that 01 stands on; W stands for w, seven of it for its inverse."""
    pairs = {
        b"TT": b"S",
        b"ST": b"TS",
        b"XT": b"TXS" + b"W" * 7,
        b"SX": b"WWXSSS",
        b"HSHSHS": b"W",
        b"HX": b"ZH",
        b"Z": b"SS",
        b"Y": b"WWXSS",
    }
    for first, second in pairs.items():
        expect(oracle.compare(first, second), 0, first)
    for letter, spellings in stored.SAME_LETTERS.items():
        for spelling in spellings:
            expect(oracle.compare(bytes([letter]), spelling), 0, spelling)


def test_least_record_is_the_only_one():
    """Raised by powers of sqrt 2 and made least again, it is the same record."""
    for text in random_strings(2, 100, 200):
        record = matrix_of(text)
        raised = stored.raised_to(record, record[0] + 5)
        expect(oracle.least(raised), record, text)


def eight_equations_hold(record):
    """Unitary in 01's own words: column sizes, then the columns' product."""
    exponent, (a, b, c, d) = record

    def column(first, last):
        entries = (first, last)
        squares = sum(x * x for entry in entries for x in entry)
        roots = sum(e[0] * e[1] + e[1] * e[2] + e[2] * e[3] - e[3] * e[0] for e in entries)
        return squares == 2**exponent and roots == 0

    crossed = oracle.ring_sum(
        oracle.ring_product(oracle.conjugate(a), b),
        oracle.ring_product(oracle.conjugate(c), d),
    )
    return column(a, c) and column(b, d) and crossed == oracle.ZERO


def test_unitary_is_the_eight_equations():
    dice = stored.Dice(3)
    for frame in stored.random_frames(dice, 400):
        for changed in (frame, stored.frame_with_changed_digit(dice, frame)):
            record = oracle.record_of(*oracle.frame_record(changed))
            expect(oracle.is_unitary(record), eight_equations_hold(record), changed)
    for record in stored.records_that_break_one_equation():
        expect((oracle.is_unitary(record), eight_equations_hold(record)), (False, False))


# --- Tails and forms ---------------------------------------------------------


def test_tail_numbers():
    """64 h + 32 b + 8 c + a, and 192 matrices that differ."""
    parts = itertools.product((b"", b"H", b"SH"), range(2), range(4), range(8))
    for number, (start, b, c, a) in enumerate(parts):
        text = start + b"X" * b + b"S" * c + b"W" * a
        expect(oracle.TAILS[number], text, number)
        expect(oracle.read_form(text).tail, number, text)
        expect(form_of_string(text), text, text)
    expect(len(oracle.TAIL_NUMBER_OF_MATRIX), 192, "tails")


def test_tails_are_the_clifford_elements():
    """Closed under the six letters: all that they make from the identity."""
    found, fresh = {IDENTITY}, [IDENTITY]
    while fresh:
        record = fresh.pop()
        for letter in stored.CLIFFORD_LETTERS:
            product = record_product(record, oracle.LETTER_MATRIX[letter])
            if oracle.least(product) not in found:
                found.add(oracle.least(product))
                fresh.append(oracle.least(product))
    expect(found, set(oracle.TAIL_NUMBER_OF_MATRIX), "Clifford elements")


def forms_up_to(length):
    """All forms of at most this length, built part by part from the grammar."""
    fronts, layer = set(), {b"", b"T"}
    while layer:
        fronts |= layer
        longer = {front + s for front in layer for s in (b"HT", b"SHT")}
        layer = {front for front in longer if len(front) <= length}
    joined = (front + tail for front in fronts for tail in oracle.TAILS)
    return {form for form in joined if len(form) <= length}


def expect_read(text, forms):
    if text in forms:
        expect(oracle.read_form(text)[:2], (len(text), text.count(b"T")), text)
        return
    prefixes = [n for n in range(len(text)) if text[:n] in forms]
    expect_refusal(oracle.NOT_A_FORM, max(prefixes), oracle.read_form, text)


def test_reader_against_enumeration():
    forms = forms_up_to(9)
    for form in forms:
        expect(form[:-1] in forms, True, form)
    for text in itertools.chain(
        stored.all_texts(LETTERS, 5),
        stored.all_texts(b"HSTX", 7),
        stored.all_texts(b"HST", 9),
        (b"W" * w + end for w in range(9) for end in (b"", b"H", b"T", b"S", b"X")),
    ):
        expect_read(text, forms)


def test_h_count_counts_syllables():
    dice = stored.Dice(4)
    for syllables in range(60):
        front = stored.random_front(dice, syllables)
        for tail in (b"", b"H", b"SHX", stored.random_tail(dice)):
            expect(oracle.read_form(front + tail).h_count, syllables, front + tail)


def test_each_form_comes_back():
    """All forms of T-count at most 3: 192 (3 * 2^3 - 2), their matrices differ."""
    matrices = set()
    for count in range(4):
        for start in (b"", b"T"):
            syllables = count - len(start)
            for parts in itertools.product((b"HT", b"SHT"), repeat=max(0, syllables)):
                front = start + b"".join(parts)
                if front.count(b"T") == count:
                    for tail in oracle.TAILS:
                        expect(form_of_string(front + tail), front + tail)
                        matrices.add(matrix_of(front + tail))
    expect(len(matrices), 192 * 22, "forms of T-count at most 3")


def test_rotation_of_forms():
    """Lemma 4.10 of source 003: exponent, and the even row of the first syllable."""
    dice = stored.Dice(5)
    even = {b"T": 2, b"H": 0, b"S": 1}
    for _ in range(300):
        form = stored.random_form(dice, dice.below(40))
        exponent, rows = oracle.rotation_of(matrix_of(form))
        expect(exponent, form.count(b"T"), form)
        if exponent:
            parities = [oracle.is_even_row(row) for row in rows]
            expect(parities, [row == even[form[:1]] for row in range(3)], form)


def test_fewest_t():
    """All matrices with at most two T's, found by search: T-count is the level."""
    cliffords = list(oracle.TAIL_NUMBER_OF_MATRIX)
    seen = level = set(cliffords)
    for count in (1, 2):
        starts = {oracle.least(record_product(m, matrix_of(b"T"))) for m in level}
        products = {oracle.least(record_product(m, c)) for m in starts for c in cliffords}
        level = products - seen
        seen = seen | level
        expect(len(level), 192 * 3 * 2 ** (count - 1), "matrices")
        for record in level:
            expect(oracle.form_of(record).count(b"T"), count, record)


# --- Strings -----------------------------------------------------------------


def test_worked_strings():
    expect(len(STARRED), 15, "starred cases")
    for text, form in {**STARRED, **OTHER_WORKED}.items():
        expect(form_of_string(text), form, text)
        expect(oracle.compare(text, form), 0, text)
    whole_case = b"ok 0 0 S\nno 1 1\nok 2 1 THT\n"
    expect(oracle.answers("letters", b"TT\nHQ\nTHT\n"), whole_case)
    expect(oracle.answers("letters", b"TT\nHQ\nTHT"), whole_case)
    expect(oracle.answers("letters", b"\n\n"), b"ok 0 0 \nok 0 0 \n")
    expect(oracle.answers("letters", b""), b"")


def plain_matrix_of(text):
    """Letter by letter, with no blocks and no pairs."""
    record = IDENTITY
    for letter in text:
        record = oracle.least(record_product(record, oracle.LETTER_MATRIX[letter]))
    return record


def test_forms_keep_the_matrix():
    """Phase included; no more T's than the string; 3 n + 13 bytes at most."""
    strings = random_strings(6, 1500, 100) + random_strings(7, 40, STRING_LIMIT)
    for text in strings:
        answer = oracle.string_to_form(text, ROOM)
        record = plain_matrix_of(text)
        expect(plain_matrix_of(answer.form), record, text)
        expect(oracle.read_form(answer.form)[1:3], answer[1:3], text)
        expect(answer.t_count <= text.count(b"T"), True, text)
        expect(answer.t_count <= 2 * record[0] + 1, True, text)
        expect(len(answer.form) <= 3 * len(text) + 13, True, text)


def test_equal_matrices_equal_forms():
    """All strings of at most four letters: as many forms as matrices."""
    forms = {}
    for text in stored.all_texts(LETTERS, 4):
        form = form_of_string(text)
        expect(forms.setdefault(matrix_of(text), form), form, text)
    expect(len(set(forms.values())), len(forms), "forms")


def test_string_refusals():
    full = b"HT" * (STRING_LIMIT // 2)
    call = oracle.string_to_form
    expect(oracle.string_to_form(full, ROOM).form, full)
    expect_refusal(2, 4096, call, full + b"T", ROOM)
    expect_refusal(2, 4096, call, b"Q" + full, 0)
    expect_refusal(2, 4096, call, full + b"\r", ROOM)
    expect_refusal(1, 4095, call, full[:-1] + b"q", 0)
    expect_refusal(1, 1, call, b"H\x00Q", 0)
    expect_refusal(3, 4, call, b"HTHT", 3)
    expect(oracle.string_to_form(b"HTHT", 4), (b"HTHT", 2, 2))
    expect(oracle.string_to_form(b"HH", 0), (b"", 0, 0))
    expect(oracle.string_to_form(b"HTT", 2), (b"HS", 0, 0))
    expect_refusal(2, 4096, oracle.string_to_matrix, b"Q" * 4097)
    expect_refusal(1, 0, oracle.string_to_matrix, b"Q" + full[1:])
    expect_refusal(8, 0, oracle.string_to_matrix, full)
    expect(oracle.string_to_matrix(b"H")[0], 1)


def test_exponent_border_of_strings():
    dice = stored.Dice(8)
    at_limit = stored.string_of_exponent(dice, 40)
    expect(oracle.string_to_matrix(at_limit)[0], 40, at_limit)
    past_limit = stored.string_of_exponent(dice, 41)
    expect_refusal(8, 0, oracle.string_to_matrix, past_limit)


def test_reader_refusals():
    read = oracle.read_form
    expect_refusal(7, 2, read, b"HST")
    expect_refusal(7, 1, read, b"TT")
    expect_refusal(7, 1, read, b"XX")
    expect_refusal(7, 0, read, b"Z")
    expect_refusal(1, 3, read, b"HSTQ")
    full = b"T" + b"SHT" * 4096 + b"SHXSSSWWWWWW"
    expect(read(full), (12301, 4097, 4096, 191 - 1))
    expect_refusal(2, 12301, read, full + b"W")
    expect_refusal(2, 12301, read, b"Q" + full)
    expect(read(b""), (0, 0, 0, 0))


def test_comparison():
    dice = stored.Dice(9)
    for first, second in stored.equal_pairs(dice, 60):
        expect(oracle.compare(first, second), 0, first)
    for phase in range(1, 8):
        for text in random_strings(10 + phase, 10, 60):
            turned = stored.with_phase(dice, text, phase)
            expect(oracle.compare(turned, text), phase, text)
            expect(oracle.compare(text, turned), 8 - phase, text)
    expect(oracle.compare(b"X", b"Z"), None)
    compare, full = oracle.compare, b"T" * (STRING_LIMIT + 1)
    expect_refusal(1, 1, compare, b"HQ", full, which="first")
    expect_refusal(2, 4096, compare, full, b"Q", which="first")
    expect_refusal(1, 0, compare, b"", b"Q", which="second")
    expect_refusal(2, 4096, compare, b"T", full, which="second")
    expect(oracle.answers("call_tests", b"compare  \ncompare  W\n"), b"same\nphase 7\n")
    expect(oracle.answers("call_tests", b"compare W H H\n"), b"no 1 1 second\n")


# --- Matrices and frames -----------------------------------------------------


def test_worked_matrices():
    call = oracle.matrix_to_form
    for record in stored.UNREDUCED_WORKED:
        expect(call(record[0], oracle.coefficients_of(record), 0), (b"", 0, 0))
    h = oracle.coefficients_of(stored.H_RECORD)
    large = [1048577] + [0] * 15
    expect(call(1, h, 1), (b"H", 0, 0))
    expect_refusal(3, 1, call, 1, h, 0)
    expect_refusal(6, 0, call, 0, h, 0)
    expect_refusal(4, 0, call, 41, large, 0)
    expect_refusal(5, 0, call, 0, large, 0)
    expect_refusal(6, 0, call, 0, [1048576] + [0] * 15, 0)
    skew = stored.diagonal(1, (1, 1, 0, 0), (1, 1, 0, 0))
    expect_refusal(6, 0, call, 1, oracle.coefficients_of(skew), 0)


def test_matrix_limits():
    """At exponent 40 the coefficient limit is reached, and T-count 80."""
    for text, value in ((b"", 1048576), (b"WWWW", -1048576)):
        record = stored.raised_to(matrix_of(text), 40)
        coefficients = oracle.coefficients_of(record)
        expect(coefficients[0], value, text)
        expect(oracle.matrix_to_form(40, coefficients, ROOM).form, text)
    dice = stored.Dice(20)
    for exponent in range(41):
        text = stored.string_of_exponent(dice, exponent)
        answer = oracle.matrix_to_form(*oracle.string_to_matrix(text), ROOM)
        expect(answer.form, text, text)
        expect(answer.t_count <= max(2 * exponent, 1), True, text)
    longest = b"T" + b"SHT" * 79 + oracle.TAILS[63]
    answer = oracle.matrix_to_form(*oracle.string_to_matrix(longest), 249)
    expect(answer, (longest, 80, 79))


def test_frames():
    frame = stored.H_FRAME
    expect(stored.frame_of(stored.H_RECORD), frame)
    expect(oracle.frame_to_form(frame, 1), (b"H", 0, 0))
    call = oracle.frame_to_form
    expect_refusal(3, 1, call, frame, 0)
    expect_refusal(9, 137, call, frame[1:], 0)
    expect_refusal(9, 138, call, frame + b"\r", 0)
    expect_refusal(9, 0, call, b"", 0)
    expect_refusal(9, 98, call, stored.replaced(frame, 98, ord("F")), 0)
    expect_refusal(10, 130, call, b"29" + frame[2:], 0)
    expect_refusal(10, 130, call, b"0" * 137 + b"1", 0)
    expect_refusal(6, 0, call, b"0" * 138, 0)
    expect_refusal(4, 0, call, stored.checked(b"29" + frame[2:]), 0)
    smallest = oracle.frame_text(0, [0, 0, 0, -(2**31)] + [0] * 12)
    expect_refusal(5, 3, call, smallest, 0)
    expect(oracle.answers("frames", b"\n" + frame), b"no 9 0\nok 0 0 H\n")


def test_frames_come_back():
    """Read and written again: the same digits, the same record, the same form."""
    write = oracle.matrix_to_frame
    dice = stored.Dice(21)
    for _ in range(200):
        text = stored.string_in_exponent_limit(dice)
        frame = stored.frame_of_random_string(dice, text)
        record = oracle.frame_to_matrix(frame)
        expect(write(*record, 138), frame, text)
        expect(oracle.frame_to_form(frame, ROOM).form, form_of_string(text), text)
        expect_refusal(3, 138, write, *record, 137)
    expect_refusal(4, 0, write, 41, [2**40] * 16, 0)
    expect_refusal(5, 15, write, 0, [0] * 15 + [-1048577], 0)
    expect_refusal(6, 0, write, 0, [0] * 16, 0)


# --- The stored tests and the table ------------------------------------------


def test_table():
    """The table's rule entry by entry, and its answers met by the form of each string."""
    import table

    entries = table.tail_products()
    expect(len(entries), 1152, "table")
    for place, entry in enumerate(entries):
        letter = bytes([table.TABLE_LETTERS[place % 6]])
        string = oracle.TAILS[place // 6] + letter
        expect(oracle.compare(string, oracle.TAILS[entry]), 0, string)
        expect(form_of_string(string), oracle.TAILS[entry], string)


def run():
    start = time.time()
    tests = [call for name, call in globals().items() if name.startswith("test_")]
    for call in tests:
        before = time.time()
        call()
        print(f"ok {call.__name__[5:]} {time.time() - before:.1f} s", flush=True)
    print(f"{len(tests)} self-tests passed in {time.time() - start:.1f} s")
    return 0
