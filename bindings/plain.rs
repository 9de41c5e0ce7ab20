//! The same job in plain Rust, for the benchmark: the same stack idea, the same table of products, ordinary indexing.

const STRING_LIMIT: usize = 4096;
const EXPONENT_LIMIT: u32 = 40;
const COEFFICIENT_LIMIT: i64 = 1048576;
const FRAME_LENGTH: usize = 138;
const CHECK_WORD_PLACE: usize = 130;

/// A refusal's number and place.
pub type Refused = (u8, usize);

/// Length, T-count and H-count of a form.
pub type Figures = (usize, usize, usize);

// --- Tails: 64 h + 32 b + 8 c + a, for h X^b S^c ω^a ---

const LETTERS: usize = 6;

/// The column of each letter other than T in the table of products.
static COLUMNS: [u8; 256] = columns();

const fn columns() -> [u8; 256] {
    let mut columns = [0; 256];
    let mut i = 0;
    while i < LETTERS {
        columns[b"HSWXYZ"[i] as usize] = i as u8;
        i += 1;
    }
    columns
}

/// X^b S^c ω^a, as 32 b + 8 c + a, times another, by SX = ω² X S³.
const fn joined(first: usize, second: usize) -> usize {
    let (b, c, a) = (first / 32, first / 8 % 4, first % 8);
    let (x, s, w) = (second / 32 % 2, second / 8 % 4, second % 8);
    if x == 0 {
        32 * b + (c + s) % 4 * 8 + (a + w) % 8
    } else {
        32 * (1 - b) + (4 - c + s) % 4 * 8 + (a + 2 * c + w) % 8
    }
}

const X: usize = 32;
const S: usize = 8;
const SSS: usize = 24;
const W: usize = 1;

/// A tail times H: X moves through as Z and Z as X; HSH = ω SHX S³.
const fn times_h(tail: usize) -> usize {
    let (h, b, c, a) = (tail / 64, tail / 32 % 2, tail / 8 % 4, tail % 8);
    let x = if c / 2 == 1 { X } else { 0 };
    if c % 2 == 0 {
        let rest = joined(joined(2 * S * b, x), a);
        return match h {
            0 => 64 + rest,
            1 => rest,
            _ => joined(S, rest),
        };
    }
    let moved = if b == 1 { joined(joined(2 * S, X), 6 * W) } else { 0 };
    let rest = joined(joined(moved, x), a);
    match h {
        0 => 128 + rest,
        1 => 128 + joined(X + SSS + W, rest),
        _ => 64 + joined(SSS + W, rest),
    }
}

const fn products() -> [u8; 192 * LETTERS] {
    let mut table = [0; 192 * LETTERS];
    let mut tail = 0;
    while tail < 192 {
        let (head, rest) = (tail / 64 * 64, tail % 64);
        table[tail * LETTERS] = times_h(tail) as u8;
        table[tail * LETTERS + 1] = (head + joined(rest, S)) as u8;
        table[tail * LETTERS + 2] = (head + joined(rest, W)) as u8;
        table[tail * LETTERS + 3] = (head + joined(rest, X)) as u8;
        table[tail * LETTERS + 4] = (head + joined(rest, X + 2 * S + 2 * W)) as u8;
        table[tail * LETTERS + 5] = (head + joined(rest, 2 * S)) as u8;
        tail += 1;
    }
    table
}

static PRODUCTS: [u8; 192 * LETTERS] = products();

// --- The engine: a stack of syllables (0 is T, 1 is HT, 2 is SHT) and a tail ---

struct Engine {
    stack: [u8; STRING_LIMIT],
    count: usize,
    tail: u8,
}

impl Engine {
    fn new() -> Self {
        Engine { stack: [0; STRING_LIMIT], count: 0, tail: 0 }
    }

    fn extend(&mut self, letter: u8) {
        if letter != b'T' {
            self.tail = PRODUCTS[self.tail as usize * LETTERS + COLUMNS[letter as usize] as usize];
            return;
        }
        let (head, x, s, w) = (self.tail / 64, self.tail / 32 % 2, self.tail / 8 % 4, self.tail % 8);
        if head > 0 || self.count == 0 {
            self.stack[self.count] = head;
            self.count += 1;
            self.tail = if x == 0 { 8 * s + w } else { 32 + (s + 1) % 4 * 8 + (w + 7) % 8 };
        } else {
            self.count -= 1;
            let joined = if x == 0 { (s + 1) % 4 * 8 + w } else { 32 + 8 * s + (w + 1) % 8 };
            self.tail = 64 * self.stack[self.count] + joined;
        }
    }

    fn write(&self, buffer: &mut [u8]) -> Result<Figures, Refused> {
        let syllables = &self.stack[..self.count];
        let tail = self.tail as usize;
        let (head, x, s, w) = (tail / 64, tail / 32 % 2, tail / 8 % 4, tail % 8);
        let before: usize = syllables.iter().map(|&code| code as usize + 1).sum();
        let needed = before + head + x + s + w;
        if buffer.len() < needed {
            return Err((3, needed));
        }
        let mut at = 0;
        let mut put = |bytes: &[u8]| {
            for &byte in bytes {
                buffer[at] = byte;
                at += 1;
            }
        };
        for &code in syllables {
            put([b"T".as_slice(), b"HT", b"SHT"][code as usize]);
        }
        put([b"".as_slice(), b"H", b"SH"][head]);
        put(&b"X"[..x]);
        put(&b"SSS"[..s]);
        put(&b"WWWWWWW"[..w]);
        let h_count = syllables.iter().filter(|&&code| code > 0).count();
        Ok((needed, self.count, h_count))
    }
}

#[inline(never)]
pub fn string_to_form(text: &[u8], buffer: &mut [u8]) -> Result<Figures, Refused> {
    if text.len() > STRING_LIMIT {
        return Err((2, STRING_LIMIT));
    }
    let letter = |byte: &u8| matches!(byte, b'H' | b'S' | b'T' | b'W' | b'X' | b'Y' | b'Z');
    if let Some(place) = text.iter().position(|byte| !letter(byte)) {
        return Err((1, place));
    }
    let mut engine = Engine::new();
    for &letter in text {
        engine.extend(letter);
    }
    engine.write(buffer)
}

// --- Matrices ---

type Element = [i64; 4];

fn product(x: &Element, y: &Element) -> Element {
    [
        x[0] * y[0] - x[1] * y[3] - x[2] * y[2] - x[3] * y[1],
        x[0] * y[1] + x[1] * y[0] - x[2] * y[3] - x[3] * y[2],
        x[0] * y[2] + x[1] * y[1] + x[2] * y[0] - x[3] * y[3],
        x[0] * y[3] + x[1] * y[2] + x[2] * y[1] + x[3] * y[0],
    ]
}

fn conjugate(x: &Element) -> Element {
    [x[0], -x[3], -x[2], -x[1]]
}

/// The squared size: its whole part and its √2 part.
fn size(x: &Element) -> (i64, i64) {
    let whole = x[0] * x[0] + x[1] * x[1] + x[2] * x[2] + x[3] * x[3];
    (whole, x[0] * x[1] + x[1] * x[2] + x[2] * x[3] - x[3] * x[0])
}

fn turned(x: &Element, power: usize) -> Element {
    let mut turned = *x;
    for i in 0..4 {
        let place = (i + power) % 8;
        turned[place % 4] = if place < 4 { x[i] } else { -x[i] };
    }
    turned
}

fn sum(x: &Element, y: &Element) -> Element {
    [x[0] + y[0], x[1] + y[1], x[2] + y[2], x[3] + y[3]]
}

fn difference(x: &Element, y: &Element) -> Element {
    [x[0] - y[0], x[1] - y[1], x[2] - y[2], x[3] - y[3]]
}

fn judge(exponent: u32, m: &[Element; 4]) -> Result<(), Refused> {
    if exponent > EXPONENT_LIMIT {
        return Err((4, 0));
    }
    for i in 0..16 {
        if m[i / 4][i % 4] < -COEFFICIENT_LIMIT || m[i / 4][i % 4] > COEFFICIENT_LIMIT {
            return Err((5, i));
        }
    }
    let unit = |x, y| {
        let ((a, b), (c, d)) = (size(x), size(y));
        a + c == 1 << exponent && b + d == 0
    };
    let columns = sum(&product(&m[0], &conjugate(&m[1])), &product(&m[2], &conjugate(&m[3])));
    if unit(&m[0], &m[2]) && unit(&m[1], &m[3]) && columns == [0; 4] {
        Ok(())
    } else {
        Err((6, 0))
    }
}

fn entries(coefficients: &[i64; 16]) -> [Element; 4] {
    let mut m = [[0; 4]; 4];
    for i in 0..16 {
        m[i / 4][i % 4] = coefficients[i];
    }
    m
}

/// (a + b√2), and a vector of three over √2^exponent.
type Surd = (i64, i64);

struct Descent {
    exponent: u32,
    vector: [Surd; 3],
    matrix: [Element; 4],
    engine: Engine,
}

fn over_root2(x: Surd) -> Surd {
    (x.1, x.0 / 2)
}

impl Descent {
    /// The Bloch vector of the first column, at its least exponent.
    fn new(exponent: u32, matrix: [Element; 4]) -> Self {
        let [u, _, t, _] = matrix;
        let w = product(&conjugate(&u), &t);
        let (upper, lower) = (size(&u), size(&t));
        let z = (upper.0 - lower.0, upper.1 - lower.1);
        let vector = [(2 * w[0], w[1] - w[3]), (2 * w[2], w[1] + w[3]), z];
        let mut descent = Descent { exponent: 2 * exponent, vector, matrix, engine: Engine::new() };
        while descent.exponent > 0 && descent.vector.iter().all(|x| x.0 % 2 == 0) {
            descent.exponent -= 1;
            descent.vector = descent.vector.map(over_root2);
        }
        descent
    }

    fn remove_s(&mut self) {
        self.engine.extend(b'S');
        let [x, y, z] = self.vector;
        self.vector = [y, (-x.0, -x.1), z];
        let [a, b, c, d] = self.matrix;
        self.matrix = [a, b, turned(&c, 6), turned(&d, 6)];
    }

    fn remove_h(&mut self) {
        self.engine.extend(b'H');
        let [x, y, z] = self.vector;
        self.vector = [z, (-y.0, -y.1), x];
        let [a, b, c, d] = self.matrix;
        self.matrix = [sum(&a, &c), sum(&b, &d), difference(&a, &c), difference(&b, &d)];
    }

    fn remove_t(&mut self) {
        self.engine.extend(b'T');
        let [x, y, z] = self.vector;
        let half = |a: Surd, b: Surd| ((a.0 + b.0) / 2, (a.1 + b.1) / 2);
        self.vector = [half(x, y), half(y, (-x.0, -x.1)), over_root2(z)];
        self.exponent -= 1;
        let [a, b, c, d] = self.matrix;
        self.matrix = [a, b, turned(&c, 7), turned(&d, 7)];
    }

    fn remove_syllable(&mut self) {
        let [x, y, _] = self.vector.map(|x| x.0 % 2 != 0);
        if x && !y {
            self.remove_s();
        }
        if !(x && y) {
            self.remove_h();
        }
        self.remove_t();
    }

    /// At exponent 0 the vector is an axis: bring it to the third, upward.
    fn remove_axis(&mut self) {
        let [x, y, _] = self.vector.map(|x| x.0 != 0);
        if y {
            self.remove_s();
        }
        if x || y {
            self.remove_h();
        }
        if self.vector[2].0 < 0 {
            self.engine.extend(b'X');
            let [a, b, c, d] = self.matrix;
            self.matrix = [c, d, a, b];
        }
    }

    /// The matrix is diagonal, each entry a power of ω times a power of √2.
    fn remove_phases(&mut self) {
        let (upper, lower) = (phase(&self.matrix[0]), phase(&self.matrix[3]));
        let turn = (8 + lower - upper) % 8;
        if turn % 2 == 1 {
            self.engine.extend(b'T');
        }
        for _ in 0..turn / 2 {
            self.engine.extend(b'S');
        }
        for _ in 0..upper {
            self.engine.extend(b'W');
        }
    }
}

/// The power of ω in ω^p √2^k: where k is odd, √2 = ω − ω³ spreads it over the places p + 1 and p + 7, modulo 8.
fn phase(x: &Element) -> usize {
    let mut places = (0..4).filter(|&i| x[i] != 0).map(|i| if x[i] < 0 { i + 4 } else { i });
    match (places.next(), places.next()) {
        (Some(first), Some(second)) if (first + 2) % 8 == second => (first + 1) % 8,
        (Some(_), Some(second)) => (second + 1) % 8,
        (place, _) => place.unwrap_or(0),
    }
}

#[inline(never)]
pub fn matrix_to_form(exponent: u32, coefficients: &[i64; 16], buffer: &mut [u8]) -> Result<Figures, Refused> {
    let matrix = entries(coefficients);
    judge(exponent, &matrix)?;
    let mut descent = Descent::new(exponent, matrix);
    while descent.exponent > 0 {
        descent.remove_syllable();
    }
    descent.remove_axis();
    descent.remove_phases();
    descent.engine.write(buffer)
}

// --- Frames ---

const NO_DIGIT: u8 = 16;

/// The value of each byte that is a digit.
static DIGITS: [u8; 256] = digits();

const fn digits() -> [u8; 256] {
    let mut digits = [NO_DIGIT; 256];
    let mut i = 0;
    while i < 16 {
        digits[HEXADECIMAL[i] as usize] = i as u8;
        i += 1;
    }
    digits
}

const HEXADECIMAL: [u8; 16] = *b"0123456789abcdef";

#[inline(never)]
pub fn frame_to_matrix(text: &[u8]) -> Result<(u32, [i64; 16]), Refused> {
    if text.len() != FRAME_LENGTH {
        return Err((9, text.len().min(FRAME_LENGTH)));
    }
    if let Some(place) = text.iter().position(|&byte| DIGITS[byte as usize] == NO_DIGIT) {
        return Err((9, place));
    }
    let value = |byte: u8| DIGITS[byte as usize] as u32;
    let number = |from: usize, to: usize| text[from..to].iter().fold(0, |n, &byte| n << 4 | value(byte));
    let exponent = number(0, 2);
    let mut sum = exponent;
    let mut coefficients = [0; 16];
    for i in 0..16 {
        let word = number(2 + 8 * i, 10 + 8 * i);
        sum = sum.wrapping_add(word);
        coefficients[i] = word as i32 as i64;
    }
    if number(CHECK_WORD_PLACE, FRAME_LENGTH) != sum {
        return Err((10, CHECK_WORD_PLACE));
    }
    judge(exponent, &entries(&coefficients))?;
    Ok((exponent, coefficients))
}

fn put_number(buffer: &mut [u8], at: usize, count: usize, number: u32) {
    for i in 0..count {
        buffer[at + i] = HEXADECIMAL[(number >> (4 * (count - 1 - i)) & 15) as usize];
    }
}

#[inline(never)]
pub fn matrix_to_frame(exponent: u32, coefficients: &[i64; 16], buffer: &mut [u8]) -> Result<(), Refused> {
    judge(exponent, &entries(coefficients))?;
    if buffer.len() < FRAME_LENGTH {
        return Err((3, FRAME_LENGTH));
    }
    put_number(buffer, 0, 2, exponent);
    let mut sum = exponent;
    for i in 0..16 {
        let word = coefficients[i] as i32 as u32;
        sum = sum.wrapping_add(word);
        put_number(buffer, 2 + 8 * i, 8, word);
    }
    put_number(buffer, CHECK_WORD_PLACE, 8, sum);
    Ok(())
}

#[inline(never)]
pub fn frame_to_form(text: &[u8], buffer: &mut [u8]) -> Result<Figures, Refused> {
    let (exponent, coefficients) = frame_to_matrix(text)?;
    matrix_to_form(exponent, &coefficients, buffer)
}
