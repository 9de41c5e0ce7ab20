//! Document 01 a second time, in plain Rust, by exact matrices and with no table of letters on tails.
//!
//! A string is multiplied out to its exact matrix. The rotation matrix of that names the leftmost syllable by the
//! parities of its rows; syllables are taken off the left until the exponent is 0. What is then left of the matrix,
//! phase included, is looked up among the matrices of the 192 tails.

use crate::whole::Whole;

pub const STRING_LIMIT: usize = 4096;
pub const FORM_LIMIT: usize = 12301;
pub const EXPONENT_LIMIT: u32 = 40;
pub const COEFFICIENT_LIMIT: i64 = 1048576;
pub const FRAME_LENGTH: usize = 138;
pub const LETTERS: &[u8; 7] = b"HSTWXYZ";
const CHECK_WORD_PLACE: usize = 130;
const TAILS: usize = 192;

/// A refusal: its number and its place.
#[derive(Clone, Copy, Debug, PartialEq, Eq)]
pub struct Refusal {
    pub number: u8,
    pub place: usize,
}

pub type Answer<V> = Result<V, Refusal>;

fn refused<V>(number: u8, place: usize) -> Answer<V> {
    Err(Refusal { number, place })
}

/// Length, T-count and H-count of a form.
pub type Figures = (usize, usize, usize);

// --- Ring elements: four whole numbers, of 1, ω, ω² and ω³ ---

#[derive(Clone, Copy, PartialEq, Eq)]
struct Element<const N: usize>([Whole<N>; 4]);

impl<const N: usize> Element<N> {
    const ZERO: Self = Element([Whole::ZERO; 4]);

    fn plus(self, other: Self) -> Self {
        let (x, y) = (self.0, other.0);
        Element([x[0].plus(y[0]), x[1].plus(y[1]), x[2].plus(y[2]), x[3].plus(y[3])])
    }

    /// The element times ω^power, with ω⁴ = −1.
    fn turned(self, power: usize) -> Self {
        let mut turned = self.0;
        for i in 0..4 {
            let place = (i + power) % 8;
            turned[place % 4] = if place < 4 { self.0[i] } else { self.0[i].negated() };
        }
        Element(turned)
    }

    fn times(self, other: Self) -> Self {
        let mut product = Self::ZERO;
        for i in 0..4 {
            let part = other.0.map(|coefficient| self.0[i].times(coefficient));
            product = product.plus(Element(part).turned(i));
        }
        product
    }

    fn conjugate(self) -> Self {
        let [a, b, c, d] = self.0;
        Element([a, d.negated(), c.negated(), b.negated()])
    }

    fn has_root2(self) -> bool {
        let [a, b, c, d] = self.0;
        a.odd() == c.odd() && b.odd() == d.odd()
    }

    /// Divided by √2: times √2 = ω − ω³, then halved.
    fn over_root2(self) -> Self {
        let [a, b, c, d] = self.0;
        Element([b.minus(d), a.plus(c), b.plus(d), c.minus(a)].map(Whole::halved))
    }
}

// --- Gates and records ---

/// The exponent of a letter's matrix, and its entries as powers of ω or nothing.
type Gate = (u32, [Option<usize>; 4]);

fn gate(letter: u8) -> Gate {
    match letter {
        b'H' => (1, [Some(0), Some(0), Some(0), Some(4)]),
        b'S' => (0, [Some(0), None, None, Some(2)]),
        b'T' => (0, [Some(0), None, None, Some(1)]),
        b'W' => (0, [Some(1), None, None, Some(1)]),
        b'X' => (0, [None, Some(0), Some(0), None]),
        b'Y' => (0, [None, Some(6), Some(2), None]),
        b'Z' => (0, [Some(0), None, None, Some(4)]),
        _ => panic!("not a letter: {letter}"),
    }
}

fn inverse((exponent, [a, b, c, d]): Gate) -> Gate {
    let back = |power: Option<usize>| power.map(|power| (8 - power) % 8);
    (exponent, [back(a), back(c), back(b), back(d)])
}

/// A matrix record: an exponent and four entries.
#[derive(Clone, Copy, PartialEq, Eq)]
struct Record<const N: usize> {
    exponent: u32,
    entries: [Element<N>; 4],
}

fn phased<const N: usize>(entry: Element<N>, power: Option<usize>) -> Element<N> {
    power.map_or(Element::ZERO, |power| entry.turned(power))
}

impl<const N: usize> Record<N> {
    fn from(exponent: u32, coefficients: &[i64; 16]) -> Self {
        let mut entries = [Element::ZERO; 4];
        for (i, &coefficient) in coefficients.iter().enumerate() {
            entries[i / 4].0[i % 4] = Whole::from(coefficient);
        }
        Record { exponent, entries }
    }

    /// The exponent and the coefficients, where 64 bits hold each.
    fn small(self) -> Option<(u32, [i64; 16])> {
        let mut coefficients = [0; 16];
        for (i, coefficient) in coefficients.iter_mut().enumerate() {
            *coefficient = self.entries[i / 4].0[i % 4].small()?;
        }
        Some((self.exponent, coefficients))
    }

    /// The record times a gate on its right.
    fn then(self, (exponent, [a, b, c, d]): Gate) -> Self {
        let [e, f, g, h] = self.entries;
        let entry = |left, right, upper, lower| phased(left, upper).plus(phased(right, lower));
        let entries = [entry(e, f, a, c), entry(e, f, b, d), entry(g, h, a, c), entry(g, h, b, d)];
        Record { exponent: self.exponent + exponent, entries }
    }

    /// The record times a gate on its left.
    fn after(self, (exponent, [a, b, c, d]): Gate) -> Self {
        let [e, f, g, h] = self.entries;
        let entry = |upper, lower, left, right| phased(upper, left).plus(phased(lower, right));
        let entries = [entry(e, g, a, b), entry(f, h, a, b), entry(e, g, c, d), entry(f, h, c, d)];
        Record { exponent: self.exponent + exponent, entries }
    }

    fn times(self, other: Self) -> Self {
        let [a, b, c, d] = self.entries;
        let [e, f, g, h] = other.entries;
        let entry = |left: Element<N>, upper, right: Element<N>, lower| left.times(upper).plus(right.times(lower));
        let entries = [entry(a, e, b, g), entry(a, f, b, h), entry(c, e, d, g), entry(c, f, d, h)];
        Record { exponent: self.exponent + other.exponent, entries }
    }

    fn adjoint(self) -> Self {
        let [a, b, c, d] = self.entries.map(Element::conjugate);
        Record { exponent: self.exponent, entries: [a, c, b, d] }
    }

    /// The record of the same meaning with the smallest exponent.
    fn least(mut self) -> Self {
        while self.exponent > 0 && self.entries.iter().all(|entry| entry.has_root2()) {
            self.exponent -= 1;
            self.entries = self.entries.map(Element::over_root2);
        }
        self
    }

    fn of_letters(text: &[u8]) -> Self {
        let mut identity = [0; 16];
        identity[0] = 1;
        identity[12] = 1;
        text.iter().fold(Self::from(0, &identity), |record, &letter| record.then(gate(letter)).least())
    }

    /// The adjoint times the record is 2^k times the identity, before division.
    fn is_unitary(self) -> bool {
        let [a, b, c, d] = self.adjoint().times(self).entries;
        let mut size = Element::ZERO;
        size.0[0] = Whole::from(1i64 << self.exponent);
        a == size && d == size && b == Element::ZERO && c == Element::ZERO
    }
}

// --- Rotation matrices: each entry (a + b√2) / √2^m ---

#[derive(Clone, Copy)]
struct Surd<const N: usize>(Whole<N>, Whole<N>);

impl<const N: usize> Surd<N> {
    fn plus(self, other: Self) -> Self {
        Surd(self.0.plus(other.0), self.1.plus(other.1))
    }

    fn negated(self) -> Self {
        Surd(self.0.negated(), self.1.negated())
    }

    fn times_root2(self) -> Self {
        Surd(self.1.plus(self.1), self.0)
    }

    fn over_root2(self) -> Self {
        Surd(self.1, self.0.halved())
    }
}

type Row<const N: usize> = [Surd<N>; 3];

/// Rows and columns in the order X, Y, Z.
struct Rotation<const N: usize> {
    exponent: u32,
    rows: [Row<N>; 3],
}

fn even<const N: usize>(row: &Row<N>) -> bool {
    row.iter().all(|entry| !entry.0.odd())
}

/// Two rows, entry by entry.
fn sum_of_rows<const N: usize>(first: Row<N>, second: Row<N>) -> Row<N> {
    [first[0].plus(second[0]), first[1].plus(second[1]), first[2].plus(second[2])]
}

impl<const N: usize> Rotation<N> {
    /// Half the trace of P·U·Q·U†, two more in the exponent for the half.
    fn of(record: Record<N>) -> Self {
        let zero = Surd(Whole::ZERO, Whole::ZERO);
        let mut rows = [[zero; 3]; 3];
        for (j, &column) in b"XYZ".iter().enumerate() {
            let moved = record.then(gate(column)).times(record.adjoint());
            for (i, &row) in b"XYZ".iter().enumerate() {
                let product = moved.after(gate(row));
                let [a, b, c, d] = product.entries[0].plus(product.entries[3]).0;
                assert!(c == Whole::ZERO && d == b.negated(), "a trace was not real");
                rows[i][j] = Surd(a, b);
            }
        }
        Rotation { exponent: 2 * record.exponent + 2, rows }.least()
    }

    fn least(mut self) -> Self {
        while self.exponent > 0 && self.rows.iter().all(even) {
            self.exponent -= 1;
            self.rows = self.rows.map(|row| row.map(Surd::over_root2));
        }
        self
    }

    /// The syllable that the one even row names.
    fn leftmost(&self) -> &'static [u8] {
        match (even(&self.rows[0]), even(&self.rows[1]), even(&self.rows[2])) {
            (true, false, false) => b"HT",
            (false, true, false) => b"SHT",
            (false, false, true) => b"T",
            _ => panic!("no syllable has these parities"),
        }
    }

    /// The rotation with a letter H, S or T taken off the left.
    fn without(self, letter: u8) -> Self {
        let [x, y, z] = self.rows;
        let negated = |row: Row<N>| row.map(Surd::negated);
        match letter {
            b'H' => Rotation { exponent: self.exponent, rows: [z, negated(y), x] },
            b'S' => Rotation { exponent: self.exponent, rows: [y, negated(x), z] },
            b'T' => Rotation {
                exponent: self.exponent + 1,
                rows: [sum_of_rows(x, y), sum_of_rows(y, negated(x)), z.map(Surd::times_root2)],
            },
            _ => panic!("not in a syllable: {letter}"),
        }
    }
}

// --- Tails and forms ---

/// The text of tail 64 h + 32 b + 8 c + a.
pub fn tail_text(tail: usize) -> Vec<u8> {
    let head: &[u8] = [b"".as_slice(), b"H", b"SH"][tail / 64];
    [head, &b"X"[..tail / 32 % 2], &b"SSS"[..tail / 8 % 4], &b"WWWWWWW"[..tail % 8]].concat()
}

/// The tails with their texts and their matrices.
pub struct Tails {
    texts: Vec<Vec<u8>>,
    matrices: Vec<([i64; 16], usize)>,
}

impl Tails {
    pub fn new() -> Self {
        let texts: Vec<Vec<u8>> = (0..TAILS).map(tail_text).collect();
        let key = |tail: usize| Record::<2>::of_letters(&texts[tail]).small().unwrap().1;
        let mut matrices: Vec<([i64; 16], usize)> = (0..TAILS).map(|tail| (key(tail), tail)).collect();
        matrices.sort_unstable();
        assert!(matrices.windows(2).all(|pair| pair[0].0 != pair[1].0), "two tails have one matrix");
        Tails { texts, matrices }
    }

    /// The tail with the matrix of a least record. The coefficients alone tell it: with exponent 0 two entries are
    /// zero, with exponent 1 none is.
    fn of<const N: usize>(&self, record: Record<N>) -> usize {
        let coefficients = record.small().expect("what is left is no tail").1;
        let at = self.matrices.binary_search_by(|entry| entry.0.cmp(&coefficients)).expect("what is left is no tail");
        self.matrices[at].1
    }

    /// The form with the matrix of a unitary record.
    fn form<const N: usize>(&self, record: Record<N>) -> Vec<u8> {
        let mut rest = record.least();
        let mut rotation = Rotation::of(rest);
        let mut form = Vec::new();
        while rotation.exponent > 0 {
            let exponent = rotation.exponent;
            for &letter in rotation.leftmost() {
                form.push(letter);
                rotation = rotation.without(letter);
                rest = rest.after(inverse(gate(letter))).least();
            }
            rotation = rotation.least();
            assert_eq!(rotation.exponent + 1, exponent, "a syllable must lower the exponent by one");
        }
        form.extend(&self.texts[self.of(rest)]);
        form
    }

    /// The form of a letter list, with numbers as wide as its length wants: the least exponent is at most about a
    /// quarter of the length, and the products of two coefficients have at most that many bits.
    fn form_of_letters(&self, text: &[u8]) -> Vec<u8> {
        match text.len() {
            0..=256 => self.form(Record::<2>::of_letters(text)),
            257..=1024 => self.form(Record::<6>::of_letters(text)),
            _ => self.form(Record::<20>::of_letters(text)),
        }
    }
}

/// The figures of a form: its length, its T's and its syllables HT and SHT.
fn figures(form: &[u8]) -> Figures {
    let t_count = form.iter().filter(|&&letter| letter == b'T').count();
    let h_count = form.windows(2).filter(|pair| pair == b"HT").count();
    (form.len(), t_count, h_count)
}

/// The tail of a text that is a form: what is left after T or nothing and the syllables.
fn tail_of_form(tails: &Tails, text: &[u8]) -> Option<usize> {
    let mut rest = text.strip_prefix(b"T").unwrap_or(text);
    while let Some(shorter) = rest.strip_prefix(b"HT").or_else(|| rest.strip_prefix(b"SHT")) {
        rest = shorter;
    }
    tails.texts.iter().position(|tail| tail == rest)
}

// --- The calls ---

fn checked_letters(text: &[u8], limit: usize) -> Answer<()> {
    if text.len() > limit {
        return refused(2, limit);
    }
    match text.iter().position(|byte| !LETTERS.contains(byte)) {
        Some(place) => refused(1, place),
        None => Ok(()),
    }
}

fn checked_record(exponent: u32, coefficients: &[i64; 16]) -> Answer<Record<2>> {
    if exponent > EXPONENT_LIMIT {
        return refused(4, 0);
    }
    let range = -COEFFICIENT_LIMIT..=COEFFICIENT_LIMIT;
    if let Some(index) = coefficients.iter().position(|coefficient| !range.contains(coefficient)) {
        return refused(5, index);
    }
    let record = Record::from(exponent, coefficients);
    if record.is_unitary() {
        Ok(record)
    } else {
        refused(6, 0)
    }
}

fn put(answer: &[u8], buffer: &mut [u8]) -> Answer<()> {
    match buffer.get_mut(..answer.len()) {
        Some(start) => {
            start.copy_from_slice(answer);
            Ok(())
        }
        None => refused(3, answer.len()),
    }
}

pub fn put_form(form: &[u8], buffer: &mut [u8]) -> Answer<Figures> {
    put(form, buffer)?;
    Ok(figures(form))
}

/// The form of a string, before it is put into a lent buffer; likewise of a matrix and of a frame.
pub fn form_of_string(tails: &Tails, text: &[u8]) -> Answer<Vec<u8>> {
    checked_letters(text, STRING_LIMIT)?;
    Ok(tails.form_of_letters(text))
}

pub fn form_of_matrix(tails: &Tails, exponent: u32, coefficients: &[i64; 16]) -> Answer<Vec<u8>> {
    let record = checked_record(exponent, coefficients)?;
    Ok(tails.form(record))
}

pub fn form_of_frame(tails: &Tails, text: &[u8]) -> Answer<Vec<u8>> {
    let (exponent, coefficients) = frame_to_matrix(text)?;
    form_of_matrix(tails, exponent, &coefficients)
}

/// The figures and the tail's number.
pub fn read_form(tails: &Tails, text: &[u8]) -> Answer<(Figures, usize)> {
    checked_letters(text, FORM_LIMIT)?;
    if let Some(tail) = tail_of_form(tails, text) {
        return Ok((figures(text), tail));
    }
    // Each prefix of a form is a form, so the longest is found by halves.
    let (mut form, mut no_form) = (0, text.len());
    while no_form - form > 1 {
        let middle = (form + no_form) / 2;
        if tail_of_form(tails, &text[..middle]).is_some() {
            form = middle;
        } else {
            no_form = middle;
        }
    }
    refused(7, form)
}

/// What a comparison says: the phase from 0, the same, to 7, or nothing where the strings are different.
pub type Verdict = Option<u8>;

fn phase<const N: usize>(first: &[u8], second: &[u8]) -> Verdict {
    let first = Record::<N>::of_letters(first);
    let second = Record::<N>::of_letters(second);
    let apart = |power: usize| first.entries == second.entries.map(|entry| entry.turned(power));
    (0..8).find(|&power| first.exponent == second.exponent && apart(power)).map(|power| power as u8)
}

/// A refusal has with it whether it concerns the second string.
pub fn compare(first: &[u8], second: &[u8]) -> Result<Verdict, (bool, Refusal)> {
    checked_letters(first, STRING_LIMIT).map_err(|refusal| (false, refusal))?;
    checked_letters(second, STRING_LIMIT).map_err(|refusal| (true, refusal))?;
    Ok(match first.len().max(second.len()) {
        0..=256 => phase::<2>(first, second),
        257..=1024 => phase::<6>(first, second),
        _ => phase::<20>(first, second),
    })
}

/// The exponent and coefficients of the least record of a string, where 64 bits hold them.
fn least_of_string(text: &[u8]) -> Option<(u32, [i64; 16])> {
    match text.len() {
        0..=256 => Record::<2>::of_letters(text).small(),
        257..=1024 => Record::<6>::of_letters(text).small(),
        _ => Record::<20>::of_letters(text).small(),
    }
}

pub fn string_to_matrix(text: &[u8]) -> Answer<(u32, [i64; 16])> {
    checked_letters(text, STRING_LIMIT)?;
    // No coefficient of a unitary matrix within the exponent limit is wider than 64 bits.
    match least_of_string(text) {
        Some((exponent, coefficients)) if exponent <= EXPONENT_LIMIT => Ok((exponent, coefficients)),
        _ => refused(8, 0),
    }
}

fn is_digit(byte: &u8) -> bool {
    matches!(byte, b'0'..=b'9' | b'a'..=b'f')
}

fn number(digits: &[u8]) -> u32 {
    u32::from_str_radix(std::str::from_utf8(digits).unwrap(), 16).unwrap()
}

/// The check word of an exponent and sixteen words.
pub fn check_word(exponent: u32, words: &[u32; 16]) -> u32 {
    words.iter().fold(exponent, |sum, &word| sum.wrapping_add(word))
}

pub fn frame_to_matrix(text: &[u8]) -> Answer<(u32, [i64; 16])> {
    if text.len() != FRAME_LENGTH {
        return refused(9, text.len().min(FRAME_LENGTH));
    }
    if let Some(place) = text.iter().position(|byte| !is_digit(byte)) {
        return refused(9, place);
    }
    let exponent = number(&text[..2]);
    let mut words = [0; 16];
    for (i, word) in words.iter_mut().enumerate() {
        *word = number(&text[2 + 8 * i..10 + 8 * i]);
    }
    if number(&text[CHECK_WORD_PLACE..]) != check_word(exponent, &words) {
        return refused(10, CHECK_WORD_PLACE);
    }
    let coefficients = words.map(|word| word as i32 as i64);
    checked_record(exponent, &coefficients)?;
    Ok((exponent, coefficients))
}

/// The text of a frame, whatever its record and check word.
pub fn frame_text(exponent: u32, words: &[u32; 16], check: u32) -> Vec<u8> {
    let coefficients: String = words.iter().map(|word| format!("{word:08x}")).collect();
    format!("{exponent:02x}{coefficients}{check:08x}").into_bytes()
}

pub fn matrix_to_frame(exponent: u32, coefficients: &[i64; 16], buffer: &mut [u8]) -> Answer<()> {
    checked_record(exponent, coefficients)?;
    let words = coefficients.map(|coefficient| coefficient as i32 as u32);
    put(&frame_text(exponent, &words, check_word(exponent, &words)), buffer)
}
