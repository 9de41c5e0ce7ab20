//! Random inputs from a seed: strings, forms, records and frames, valid and damaged.

use crate::exact::{self, COEFFICIENT_LIMIT, EXPONENT_LIMIT, FORM_LIMIT, FRAME_LENGTH, LETTERS, STRING_LIMIT};

/// Random numbers from a seed (SplitMix64).
pub struct Dice(u64);

impl Dice {
    pub fn new(seed: u64) -> Self {
        Dice(seed)
    }

    pub fn number(&mut self) -> u64 {
        self.0 = self.0.wrapping_add(0x9e37_79b9_7f4a_7c15);
        let mut mixed = self.0;
        mixed = (mixed ^ mixed >> 30).wrapping_mul(0xbf58_476d_1ce4_e5b9);
        mixed = (mixed ^ mixed >> 27).wrapping_mul(0x94d0_49bb_1331_11eb);
        mixed ^ mixed >> 31
    }

    pub fn below(&mut self, count: usize) -> usize {
        (self.number() % count as u64) as usize
    }

    pub fn between(&mut self, low: usize, high: usize) -> usize {
        low + self.below(high - low + 1)
    }

    pub fn pick<V: Copy>(&mut self, choices: &[V]) -> V {
        choices[self.below(choices.len())]
    }

    pub fn one_in(&mut self, count: usize) -> bool {
        self.below(count) == 0
    }
}

// --- Strings ---

fn text_of(dice: &mut Dice, pieces: &[&[u8]], length: usize) -> Vec<u8> {
    let mut text = Vec::with_capacity(length + 3);
    while text.len() < length {
        text.extend(dice.pick(pieces));
    }
    text.truncate(length);
    text
}

fn letters_of(dice: &mut Dice, letters: &[u8], length: usize) -> Vec<u8> {
    (0..length).map(|_| dice.pick(letters)).collect()
}

pub fn uniform(dice: &mut Dice, length: usize) -> Vec<u8> {
    letters_of(dice, LETTERS, length)
}

pub fn t_rich(dice: &mut Dice, length: usize) -> Vec<u8> {
    letters_of(dice, b"TTTTTTHHSXWYZ", length)
}

fn without_t(dice: &mut Dice, length: usize) -> Vec<u8> {
    letters_of(dice, b"HSWXYZ", length)
}

/// Long runs of S, Z and W, few other letters.
pub fn runs(dice: &mut Dice, length: usize) -> Vec<u8> {
    let mut text = Vec::with_capacity(length + 22);
    while text.len() < length {
        let letter = dice.pick(b"SZW");
        let count = dice.between(1, 20);
        text.extend(vec![letter; count]);
        let count = dice.below(3);
        text.extend(uniform(dice, count));
    }
    text.truncate(length);
    text
}

/// H and T in turn, at times an S: the T-count grows with the length.
fn alternating(dice: &mut Dice, length: usize) -> Vec<u8> {
    text_of(dice, &[b"HT", b"HT", b"SHT"], length)
}

/// Syllables with other letters between: a large T-count, and busy tails.
fn syllables(dice: &mut Dice, length: usize) -> Vec<u8> {
    text_of(dice, &[b"HT", b"SHT", b"XHT", b"HZT", b"WHT", b"HYT"], length)
}

fn letters(dice: &mut Dice, length: usize) -> Vec<u8> {
    let mixes = [uniform, t_rich, without_t, runs, alternating, syllables];
    dice.pick(&mixes)(dice, length)
}

/// Mostly short, some of hundreds of letters, few up to the limit.
fn usual_length(dice: &mut Dice) -> usize {
    match dice.below(2000) {
        0 => dice.between(STRING_LIMIT - 1, STRING_LIMIT),
        1 => dice.between(1025, STRING_LIMIT),
        2..=5 => dice.between(257, 1024),
        6..=105 => dice.between(40, 256),
        106..=805 => dice.below(40),
        _ => dice.below(14),
    }
}

const BAD_BYTES: &[u8] = b"\x00\r\n\t !09AGIKRUVhstwxyz[\x7f\x80\xc3\xd4\xff";

fn with_bad_bytes(dice: &mut Dice, mut text: Vec<u8>) -> Vec<u8> {
    for _ in 0..dice.between(1, 3) {
        let place = dice.below(text.len() + 1);
        let byte = dice.pick(BAD_BYTES);
        if place < text.len() && dice.one_in(2) {
            text[place] = byte;
        } else {
            text.insert(place, byte);
        }
    }
    text
}

/// A string, one in ten damaged, few too long.
pub fn string(dice: &mut Dice) -> Vec<u8> {
    let length = usual_length(dice);
    match dice.below(400) {
        0 => {
            let length = dice.pick(&[STRING_LIMIT + 1, STRING_LIMIT + 2, 5000, FORM_LIMIT, 20000]);
            let text = letters(dice, length);
            if dice.one_in(2) {
                with_bad_bytes(dice, text)
            } else {
                text
            }
        }
        1..=40 => {
            let text = letters(dice, length);
            with_bad_bytes(dice, text)
        }
        _ => letters(dice, length),
    }
}

/// Letter lists that mean the identity.
const NOTHING: [&[u8]; 9] =
    [b"HH", b"XX", b"YY", b"ZZ", b"SSSS", b"TTTTTTTT", b"WWWWWWWW", b"HSHSHSWWWWWWW", b"TXTXWWWWWWW"];

/// Another string of the same matrix, or of one that is a phase apart.
pub fn rewritten(dice: &mut Dice, text: &[u8]) -> Vec<u8> {
    let mut other = text.to_vec();
    for _ in 0..dice.below(4) {
        let place = dice.below(other.len() + 1);
        other.splice(place..place, dice.pick(&NOTHING).iter().copied());
    }
    if dice.one_in(2) {
        let place = dice.below(other.len() + 1);
        let phase = dice.below(8);
        other.splice(place..place, vec![b'W'; phase]);
    }
    other
}

// --- Forms ---

fn form_of(dice: &mut Dice, mut long_enough: impl FnMut(usize) -> bool) -> Vec<u8> {
    let mut text = b"T"[..dice.below(2)].to_vec();
    while !long_enough(text.len()) {
        text.extend(dice.pick(&[b"HT".as_slice(), b"SHT"]));
    }
    let tail = dice.below(192);
    text.extend(exact::tail_text(tail));
    text
}

/// A form by its grammar.
fn form(dice: &mut Dice) -> Vec<u8> {
    let length = match dice.below(1000) {
        0 => dice.below(FORM_LIMIT),
        1..=5 => dice.below(2500),
        6..=200 => dice.below(100),
        _ => dice.below(15),
    };
    form_of(dice, |reached| reached >= length)
}

/// A form of about the longest length that the form reader takes.
fn form_at_limit(dice: &mut Dice) -> Vec<u8> {
    let length = dice.between(FORM_LIMIT - 20, FORM_LIMIT);
    form_of(dice, |reached| reached >= length)
}

/// One letter changed, dropped, doubled or put in.
fn with_changed_letter(dice: &mut Dice, mut text: Vec<u8>) -> Vec<u8> {
    let place = dice.below(text.len() + 1);
    let letter = dice.pick(LETTERS);
    match dice.below(4) {
        0 if place < text.len() => text[place] = letter,
        1 if place < text.len() => drop(text.remove(place)),
        2 if place < text.len() => text.insert(place, text[place]),
        _ => text.insert(place, letter),
    }
    text
}

/// A text for the form reader: a form, a damaged form, or any string.
pub fn claimed_form(dice: &mut Dice) -> Vec<u8> {
    match dice.below(1000) {
        0 => form_at_limit(dice),
        1 => {
            let text = form_at_limit(dice);
            with_bad_bytes(dice, text)
        }
        2 => letters(dice, FORM_LIMIT + 1),
        3..=399 => form(dice),
        400..=799 => {
            let text = form(dice);
            with_changed_letter(dice, text)
        }
        800..=899 => {
            let text = form(dice);
            with_bad_bytes(dice, text)
        }
        _ => string(dice),
    }
}

// --- Records ---

pub type Record = (u32, [i64; 16]);

/// The same matrix with the exponent one higher: each entry times √2 = ω − ω³.
fn raised((exponent, old): Record) -> Record {
    let mut new = [0; 16];
    for i in [0, 4, 8, 12] {
        new[i] = old[i + 1] - old[i + 3];
        new[i + 1] = old[i] + old[i + 2];
        new[i + 2] = old[i + 1] + old[i + 3];
        new[i + 3] = old[i + 2] - old[i];
    }
    (exponent + 1, new)
}

/// A unitary record whose least exponent is the limit: syllables until it is reached.
pub fn record_at_limit(dice: &mut Dice) -> Record {
    let mut text = syllables(dice, 210);
    loop {
        match exact::string_to_matrix(&text) {
            Ok(record) if record.0 == EXPONENT_LIMIT => return record,
            Ok(_) => text.extend(dice.pick(&[b"HT".as_slice(), b"SHT", b"XSHT", b"WHYT"])),
            Err(_) => text.truncate(text.len() - 10),
        }
    }
}

/// A unitary record within the limits, from a string, at times not reduced.
fn unitary_record(dice: &mut Dice) -> Record {
    let length = match dice.below(200) {
        0 => return record_at_limit(dice),
        1..=9 => dice.below(200),
        10..=60 => dice.below(60),
        _ => dice.below(16),
    };
    let text = letters(dice, length);
    let mut record = match exact::string_to_matrix(&text) {
        Ok(record) => record,
        Err(_) => return unitary_record(dice),
    };
    if dice.one_in(3) {
        let end = dice.between(record.0 as usize, EXPONENT_LIMIT as usize);
        while (record.0 as usize) < end {
            record = raised(record);
        }
    }
    record
}

/// A coefficient at its limit, beyond it, or anywhere.
fn wide(dice: &mut Dice) -> i64 {
    let edge = COEFFICIENT_LIMIT;
    let any = dice.number() as i64;
    dice.pick(&[edge, -edge, edge + 1, -edge - 1, i64::MAX, i64::MIN, i32::MAX as i64, i32::MIN as i64, any])
}

/// A record damaged in one way or in two.
fn damaged_record(dice: &mut Dice, (mut exponent, mut coefficients): Record) -> Record {
    for _ in 0..dice.between(1, 2) {
        let index = dice.below(16);
        match dice.below(8) {
            0 => exponent = dice.pick(&[EXPONENT_LIMIT + 1, 255, 256, u32::MAX]),
            1 => exponent = dice.number() as u32,
            2 => exponent = exponent.saturating_sub(1),
            3 | 4 => coefficients[index] = wide(dice),
            5 => coefficients[index] = coefficients[index].wrapping_add(dice.pick(&[-1, 1])),
            6 => coefficients[index] = coefficients[index].wrapping_neg(),
            _ => coefficients.swap(index, dice.below(16)),
        }
    }
    (exponent, coefficients)
}

/// Each column's squares sum to 2^k, and most such records are not unitary.
fn tempting_record(dice: &mut Dice) -> Record {
    let mut coefficients = [0; 16];
    let [first, second] = [dice.below(4), dice.below(4)];
    for column in [0, 12] {
        coefficients[column + first] = dice.pick(&[-1, 1]);
        coefficients[column + second] = dice.pick(&[-1, 1]);
    }
    (1, coefficients)
}

/// A record of numbers from −1 to 1, at times mostly zeros.
fn small_record(dice: &mut Dice) -> Record {
    let mut coefficients = [0; 16];
    let sparse = dice.one_in(2);
    for coefficient in coefficients.iter_mut() {
        if !sparse || dice.one_in(4) {
            *coefficient = dice.pick(&[-1, 0, 1]);
        }
    }
    (dice.below(4) as u32, coefficients)
}

/// A record: unitary, damaged, or of small random numbers.
pub fn record(dice: &mut Dice) -> Record {
    match dice.below(20) {
        0 => tempting_record(dice),
        1 | 2 => small_record(dice),
        3..=8 => {
            let record = unitary_record(dice);
            damaged_record(dice, record)
        }
        _ => unitary_record(dice),
    }
}

// --- Frames ---

pub fn frame_of((exponent, coefficients): Record) -> Vec<u8> {
    let words = coefficients.map(|coefficient| coefficient as i32 as u32);
    exact::frame_text(exponent % 256, &words, exact::check_word(exponent % 256, &words))
}

fn damaged_frame(dice: &mut Dice, mut text: Vec<u8>) -> Vec<u8> {
    let place = dice.below(FRAME_LENGTH);
    match dice.below(8) {
        0 => text.truncate(place),
        1 => text.extend(dice.pick(&[b"\r".as_slice(), b"\n", b"0", b"0123456789abcdef", &[b'0'; 200]])),
        2 => text[place] = dice.pick(b"/:`gABCDEFGxX \r\x00\x80\xff+-"),
        3 => text.insert(place, dice.pick(b"0f")),
        4 => text = uniform(dice, place),
        _ => {
            for _ in 0..dice.between(1, 2) {
                let place = dice.below(FRAME_LENGTH);
                text[place] = dice.pick(b"0123456789abcdef");
            }
        }
    }
    text
}

/// A frame: of any record with a right check word, or damaged.
pub fn frame(dice: &mut Dice) -> Vec<u8> {
    let text = frame_of(record(dice));
    if dice.one_in(4) {
        damaged_frame(dice, text)
    } else {
        text
    }
}
