//! Chorvadhim from Rust: slices in, an enum out.
//!
//! The boundary (`chorvadhim.h`) asks for memory that is there, aligned, shorter than 2^63 bytes, and lent to nobody else
//! while it is written. Rust's slices and arrays are all of that, whatever their length, so no call has to be refused here.
//! It also asks for a megabyte of stack: half of what a Rust thread has by default.
//! What the types do not say is tested: the processor when this is compiled, and each answer word when it is taken apart,
//! so a library that answered outside its table would be stopped here.

#[cfg(not(all(target_arch = "x86_64", target_pointer_width = "64")))]
compile_error!("the static library is for x86-64");

#[link(name = "chorvadhim", kind = "static")]
extern "C" {
    fn chorvadhim_string_to_form(text: *const u8, text_length: usize, buffer: *mut u8, buffer_length: usize) -> u64;
    fn chorvadhim_matrix_to_form(exponent: u32, coefficients: *const i64, buffer: *mut u8, buffer_length: usize) -> u64;
    fn chorvadhim_frame_to_form(text: *const u8, text_length: usize, buffer: *mut u8, buffer_length: usize) -> u64;
    fn chorvadhim_read_form(text: *const u8, text_length: usize) -> u64;
    fn chorvadhim_compare(first: *const u8, first_length: usize, second: *const u8, second_length: usize) -> u64;
    fn chorvadhim_string_to_matrix(text: *const u8, text_length: usize, coefficients: *mut i64) -> u64;
    fn chorvadhim_frame_to_matrix(text: *const u8, text_length: usize, coefficients: *mut i64) -> u64;
    fn chorvadhim_matrix_to_frame(exponent: u32, coefficients: *const i64, buffer: *mut u8, buffer_length: usize) -> u64;
}

/// The coefficients of a matrix record: top left, top right, bottom left, bottom right, each a0, a1, a2, a3.
pub type Coefficients = [i64; 16];

/// The table of refusals.
#[derive(Clone, Copy, Debug, PartialEq, Eq)]
pub enum Refusal {
    BadLetter { place: u32 },
    TooLong { limit: u32 },
    NoRoom { needed: u32 },
    HighExponent,
    WideCoefficient { index: u32 },
    NotUnitary,
    NotForm { prefix: u32 },
    HighLeastExponent,
    BadFrame { place: u32 },
    BadCheckWord,
}

const CHECK_WORD_PLACE: u32 = 130;

impl Refusal {
    /// The number of the refusal in the table.
    pub fn number(self) -> u8 {
        match self {
            Refusal::BadLetter { .. } => 1,
            Refusal::TooLong { .. } => 2,
            Refusal::NoRoom { .. } => 3,
            Refusal::HighExponent => 4,
            Refusal::WideCoefficient { .. } => 5,
            Refusal::NotUnitary => 6,
            Refusal::NotForm { .. } => 7,
            Refusal::HighLeastExponent => 8,
            Refusal::BadFrame { .. } => 9,
            Refusal::BadCheckWord => 10,
        }
    }

    /// The place that the table returns with it.
    pub fn place(self) -> u32 {
        match self {
            Refusal::BadLetter { place } | Refusal::BadFrame { place } => place,
            Refusal::TooLong { limit } => limit,
            Refusal::NoRoom { needed } => needed,
            Refusal::WideCoefficient { index } => index,
            Refusal::NotForm { prefix } => prefix,
            Refusal::HighExponent | Refusal::NotUnitary | Refusal::HighLeastExponent => 0,
            Refusal::BadCheckWord => CHECK_WORD_PLACE,
        }
    }

    fn of(number: u64, place: u32) -> Option<Refusal> {
        let refusal = match number {
            1 => Refusal::BadLetter { place },
            2 => Refusal::TooLong { limit: place },
            3 => Refusal::NoRoom { needed: place },
            4 => Refusal::HighExponent,
            5 => Refusal::WideCoefficient { index: place },
            6 => Refusal::NotUnitary,
            7 => Refusal::NotForm { prefix: place },
            8 => Refusal::HighLeastExponent,
            9 => Refusal::BadFrame { place },
            10 => Refusal::BadCheckWord,
            _ => return None,
        };
        if refusal.place() == place {
            Some(refusal)
        } else {
            None
        }
    }
}

/// What an answer with a form carries.
#[derive(Clone, Copy, Debug, PartialEq, Eq)]
pub struct Figures {
    pub length: usize,
    pub t_count: usize,
    pub h_count: usize,
}

/// What the form reader answers.
#[derive(Clone, Copy, Debug, PartialEq, Eq)]
pub struct Reading {
    pub figures: Figures,
    pub tail: u8,
}

/// What a comparison answers of two strings.
#[derive(Clone, Copy, Debug, PartialEq, Eq)]
pub enum Compared {
    Same,
    /// The first is ω^j times the second, j from 1 to 7.
    Phase(u8),
    Different,
}

/// The string that a refusal of a comparison concerns.
#[derive(Clone, Copy, Debug, PartialEq, Eq)]
pub enum Which {
    First,
    Second,
}

fn broken(word: u64) -> ! {
    panic!("the library gave the answer word {word:#018x}, which is outside its table")
}

/// The bits of a word from one place up to another.
fn bits(word: u64, from: u32, to: u32) -> u64 {
    word >> from & ((1 << (to - from)) - 1)
}

/// The word of an accepted input, or the refusal. A refusal leaves the bits from `end` up at 0.
fn accepted(word: u64, end: u32) -> Result<u64, Refusal> {
    let number = bits(word, 0, 8);
    if number == 0 {
        return Ok(word);
    }
    match Refusal::of(number, bits(word, 8, 40) as u32) {
        Some(refusal) if word >> end == 0 => Err(refusal),
        _ => broken(word),
    }
}

/// An accepted word, which is 0 from `end` up.
fn ending(word: u64, end: u32) -> u64 {
    if word >> end != 0 {
        broken(word)
    }
    word
}

fn figures(word: u64) -> Figures {
    Figures {
        length: bits(word, 8, 24) as usize,
        t_count: bits(word, 24, 40) as usize,
        h_count: bits(word, 40, 56) as usize,
    }
}

/// The figures of a form, which lies in the room that was lent.
fn written(word: u64, room: usize) -> Result<Figures, Refusal> {
    let figures = figures(ending(accepted(word, 40)?, 56));
    if figures.length > room {
        broken(word)
    }
    Ok(figures)
}

fn exponent(word: u64) -> Result<u32, Refusal> {
    Ok(bits(ending(accepted(word, 40)?, 40), 8, 40) as u32)
}

/// String to form, written at the start of the buffer.
pub fn string_to_form(text: &[u8], buffer: &mut [u8]) -> Result<Figures, Refusal> {
    // Safety: each pointer and length is a slice's, and the one that is written is lent to this call alone.
    let word = unsafe { chorvadhim_string_to_form(text.as_ptr(), text.len(), buffer.as_mut_ptr(), buffer.len()) };
    written(word, buffer.len())
}

/// Matrix to form, written at the start of the buffer.
pub fn matrix_to_form(exponent: u32, coefficients: &Coefficients, buffer: &mut [u8]) -> Result<Figures, Refusal> {
    // Safety: as above; the array has the sixteen places that the boundary asks for.
    let word = unsafe { chorvadhim_matrix_to_form(exponent, coefficients.as_ptr(), buffer.as_mut_ptr(), buffer.len()) };
    written(word, buffer.len())
}

/// Frame to form, written at the start of the buffer.
pub fn frame_to_form(text: &[u8], buffer: &mut [u8]) -> Result<Figures, Refusal> {
    // Safety: as above.
    let word = unsafe { chorvadhim_frame_to_form(text.as_ptr(), text.len(), buffer.as_mut_ptr(), buffer.len()) };
    written(word, buffer.len())
}

/// The form reader.
pub fn read_form(text: &[u8]) -> Result<Reading, Refusal> {
    // Safety: as above.
    let word = accepted(unsafe { chorvadhim_read_form(text.as_ptr(), text.len()) }, 40)?;
    let tail = bits(word, 56, 64) as u8;
    if tail >= 192 {
        broken(word)
    }
    Ok(Reading { figures: figures(word), tail })
}

/// Comparison of two strings. A refusal says which string it concerns.
pub fn compare(first: &[u8], second: &[u8]) -> Result<Compared, (Which, Refusal)> {
    // Safety: as above.
    let word = unsafe { chorvadhim_compare(first.as_ptr(), first.len(), second.as_ptr(), second.len()) };
    let which = if bits(word, 40, 41) == 0 { Which::First } else { Which::Second };
    let word = accepted(word, 41).map_err(|refusal| (which, refusal))?;
    Ok(match bits(ending(word, 16), 8, 16) {
        0 => Compared::Same,
        j @ 1..=7 => Compared::Phase(j as u8),
        8 => Compared::Different,
        _ => broken(word),
    })
}

/// String to matrix: the exponent of the least record, whose coefficients are written.
pub fn string_to_matrix(text: &[u8], coefficients: &mut Coefficients) -> Result<u32, Refusal> {
    // Safety: as above.
    exponent(unsafe { chorvadhim_string_to_matrix(text.as_ptr(), text.len(), coefficients.as_mut_ptr()) })
}

/// Frame to matrix: the exponent of the record as the frame has it, whose coefficients are written.
pub fn frame_to_matrix(text: &[u8], coefficients: &mut Coefficients) -> Result<u32, Refusal> {
    // Safety: as above.
    exponent(unsafe { chorvadhim_frame_to_matrix(text.as_ptr(), text.len(), coefficients.as_mut_ptr()) })
}

/// Matrix to frame, 138 digits written at the start of the buffer.
pub fn matrix_to_frame(exponent: u32, coefficients: &Coefficients, buffer: &mut [u8]) -> Result<(), Refusal> {
    // Safety: as above.
    let word = unsafe { chorvadhim_matrix_to_frame(exponent, coefficients.as_ptr(), buffer.as_mut_ptr(), buffer.len()) };
    ending(accepted(word, 40)?, 8);
    Ok(())
}
