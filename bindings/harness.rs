//! Drives every call of the library through the safe wrapper with random inputs, valid and damaged, and holds each answer,
//! each refusal with its place and every lent byte to an implementation of its own (`exact.rs`).

mod exact;
mod inputs;
mod whole;

use exact::{Answer, Tails, FORM_LIMIT, FRAME_LENGTH};
use inputs::Dice;
use std::sync::atomic::{AtomicUsize, Ordering};
use std::sync::Mutex;
use std::thread;

const SEED: u64 = 2008_2013;
const CHUNK: usize = 5000;
const SHOWN: u64 = 5;

/// A call, the refusals that document 01 lists for it, how many random inputs it gets, and how one is tried.
struct Call {
    name: &'static str,
    refusals: &'static [u8],
    inputs: usize,
    test: fn(&mut Dice, &Tails, &mut Tally),
}

static CALLS: [Call; 8] = [
    Call { name: "string_to_form", refusals: &[2, 1, 3], inputs: 350_000, test: test_string_to_form },
    Call { name: "matrix_to_form", refusals: &[4, 5, 6, 3], inputs: 200_000, test: test_matrix_to_form },
    Call { name: "frame_to_form", refusals: &[9, 10, 4, 5, 6, 3], inputs: 150_000, test: test_frame_to_form },
    Call { name: "read_form", refusals: &[2, 1, 7], inputs: 250_000, test: test_read_form },
    Call { name: "compare", refusals: &[2, 1], inputs: 150_000, test: test_compare },
    Call { name: "string_to_matrix", refusals: &[2, 1, 8], inputs: 150_000, test: test_string_to_matrix },
    Call { name: "frame_to_matrix", refusals: &[9, 10, 4, 5, 6], inputs: 150_000, test: test_frame_to_matrix },
    Call { name: "matrix_to_frame", refusals: &[4, 5, 6, 3], inputs: 150_000, test: test_matrix_to_frame },
];

/// The inputs of a call, counted by what came of them.
struct Tally {
    call: &'static Call,
    accepted: u64,
    refused: [u64; 11],
    failed: u64,
}

impl Tally {
    fn new(call: &'static Call) -> Self {
        Tally { call, accepted: 0, refused: [0; 11], failed: 0 }
    }

    fn add(&mut self, other: &Tally) {
        self.accepted += other.accepted;
        self.failed += other.failed;
        for (sum, more) in self.refused.iter_mut().zip(other.refused) {
            *sum += more;
        }
    }

    /// One input: what was wanted, whether it came, and a line that tells the input and both answers.
    fn count<V>(&mut self, wanted: &Answer<V>, came: bool, line: impl Fn() -> String) {
        match wanted {
            Ok(_) => self.accepted += 1,
            Err(refusal) => self.refused[refusal.number as usize] += 1,
        }
        if !came {
            self.failed += 1;
            if self.failed <= SHOWN {
                eprintln!("{}: {}", self.call.name, line());
            }
        }
    }

    fn inputs(&self) -> u64 {
        self.accepted + self.refused.iter().sum::<u64>()
    }

    /// Inputs were accepted, and refused with each listed number and no other.
    fn is_whole(&self) -> bool {
        let listed = |number: usize| self.call.refusals.contains(&(number as u8));
        self.accepted > 0 && (0..11).all(|number| listed(number) == (self.refused[number] > 0))
    }

    fn line(&self) -> String {
        let seen = |number: &u8| format!("  {}: {}", number, self.refused[*number as usize]);
        let refused: String = self.call.refusals.iter().map(seen).collect();
        format!("{:17}{:8} inputs, accepted {:7}, refused{}", self.call.name, self.inputs(), self.accepted, refused)
    }
}

// --- Lent memory: a part of a larger area, all of which is compared afterwards ---

const MARGIN: usize = 24;

#[derive(Clone, PartialEq)]
struct Lent(Vec<u8>);

impl Lent {
    fn new(dice: &mut Dice, room: usize) -> Self {
        let pattern = dice.number();
        Lent((0..room + 2 * MARGIN).map(|i| (pattern >> (i % 57)) as u8).collect())
    }

    fn room(&mut self) -> &mut [u8] {
        let end = self.0.len() - MARGIN;
        &mut self.0[MARGIN..end]
    }
}

/// As much room as the answer needs, a little more or less, or any.
fn room_about(dice: &mut Dice, needed: usize) -> usize {
    match dice.below(8) {
        0 => needed.saturating_sub(1),
        1 => dice.below(needed + 1),
        2 => 0,
        3 | 4 => needed,
        5 => needed + 1,
        _ => needed + dice.below(64),
    }
}

// --- One input of each call ---

fn refusal(refusal: chorvadhim::Refusal) -> exact::Refusal {
    exact::Refusal { number: refusal.number(), place: refusal.place() as usize }
}

fn figures(figures: chorvadhim::Figures) -> exact::Figures {
    (figures.length, figures.t_count, figures.h_count)
}

fn shown(bytes: &[u8]) -> String {
    bytes.escape_ascii().to_string()
}

/// What a call answers, or nothing where it changed the input that it was lent to read.
fn answered<I: Clone + PartialEq, V>(input: &I, call: impl FnOnce(&I) -> V) -> Option<V> {
    let before = input.clone();
    let given = call(input);
    (*input == before).then_some(given)
}

/// A call that writes a form into a lent buffer.
fn test_written<I: Clone + PartialEq>(
    dice: &mut Dice,
    tally: &mut Tally,
    input: &I,
    form: Answer<Vec<u8>>,
    call: impl Fn(&I, &mut [u8]) -> Result<chorvadhim::Figures, chorvadhim::Refusal>,
    shown_input: impl Fn() -> String,
) {
    let room = room_about(dice, form.as_ref().map_or(20, Vec::len));
    let mut ours = Lent::new(dice, room);
    let mut wanted = ours.clone();
    let answer = form.and_then(|form| exact::put_form(&form, wanted.room()));
    let given = answered(input, |input| call(input, ours.room()).map(figures).map_err(refusal));
    let came = given == Some(answer) && ours == wanted;
    let line = || format!("{} with room {}: {:?}, wanted {:?}, lent {}", shown_input(), room, given, answer, shown(&ours.0));
    tally.count(&answer, came, line);
}

fn test_string_to_form(dice: &mut Dice, tails: &Tails, tally: &mut Tally) {
    let text = inputs::string(dice);
    let form = exact::form_of_string(tails, &text);
    test_written(dice, tally, &text, form, |text, buffer| chorvadhim::string_to_form(text, buffer), || shown(&text));
}

fn test_matrix_to_form(dice: &mut Dice, tails: &Tails, tally: &mut Tally) {
    let record = inputs::record(dice);
    let form = exact::form_of_matrix(tails, record.0, &record.1);
    let call = |record: &inputs::Record, buffer: &mut [u8]| chorvadhim::matrix_to_form(record.0, &record.1, buffer);
    test_written(dice, tally, &record, form, call, || format!("{:?}", record));
}

fn test_frame_to_form(dice: &mut Dice, tails: &Tails, tally: &mut Tally) {
    let text = inputs::frame(dice);
    let form = exact::form_of_frame(tails, &text);
    test_written(dice, tally, &text, form, |text, buffer| chorvadhim::frame_to_form(text, buffer), || shown(&text));
}

fn test_read_form(dice: &mut Dice, tails: &Tails, tally: &mut Tally) {
    let text = inputs::claimed_form(dice);
    let wanted = exact::read_form(tails, &text);
    let numbers = |reading: chorvadhim::Reading| (figures(reading.figures), reading.tail as usize);
    let given = answered(&text, |text| chorvadhim::read_form(text).map(numbers).map_err(refusal));
    tally.count(&wanted, given == Some(wanted), || format!("{}: {:?}, wanted {:?}", shown(&text), given, wanted));
}

fn test_compare(dice: &mut Dice, _: &Tails, tally: &mut Tally) {
    let first = inputs::string(dice);
    let other = if dice.one_in(3) { inputs::string(dice) } else { inputs::rewritten(dice, &first) };
    // At times both strings are one and the same memory.
    let second = if dice.one_in(16) { &first } else { &other };
    let wanted = exact::compare(&first, second);
    let verdict = |compared: chorvadhim::Compared| match compared {
        chorvadhim::Compared::Same => Some(0),
        chorvadhim::Compared::Phase(phase) => Some(phase),
        chorvadhim::Compared::Different => None,
    };
    let refused = |(which, given)| (which == chorvadhim::Which::Second, refusal(given));
    let call = |first: &Vec<u8>| answered(second, |second| chorvadhim::compare(first, second).map(verdict).map_err(refused));
    let given = answered(&first, call).flatten();
    let line = || format!("{} {}: {:?}, wanted {:?}", shown(&first), shown(second), given, wanted);
    tally.count(&wanted.map_err(|(_, refusal)| refusal), given == Some(wanted), line);
}

/// A call that writes a record's coefficients into a lent array.
fn test_coefficients(
    dice: &mut Dice,
    tally: &mut Tally,
    text: &Vec<u8>,
    wanted: Answer<inputs::Record>,
    call: impl Fn(&[u8], &mut chorvadhim::Coefficients) -> Result<u32, chorvadhim::Refusal>,
) {
    // Three arrays beside each other: the outer two must stay.
    let mut lent = [[dice.number() as i64; 16]; 3];
    let mut after = lent;
    if let Ok((_, coefficients)) = wanted {
        after[1] = coefficients;
    }
    let given = answered(text, |text| call(text, &mut lent[1]).map_err(refusal));
    let came = given == Some(wanted.map(|(exponent, _)| exponent)) && lent == after;
    tally.count(&wanted, came, || format!("{}: {:?} {:?}, wanted {:?}", shown(text), given, lent, wanted));
}

fn test_string_to_matrix(dice: &mut Dice, _: &Tails, tally: &mut Tally) {
    let text = inputs::string(dice);
    let wanted = exact::string_to_matrix(&text);
    test_coefficients(dice, tally, &text, wanted, chorvadhim::string_to_matrix);
}

fn test_frame_to_matrix(dice: &mut Dice, _: &Tails, tally: &mut Tally) {
    let text = inputs::frame(dice);
    let wanted = exact::frame_to_matrix(&text);
    test_coefficients(dice, tally, &text, wanted, chorvadhim::frame_to_matrix);
}

fn test_matrix_to_frame(dice: &mut Dice, _: &Tails, tally: &mut Tally) {
    let record = inputs::record(dice);
    let room = room_about(dice, FRAME_LENGTH);
    let mut ours = Lent::new(dice, room);
    let mut wanted = ours.clone();
    let answer = exact::matrix_to_frame(record.0, &record.1, wanted.room());
    let call = |record: &inputs::Record| chorvadhim::matrix_to_frame(record.0, &record.1, ours.room()).map_err(refusal);
    let given = answered(&record, call);
    let line = || format!("{:?} with room {}: {:?}, wanted {:?}, lent {}", record, room, given, answer, shown(&ours.0));
    tally.count(&answer, given == Some(answer) && ours == wanted, line);
}

// --- All inputs, in chunks of their own seeds, on every processor ---

fn chunks() -> Vec<(&'static Call, usize)> {
    let sizes = |inputs: usize| (0..inputs).step_by(CHUNK).map(move |from| CHUNK.min(inputs - from));
    CALLS.iter().flat_map(|call| sizes(call.inputs).map(move |size| (call, size))).collect()
}

fn run_chunk(index: usize, call: &'static Call, size: usize, tails: &Tails) -> Tally {
    let mut dice = Dice::new(SEED.wrapping_add((index as u64) << 32));
    let mut tally = Tally::new(call);
    for _ in 0..size {
        (call.test)(&mut dice, tails, &mut tally);
    }
    tally
}

fn run_all() -> Vec<Tally> {
    let tails = Tails::new();
    let chunks = chunks();
    let next = AtomicUsize::new(0);
    let tallies = Mutex::new(CALLS.iter().map(Tally::new).collect::<Vec<Tally>>());
    let work = || loop {
        let index = next.fetch_add(1, Ordering::Relaxed);
        if index >= chunks.len() {
            return;
        }
        let (call, size) = chunks[index];
        let tally = run_chunk(index, call, size, &tails);
        let mut tallies = tallies.lock().unwrap();
        tallies.iter_mut().find(|sum| sum.call.name == call.name).unwrap().add(&tally);
    };
    let threads = thread::available_parallelism().map_or(1, |count| count.get());
    thread::scope(|scope| (0..threads).for_each(|_| drop(scope.spawn(work))));
    tallies.into_inner().unwrap()
}

/// The stack that the boundary asks for is enough for the form of the most syllables; else the program is stopped here.
fn test_stack() {
    let read = || chorvadhim::read_form(&b"HT".repeat(FORM_LIMIT / 2)).is_ok();
    let thread = thread::Builder::new().stack_size(1 << 20).spawn(read).unwrap();
    assert!(thread.join().unwrap(), "a form was refused");
}

fn main() {
    test_stack();
    let (mut inputs, mut failed) = (0, 0);
    for tally in run_all() {
        println!("{}", tally.line());
        inputs += tally.inputs();
        failed += tally.failed;
        if !tally.is_whole() {
            println!("{}: the inputs do not bring up exactly the listed refusals", tally.call.name);
            failed += 1;
        }
    }
    println!("{} passed, {} failed", inputs.saturating_sub(failed), failed);
    std::process::exit(i32::from(failed > 0));
}
