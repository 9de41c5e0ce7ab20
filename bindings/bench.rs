//! The benchmark: the library beside a plain Rust program of the same job (`plain.rs`), on the same inputs, buffers cleared
//! before each pass. Prints a table; `--write MACHINE` also puts it into docs/BENCHMARK.md, with a plot.

#[allow(dead_code)]
mod exact;
#[allow(dead_code)]
mod inputs;
mod plain;
mod whole;

use inputs::{Dice, Record};
use std::fmt::Write;
use std::time::{Duration, Instant};

const SEED: u64 = 2008_2013;
/// Passes over the inputs of a row, one of each program in turn; the fastest counts.
const PASSES: usize = 101;
/// Letters in all inputs of a row together.
const LETTERS: usize = 1 << 16;
const RECORDS: usize = 512;

/// What a row of the table says: nanoseconds for one call.
struct Row {
    call: &'static str,
    input: String,
    ours: f64,
    plain: f64,
}

impl Row {
    fn ratio(&self) -> f64 {
        self.ours / self.plain
    }
}

/// One pass: each input with a cleared buffer of its own.
fn pass<I, B, R>(inputs: &[I], buffers: &mut [B], answers: &mut Vec<R>, call: impl Fn(&I, &mut B) -> R) -> Duration {
    answers.clear();
    let start = Instant::now();
    for (input, buffer) in inputs.iter().zip(buffers) {
        answers.push(call(input, buffer));
    }
    start.elapsed()
}

/// Nanoseconds for one call of so many in a pass.
fn one_call(pass: Duration, calls: usize) -> f64 {
    pass.as_nanos() as f64 / calls as f64
}

/// Times the two programs in turn; their answers and their buffers must be equal.
fn measured<I, B: Clone + PartialEq, R: PartialEq>(
    call: &'static str,
    input: String,
    inputs: &[I],
    cleared: B,
    ours: impl Fn(&I, &mut B) -> R,
    plain: impl Fn(&I, &mut B) -> R,
) -> Row {
    let cleared = vec![cleared; inputs.len()];
    let (mut first, mut second) = (cleared.clone(), cleared.clone());
    let (mut our_answers, mut plain_answers) = (Vec::with_capacity(inputs.len()), Vec::with_capacity(inputs.len()));
    let (mut our_time, mut plain_time) = (Duration::MAX, Duration::MAX);
    for _ in 0..PASSES {
        first.clone_from_slice(&cleared);
        our_time = our_time.min(pass(inputs, &mut first, &mut our_answers, &ours));
        second.clone_from_slice(&cleared);
        plain_time = plain_time.min(pass(inputs, &mut second, &mut plain_answers, &plain));
        assert!(our_answers == plain_answers && first == second, "the two programs differ");
    }
    Row { call, input, ours: one_call(our_time, inputs.len()), plain: one_call(plain_time, inputs.len()) }
}

// --- The answers of both programs, in one type ---

type Answer<V> = Result<V, (u8, usize)>;

fn refusal(refusal: chorvadhim::Refusal) -> (u8, usize) {
    (refusal.number(), refusal.place() as usize)
}

fn written(answer: Result<chorvadhim::Figures, chorvadhim::Refusal>) -> Answer<plain::Figures> {
    answer.map(|figures| (figures.length, figures.t_count, figures.h_count)).map_err(refusal)
}

fn plain_frame_to_matrix(text: &[u8], coefficients: &mut [i64; 16]) -> Answer<u32> {
    let (exponent, read) = plain::frame_to_matrix(text)?;
    *coefficients = read;
    Ok(exponent)
}

// --- The rows ---

type Maker = fn(&mut Dice, usize) -> Vec<u8>;

const KINDS: [(&str, Maker); 3] =
    [("random", inputs::uniform), ("T-rich", inputs::t_rich), ("runs of S, Z, W", inputs::runs)];

fn string_row(input: String, texts: &[Vec<u8>]) -> Row {
    measured(
        "string to form",
        input,
        texts,
        vec![0; 3 * texts[0].len() + 13],
        |text, buffer| written(chorvadhim::string_to_form(text, buffer)),
        |text, buffer| plain::string_to_form(text, buffer),
    )
}

fn strings(dice: &mut Dice, rows: &mut Vec<Row>) {
    rows.push(string_row("no letters".into(), &vec![Vec::new(); 4096]));
    for length in [16, 256, 4096] {
        for (kind, maker) in KINDS {
            let texts: Vec<Vec<u8>> = (0..LETTERS / length).map(|_| maker(dice, length)).collect();
            rows.push(string_row(format!("{} letters, {}", length, kind), &texts));
        }
    }
}

fn records(records: &[Record], rows: &mut Vec<Row>) {
    let room = vec![0; 256];
    rows.push(measured(
        "matrix to form",
        "k = 40".into(),
        records,
        room.clone(),
        |(exponent, coefficients), buffer| written(chorvadhim::matrix_to_form(*exponent, coefficients, buffer)),
        |(exponent, coefficients), buffer| plain::matrix_to_form(*exponent, coefficients, buffer),
    ));
    rows.push(measured(
        "matrix to frame",
        "k = 40".into(),
        records,
        room,
        |(exponent, coefficients), buffer| chorvadhim::matrix_to_frame(*exponent, coefficients, buffer).map_err(refusal),
        |(exponent, coefficients), buffer| plain::matrix_to_frame(*exponent, coefficients, buffer),
    ));
}

fn frames(frames: &[Vec<u8>], rows: &mut Vec<Row>) {
    rows.push(measured(
        "frame to matrix",
        "k = 40".into(),
        frames,
        [0; 16],
        |text, coefficients| chorvadhim::frame_to_matrix(text, coefficients).map_err(refusal),
        |text, coefficients| plain_frame_to_matrix(text, coefficients),
    ));
    rows.push(measured(
        "frame to form",
        "k = 40".into(),
        frames,
        vec![0; 256],
        |text, buffer| written(chorvadhim::frame_to_form(text, buffer)),
        |text, buffer| plain::frame_to_form(text, buffer),
    ));
}

// --- The table and the plot ---

fn table(rows: &[Row]) -> String {
    let mut text = String::from("| Call | Input | Chorvadhim, ns | plain Rust, ns | ratio |\n|---|---|---:|---:|---:|\n");
    for row in rows {
        let numbers = format!("{:.0} | {:.0} | {:.2}", row.ours, row.plain, row.ratio());
        writeln!(text, "| {} | {} | {} |", row.call, row.input, numbers).unwrap();
    }
    text
}

const LINE: usize = 22;
const LEFT: usize = 290;
const WIDTH: f64 = 340.0;

/// Bars of the ratios; the lines stand at 1 and 2.
fn plot(rows: &[Row]) -> String {
    let most = rows.iter().map(Row::ratio).fold(2.0, f64::max);
    let place = |ratio: f64| LEFT as f64 + ratio / most * WIDTH;
    let height = LINE * rows.len() + 50;
    let font = "font-family=\"sans-serif\" font-size=\"12\"";
    let mut svg = format!("<svg xmlns=\"http://www.w3.org/2000/svg\" width=\"700\" height=\"{}\" {}>\n", height, font);
    svg += "<rect width=\"100%\" height=\"100%\" fill=\"white\"/>\n";
    for (i, row) in rows.iter().enumerate() {
        let (y, end) = (10 + LINE * i, place(row.ratio()));
        let label = format!("{}, {}", row.call, row.input);
        writeln!(svg, "<text x=\"{}\" y=\"{}\" text-anchor=\"end\">{}</text>", LEFT - 8, y + 13, label).unwrap();
        let width = end - LEFT as f64;
        writeln!(svg, "<rect x=\"{}\" y=\"{}\" width=\"{:.1}\" height=\"15\" fill=\"#4878a8\"/>", LEFT, y, width).unwrap();
        writeln!(svg, "<text x=\"{:.1}\" y=\"{}\">{:.2}</text>", end + 5.0, y + 13, row.ratio()).unwrap();
    }
    for ratio in [1.0, 2.0] {
        let (x, end) = (place(ratio), height - 35);
        let line = format!("<line x1=\"{x:.1}\" x2=\"{x:.1}\" y1=\"4\" y2=\"{end}\" stroke=\"#c04030\"/>");
        writeln!(svg, "{}<text x=\"{:.1}\" y=\"{}\" text-anchor=\"middle\">{}</text>", line, x, end + 14, ratio).unwrap();
    }
    let words = "time of Chorvadhim / time of plain Rust";
    writeln!(svg, "<text x=\"{}\" y=\"{}\">{}</text>\n</svg>", LEFT, height - 6, words).unwrap();
    svg
}

const PAGE: &str = "docs/BENCHMARK.md";
const BEGIN: &str = "<!-- measured -->\n";
const END: &str = "<!-- end of measured -->\n";

/// Puts the table between the two marks of the page; what stands around them is written by hand.
fn write(rows: &[Row], machine: &str) -> std::io::Result<()> {
    let page = std::fs::read_to_string(PAGE)?;
    let from = page.find(BEGIN).expect("the page has no mark for the table") + BEGIN.len();
    let to = page.find(END).expect("the page has no mark for the table's end");
    let measured = format!("\nTaken on: {}.\n\n{}\n", machine, table(rows));
    std::fs::write(PAGE, [&page[..from], &measured, &page[to..]].concat())?;
    std::fs::write("docs/benchmark.svg", plot(rows))
}

fn main() -> std::io::Result<()> {
    let mut dice = Dice::new(SEED);
    let mut rows = Vec::new();
    strings(&mut dice, &mut rows);
    let at_limit: Vec<Record> = (0..RECORDS).map(|_| inputs::record_at_limit(&mut dice)).collect();
    records(&at_limit, &mut rows);
    let texts: Vec<Vec<u8>> = at_limit.iter().map(|&record| inputs::frame_of(record)).collect();
    frames(&texts, &mut rows);
    print!("{}", table(&rows));
    let words: Vec<String> = std::env::args().skip(1).collect();
    match words.as_slice() {
        [word, machine] if word == "--write" => write(&rows, machine),
        _ => Ok(()),
    }
}
