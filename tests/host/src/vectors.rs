//! The outside cases of tests/vectors/library.txt, a line a case: fields between `|`, numbers in decimal. The file has every call of
//! the library with the answers that are right today, and a landing replaces it whole. Its rows are run by kind, and a kind that is
//! not known here fails.

use crate::library::{self, Answer, Direction, Toward};
use crate::programs::printed;
use crate::Tried;
use std::fmt::Debug;

/// What lies in an output before a call, so that a store anywhere shows.
pub const LENT: u16 = 0xA5C3;
pub const LENT_BYTE: u8 = 0xC3;

/// Elements behind a lent output, which no call may reach.
pub const BEHIND: usize = 16;

fn text() -> String {
    let path = concat!(env!("CARGO_MANIFEST_DIR"), "/../vectors/library.txt");
    std::fs::read_to_string(path).expect("the vectors are in the repository")
}

fn kind_of(line: &str) -> &str {
    line.split_whitespace().next().unwrap_or("")
}

/// The kinds of the rows, in the order in which they come.
pub fn kinds() -> Vec<String> {
    let mut kinds: Vec<String> = vec![];
    for line in text().lines() {
        if !kinds.iter().any(|kind| kind == kind_of(line)) {
            kinds.push(kind_of(line).to_string());
        }
    }
    kinds
}

/// Runs every row of a kind.
pub fn of_kind(kind: &str, run: impl Fn(&str) -> Result<(), String>) -> Tried {
    let mut tried = Tried::default();
    for line in text().lines().filter(|line| kind_of(line) == kind) {
        tried.cases += 1;
        if let Err(what) = run(line) {
            tried.wrong.push(format!("{line}: {what}"));
        }
    }
    tried
}

fn numbers(field: &str) -> Vec<u64> {
    field.split_whitespace().map(|word| word.parse().expect("a decimal number")).collect()
}

fn bytes_of(field: &str) -> Vec<u8> {
    numbers(field).iter().map(|&n| n as u8).collect()
}

fn words_of(field: &str) -> Vec<u16> {
    numbers(field).iter().map(|&n| n as u16).collect()
}

fn fields_of(line: &str) -> Vec<&str> {
    line.split('|').map(str::trim).collect()
}

fn refused(field: &str) -> Option<Answer> {
    let told = numbers(field.strip_prefix("refused")?);
    Some(Answer::Refused(told[0] as u16, told[1] as usize))
}

/// The answer that a case prescribes, with the figures of a delivery, the nine counts among them where the library's call tells some.
fn answer_of(field: &str) -> Answer {
    refused(field).unwrap_or_else(|| Answer::Delivered(numbers(field.strip_prefix("delivered").expect("an answer"))))
}

/// What differs between an answer with its output, and what a case prescribes.
fn compare<T: PartialEq + Debug>(got: Answer, want: Answer, output: &[T], after: &[T]) -> Result<(), String> {
    if got == want && output == after { Ok(()) } else { Err(format!("{got:?}, output {output:?}")) }
}

/// An output as it was lent and what lies behind it, with a result at its front.
fn lent(space: usize, result: &[u16]) -> Vec<u16> {
    let mut output = vec![LENT; space + BEHIND];
    output[..result.len()].copy_from_slice(result);
    output
}

/// The same for an output of bytes.
fn lent_bytes(space: usize, result: &[u8]) -> Vec<u8> {
    let mut output = vec![LENT_BYTE; space + BEHIND];
    output[..result.len()].copy_from_slice(result);
    output
}

/// The first field of a case: its kind and what is told with it.
fn head_of<'a>(fields: &[&'a str]) -> Vec<&'a str> {
    fields[0].split_whitespace().collect()
}

fn direction_of(name: &str) -> Result<Direction, String> {
    match name {
        "forward" => Ok(Direction::Forward),
        "backward" => Ok(Direction::Backward),
        other => Err(format!("no direction: {other}")),
    }
}

/// The library's reader, or another that is to answer as it does; a log is written from a reading by the same type.
pub type Reader = fn(Direction, &[u16], &[u16], &mut [u8]) -> Answer;
pub type LogReader = fn(usize, &[u8], &mut [u16]) -> Answer;

/// The same for the calls that take a reading at 800: it is read into bytes, or copied into words.
pub type From800<T> = fn(Direction, &[u16], &mut [T]) -> Answer;

/// The same for writers.
pub type Writer = fn(&[u8], &mut [u16]) -> Answer;

/// The same for the calls by a wiring card.
pub type CardWords = fn(Toward, &[u8], &[u16], &mut [u16]) -> Answer;
pub type CardMap = fn(Toward, &[u8], u16, &mut u16) -> Answer;
pub type InverseCard = fn(&[u8], &mut [u8; 9]) -> Answer;

/// Runs one case of writing with a writer, where so many numbers are one of what a delivery counts.
fn write(line: &str, writer: Writer, numbers: usize) -> Result<(), String> {
    let fields = fields_of(line);
    let space: usize = head_of(&fields)[1].parse().unwrap();
    let mut output = lent(space, &[]);
    let got = writer(&bytes_of(fields[1]), &mut output[..space]);
    match refused(fields[2]) {
        Some(want) => compare(got, want, &output, &lent(space, &[])),
        None => {
            let result = words_of(fields[3]);
            compare(got, Answer::Delivered(vec![(result.len() / numbers) as u64]), &output, &lent(space, &result))
        }
    }
}

/// Runs one case of reading at 6250 with a reader, or of writing a log, and tells what differs.
pub fn read6250(line: &str, reader: Reader) -> Result<(), String> {
    let fields = fields_of(line);
    let head = head_of(&fields);
    let space: usize = head[2].parse().unwrap();
    let mut output = lent_bytes(space, &[]);
    let got = reader(direction_of(head[1])?, &words_of(fields[1]), &words_of(fields[2]), &mut output[..space]);
    compare(got, answer_of(fields[3]), &output, &lent_bytes(space, &bytes_of(fields.get(4).unwrap_or(&""))))
}

/// Runs one case of writing at 800 with a writer and tells what differs.
pub fn write800(line: &str, writer: Writer) -> Result<(), String> {
    write(line, writer, 1)
}

/// Runs one case of a call that takes a reading at 800; `lent` makes an output of so much space with a field's numbers at its front.
fn from800<T: PartialEq + Debug>(line: &str, call: From800<T>, lent: fn(usize, &str) -> Vec<T>) -> Result<(), String> {
    let fields = fields_of(line);
    let head = head_of(&fields);
    let space: usize = head[2].parse().unwrap();
    let mut output = lent(space, "");
    let got = call(direction_of(head[1])?, &words_of(fields[1]), &mut output[..space]);
    compare(got, answer_of(fields[2]), &output, &lent(space, fields.get(3).unwrap_or(&"")))
}

/// Runs one case of reading at 800 with a reader and tells what differs.
pub fn read800(line: &str, reader: From800<u8>) -> Result<(), String> {
    from800(line, reader, |space, data| lent_bytes(space, &bytes_of(data)))
}

/// Runs one case of copying from 800 to 6250 with a copier and tells what differs.
pub fn copy800(line: &str, copier: From800<u16>) -> Result<(), String> {
    from800(line, copier, |space, words| lent(space, &words_of(words)))
}

fn words(line: &str, toward: Toward) -> Result<(), String> {
    let fields = fields_of(line);
    let space: usize = head_of(&fields)[1].parse().unwrap();
    let mut target = lent(space, &[]);
    let got = library::words(toward, &words_of(fields[1]), &mut target[..space]);
    compare(got, answer_of(fields[2]), &target, &lent(space, &words_of(fields.get(3).unwrap_or(&""))))
}

fn map(line: &str, toward: Toward) -> Result<(), String> {
    let fields = fields_of(line);
    let mut moved = LENT;
    let got = library::map(toward, head_of(&fields)[1].parse().unwrap(), &mut moved);
    let want = answer_of(fields[1]);
    let after = if let Answer::Delivered(figures) = &want { figures[0] as u16 } else { LENT };
    compare(got, want, &[moved], &[after])
}

/// Runs one case of moving nine words by a card and tells what differs.
pub fn card_words(line: &str, toward: Toward, call: CardWords) -> Result<(), String> {
    let fields = fields_of(line);
    let space: usize = head_of(&fields)[1].parse().unwrap();
    let mut target = lent(space, &[]);
    let got = call(toward, &bytes_of(fields[1]), &words_of(fields[2]), &mut target[..space]);
    compare(got, answer_of(fields[3]), &target, &lent(space, &words_of(fields.get(4).unwrap_or(&""))))
}

/// Runs one case of moving a map by a card and tells what differs.
pub fn card_map(line: &str, toward: Toward, call: CardMap) -> Result<(), String> {
    let fields = fields_of(line);
    let mut moved = lent(1, &[]);
    let got = call(toward, &bytes_of(fields[1]), head_of(&fields)[1].parse().unwrap(), &mut moved[0]);
    let want = answer_of(fields[2]);
    let after = if let Answer::Delivered(figures) = &want { lent(1, &[figures[0] as u16]) } else { lent(1, &[]) };
    compare(got, want, &moved, &after)
}

/// Runs one case of a card's inverse and tells what differs.
pub fn inverse_card(line: &str, call: InverseCard) -> Result<(), String> {
    let fields = fields_of(line);
    let mut inverse = lent_bytes(9, &[]);
    let got = call(&bytes_of(fields[1]), inverse.first_chunk_mut().unwrap());
    compare(got, answer_of(fields[2]), &inverse, &lent_bytes(9, &bytes_of(fields.get(3).unwrap_or(&""))))
}

/// Runs one case of reading a log back with a reader and tells what differs.
pub fn read_log(line: &str, reader: LogReader) -> Result<(), String> {
    let fields = fields_of(line);
    let head = numbers(fields[0].strip_prefix("read-log").unwrap());
    let (groups, space) = (head[0] as usize, head[1] as usize);
    let mut maps = lent(space, &[]);
    let got = reader(groups, &bytes_of(fields[1]), &mut maps[..space]);
    compare(got, answer_of(fields[2]), &maps, &lent(space, &words_of(fields.get(3).unwrap_or(&""))))
}

/// Runs one case of a program, or of another that is to print as it does, and tells what differs.
pub fn program(line: &str, print: impl Fn(&[u8]) -> Result<String, String>) -> Result<(), String> {
    let fields = fields_of(line);
    let got = print(&bytes_of(fields[1]))?;
    let want: String = fields[2].split(';').map(|line| line.trim().to_string() + "\n").collect();
    if got == want { Ok(()) } else { Err(format!("printed {got:?}")) }
}

/// Runs one case and tells what differs.
pub fn run(line: &str) -> Result<(), String> {
    match kind_of(line) {
        "write6250" => write(line, library::write6250, 9),
        "read6250" => read6250(line, library::read6250),
        "write800" => write800(line, library::write800),
        "read800" => read800(line, library::read800),
        "to-physical" => words(line, Toward::Physical),
        "to-algebraic" => words(line, Toward::Algebraic),
        "map-to-physical" => map(line, Toward::Physical),
        "map-to-algebraic" => map(line, Toward::Algebraic),
        "card-to-physical" => card_words(line, Toward::Physical, library::card_words),
        "card-to-algebraic" => card_words(line, Toward::Algebraic, library::card_words),
        "card-map-to-physical" => card_map(line, Toward::Physical, library::card_map),
        "card-map-to-algebraic" => card_map(line, Toward::Algebraic, library::card_map),
        "inverse-card" => inverse_card(line, library::inverse_card),
        "listing" => program(line, |input| printed("listing", input)),
        "log" => read6250(line, library::log6250),
        "read-log" => read_log(line, library::read_log),
        "report" => program(line, |input| printed("report", input)),
        "copy" => copy800(line, library::copy800),
        other => Err(format!("these tests know no case of the kind {other}")),
    }
}
