//! How fast the proved library is, beside implementations in Rust that were written for speed and beside memcpy,
//! all in one run and interleaved: the best of many rounds over the same records, in several passes over all cases,
//! so that a moment in which the machine is busy elsewhere spoils none. Output buffers are not cleared between
//! calls. Prints the tables of docs/BENCHMARK.md and, given a path, draws the picture there. Given the word `compare`
//! it measures nothing, and only sees that both implementations agree.

#[path = "../../tests/host/src/abi.rs"]
mod abi;
mod calls;
mod cases;
mod fast6250;
mod fast800;
mod fast_copy;
mod fast_log;
mod fast_order;
mod picture;

use cases::{reading, Call, Damage, Implementation, Output, Record, Seeded, LIBRARY, RUST};
use std::hint::black_box;
use std::time::Instant;

/// What a call answers: its figures, or the refusal with number and place.
#[derive(Clone, Copy, Debug, PartialEq)]
pub enum Answer {
    Delivered([usize; 4]),
    Refused(u16, usize),
}

/// The changes, or the marks, of tracks 0 to 8.
pub type Counts = [usize; 9];

/// So many records are read one after another, so that no branch is learned by heart.
const RECORDS: usize = 48;
const PASSES: usize = 6;
/// Rounds in each pass.
const ROUNDS: usize = 250;

/// Nanoseconds for one record.
pub struct Measured {
    pub call: Call,
    pub length: usize,
    pub library: f64,
    pub fast: f64,
    pub memcpy: f64,
}

fn nanoseconds(repeats: usize, mut work: impl FnMut()) -> f64 {
    let start = Instant::now();
    for _ in 0..repeats {
        work();
    }
    start.elapsed().as_nanos() as f64 / (repeats * RECORDS) as f64
}

/// Both implementations must give the same before they are timed.
fn compare(call: Call, record: &Record) {
    let (mut output, mut again) = (Output::full_of(7), Output::full_of(7));
    let answer = call.run(&LIBRARY, record, &mut output);
    assert_eq!(answer, call.run(&RUST, record, &mut again), "{}", call.name());
    assert!(matches!(answer, Answer::Delivered(_)));
    assert_eq!(output.counts, again.counts, "{}", call.name());
    assert!(output == again, "{}", call.name());
}

/// The records of the first call, on which both implementations agree in every call.
fn compared(calls: &[Call], length: usize) -> Vec<Record> {
    let mut seeded = Seeded(212);
    let records: Vec<Record> = (0..RECORDS).map(|_| calls[0].record(&mut seeded, length)).collect();
    for record in &records {
        calls.iter().for_each(|&call| compare(call, record));
    }
    records
}

/// So many times over the records, that a round of short ones is long enough to be timed.
fn repeats(length: usize) -> usize {
    (40_000 / (length + 20) / RECORDS).max(1)
}

/// The call by an implementation, over all records.
#[inline(always)]
fn timed(call: Call, by: &Implementation, records: &[Record], repeats: usize, output: &mut Output) -> f64 {
    nanoseconds(repeats, || {
        for record in records {
            black_box(call.run(by, black_box(record), output));
        }
    })
}

/// The lesser of each two times.
fn least<const N: usize>(one: [f64; N], other: [f64; N]) -> [f64; N] {
    std::array::from_fn(|k| one[k].min(other[k]))
}

/// One case by the library and by Rust, and memcpy of its data, in turn.
fn case_in_turn(call: Call, length: usize) -> [f64; 3] {
    let records = compared(&[call], length);
    let mut output = Output::full_of(0);
    let repeats = repeats(length);
    let mut best = [f64::MAX; 3];
    for _ in 0..ROUNDS {
        let library = timed(call, &LIBRARY, &records, repeats, &mut output);
        let fast = timed(call, &RUST, &records, repeats, &mut output);
        let memcpy = nanoseconds(repeats, || {
            for record in &records {
                output.bytes[..record.data.len()].copy_from_slice(&black_box(record).data);
                black_box(&mut output.bytes);
            }
        });
        best = least(best, [library, fast, memcpy]);
    }
    best
}

/// Several calls by the library, in turn, on the records of the first.
fn calls_in_turn<const N: usize>(calls: [Call; N], length: usize) -> [f64; N] {
    let records = compared(&calls, length);
    let mut output = Output::full_of(0);
    let mut best = [f64::MAX; N];
    for _ in 0..ROUNDS {
        best = least(best, calls.map(|call| timed(call, &LIBRARY, &records, repeats(length), &mut output)));
    }
    best
}

/// The best times of all passes, for each case.
fn best<Case, const N: usize>(cases: &[Case], in_turn: impl Fn(&Case) -> [f64; N]) -> Vec<[f64; N]> {
    let mut all = vec![[f64::MAX; N]; cases.len()];
    for _ in 0..PASSES {
        for (best, case) in all.iter_mut().zip(cases) {
            *best = least(*best, in_turn(case));
        }
    }
    all
}

/// Every case with its times.
fn measured(cases: &[(Call, usize)]) -> Vec<Measured> {
    let times = best(cases, |&(call, length)| case_in_turn(call, length));
    let rows = cases.iter().zip(times);
    rows.map(|(&(call, length), [library, fast, memcpy])| Measured { call, length, library, fast, memcpy }).collect()
}

/// The damages at 6250.
const DAMAGES: [Damage; 5] = [Damage::Clean, Damage::OneTrack, Damage::OnePointed, Damage::AnotherPointed, Damage::TwoPointed];
/// The damages at 800.
const DAMAGES_800: [Damage; 2] = [Damage::Clean, Damage::OneTrack];

fn readings<T>(read: impl Fn(bool, Damage) -> T, damages: &[Damage]) -> Vec<T> {
    [false, true].into_iter().flat_map(|backward| damages.iter().map(move |&damage| (backward, damage))).map(|(backward, damage)| read(backward, damage)).collect()
}

/// The calls that move between the orders, and the inverse card: they have no data.
fn moves() -> Vec<Call> {
    let both: [fn(bool) -> Call; 4] = [
        |physical| Call::Order { physical },
        |physical| Call::MapOrder { physical },
        |physical| Call::CardOrder { physical },
        |physical| Call::CardMapOrder { physical },
    ];
    both.into_iter().flat_map(|call| [true, false].map(call)).chain([Call::InverseCard]).collect()
}

/// Every call that is measured, with the length of its data.
fn cases() -> Vec<(Call, usize)> {
    let at6250 = |backward, damage| Call::Read6250 { backward, damage };
    let logged = |backward, damage| Call::Log6250 { backward, damage };
    let at800 = |backward, damage| Call::Read800 { backward, damage };
    let copied = |backward, damage| Call::Copy800 { backward, damage };
    let mut calls = vec![(Call::Write6250, 4101)];
    calls.extend(readings(at6250, &DAMAGES).into_iter().map(|call| (call, 4101)));
    calls.push((at6250(false, Damage::OneGroup), 4101));
    calls.extend(readings(logged, &DAMAGES).into_iter().map(|call| (call, 4101)));
    calls.extend([false, true].map(|marked| (Call::ReadLog { marked }, 4101)));
    calls.push((Call::Write800, 2048));
    calls.extend(readings(at800, &DAMAGES_800).into_iter().map(|call| (call, 2048)));
    calls.extend(readings(copied, &DAMAGES_800).into_iter().map(|call| (call, 2048)));
    let mut all: Vec<(Call, usize)> = calls.into_iter().flat_map(|(call, full)| [(call, 80), (call, full)]).collect();
    all.extend(moves().into_iter().map(|call| (call, 0)));
    all
}

/// Clean records of more and more groups: what a group costs.
fn growing() -> Vec<(Call, usize)> {
    let call = Call::Read6250 { backward: false, damage: Damage::Clean };
    [1, 2, 4, 8, 16, 32, 64, 128, 256, 586].into_iter().map(|groups| (call, 7 * groups - 1)).collect()
}

/// Whether a call has a speed in bytes of data: it moves a record's data or judges its reading.
fn has_speed(one: &Measured) -> bool {
    one.length > 0 && !matches!(one.call, Call::ReadLog { .. })
}

fn print_table(all: &[Measured]) {
    println!("| call | bytes | library, ns | MB/s | Rust, ns | library / Rust | memcpy, ns |");
    println!("|---|---:|---:|---:|---:|---:|---:|");
    for one in all {
        let speed = if has_speed(one) { format!("{:.0}", 1000.0 * one.length as f64 / one.library) } else { String::new() };
        let memcpy = if has_speed(one) { format!("{:.0}", one.memcpy) } else { String::new() };
        println!("| {} | {} | {:.0} | {} | {:.0} | {:.2} | {} |", one.call.name(), one.length, one.library, speed, one.fast, one.library / one.fast, memcpy);
    }
}

fn print_growth(all: &[Measured]) {
    println!("\n| groups read, clean | library, ns | ns a group | Rust, ns | ns a group | library / Rust |");
    println!("|---:|---:|---:|---:|---:|---:|");
    for one in all {
        let groups = one.length / 7 + 1;
        let each = |time: f64| time / groups as f64;
        println!("| {groups} | {:.0} | {:.1} | {:.0} | {:.1} | {:.2} |", one.library, each(one.library), one.fast, each(one.fast), one.library / one.fast);
    }
}

/// A log, beside reading the same record.
fn log_beside(backward: bool, damage: Damage) -> [Call; 2] {
    [Call::Log6250 { backward, damage }, Call::Read6250 { backward, damage }]
}

/// A copy, beside reading the same record, writing the same data, and the two one after the other, so that their sum has
/// the loop around it once, as the copy has.
fn copy_beside(backward: bool, damage: Damage) -> [Call; 4] {
    [Call::Copy800 { backward, damage }, Call::Read800 { backward, damage }, Call::Write6250, Call::ReadThenWrite { backward, damage }]
}

/// What a call costs beside others on the same readings: the times of all, and the ratio of the first to the last.
fn print_beside<const N: usize>(head: &str, calls: impl Fn(bool, Damage) -> [Call; N], damages: &[Damage], full: usize) {
    let named = |backward, damage| (reading(backward, damage), calls(backward, damage));
    let cases: Vec<_> = readings(named, damages).into_iter().flat_map(|(name, calls)| [80, full].map(|length| (name.clone(), calls, length))).collect();
    let all = best(&cases, |&(_, calls, length)| calls_in_turn(calls, length));
    println!("\n{head}");
    println!("|---|{}", "---:|".repeat(N + 2));
    for ((name, _, length), times) in cases.iter().zip(all) {
        let columns: String = times.iter().map(|time| format!("{time:.0} | ")).collect();
        println!("| {name} | {length} | {columns}{:.2} |", times[0] / times[N - 1]);
    }
}

fn main() {
    let argument = std::env::args().nth(1);
    if argument.as_deref() == Some("compare") {
        let records: usize = cases().into_iter().map(|(call, length)| compared(&[call], length).len()).sum();
        println!("{records} records, no difference");
        return;
    }
    let all = measured(&cases());
    print_table(&all);
    print_growth(&measured(&growing()));
    print_beside("| log of a reading | bytes | log, ns | read, ns | log / read |", log_beside, &DAMAGES, 4101);
    print_beside("| copy of a reading | bytes | copy, ns | read 800, ns | write 6250, ns | both, ns | copy / both |", copy_beside, &DAMAGES_800, 2048);
    if let Some(path) = argument {
        std::fs::write(&path, picture::drawn(&all.iter().filter(|one| has_speed(one)).collect::<Vec<_>>())).expect("the picture is written");
    }
}
