//! How the programs behave when reads and writes fail: every case is tried with every invocation, and some more where the
//! output has several pages. The last line is `N passed, M failed`.

mod cases;
mod expected;
mod hindrance;
mod invocations;
mod posix;
mod run;

use cases::{Case, LIMIT};
use hindrance::Hindrance::Packets;
use invocations::{report_of, Invocation};
use std::process::Command;

/// The most write calls for a full record, and for the pages of the longest report.
const CALLS: usize = 4;

/// Builds the shim, in the folder that also takes the file that the programs write.
fn build_shim() {
    std::fs::create_dir_all("target/edges").expect("the target folder takes another");
    let built = Command::new("cc")
        .args(["-shared", "-fPIC", "-O2", "-Wall", "-Wextra", "-Werror"])
        .args(["-o", run::SHIM, "tests/edges/shim.c"])
        .status();
    assert!(built.expect("there is cc").success(), "cc builds the shim");
}

/// Whether the good output is one to compare with: longer than the file limit, a delivery if a record is read, and the report
/// that is due of logs.
fn is_good(invocation: &Invocation) -> bool {
    let delivered = invocation.good.starts_with(b"delivered ");
    let right = match invocation.line {
        "report" => invocation.good == report_of(&invocation.input),
        line => delivered == line.contains("read"),
    };
    right && invocation.good.len() > LIMIT
}

/// What was seen in one test and was not due.
fn attempt(&(_, setting, written, due): &Case, invocation: &Invocation) -> Vec<String> {
    let ran = run::run(invocation.line, &invocation.input, setting);
    let mut seen = expected::differences(&ran, written, due, invocation);
    let calls = ran.pieces;
    if setting == [Packets] && calls > CALLS {
        seen.push(format!("made {calls} write calls, due: at most {CALLS}"));
    }
    if !is_good(invocation) {
        seen.push("there is no good output to compare with".into());
    }
    seen
}

fn main() {
    let root = concat!(env!("CARGO_MANIFEST_DIR"), "/../..");
    std::env::set_current_dir(root).expect("the repository is where it was built");
    build_shim();
    let (mut passed, mut failed) = (0, 0);
    for invocation in &invocations::all() {
        let more: &[Case] = if invocation.has_pages() {
            cases::PAGES
        } else {
            &[]
        };
        for case in cases::ALL.iter().chain(more) {
            let seen = attempt(case, invocation).join("; ");
            if seen.is_empty() {
                passed += 1;
                continue;
            }
            failed += 1;
            let size = invocation.input.len();
            println!(
                "{} of {size} bytes, {}: FAILED: {seen}",
                invocation.line, case.0
            );
        }
    }
    println!("{passed} passed, {failed} failed");
    std::process::exit(i32::from(failed > 0 || passed == 0));
}
