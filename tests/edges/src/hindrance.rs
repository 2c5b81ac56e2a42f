//! The ways in which a program's streams are hindered.

use crate::posix;
use std::fs::File;
use std::io::{pipe, PipeWriter, Result, Write};
use std::os::fd::OwnedFd;
use std::process::Stdio;

/// What is unlike a plain run, which reads all of its input from a pipe and writes to pipes.
#[derive(Clone, Copy, PartialEq)]
pub enum Hindrance {
    /// Standard input is a directory.
    Directory,
    /// The second half of the input comes late.
    Late,
    /// It comes when the program has ended, and a read does not wait for it.
    Hasty,
    /// Standard output is the device that has no space.
    Full,
    /// Standard output is a pipe that nobody reads, and the signal of that is ignored.
    Unheard,
    /// Standard output is a socket that keeps write calls apart.
    Packets,
    /// Standard output is a file of so many bytes at most, and a write behind them kills.
    Limit(usize),
    /// The same, but a write behind them only fails.
    MildLimit(usize),
    /// This descriptor is closed.
    Closed(i32),
    /// The shim stands before the C library, and is asked for this failure.
    Shim(&'static str),
}

use Hindrance::*;

pub type Setting = &'static [Hindrance];

/// The regular file that is written.
pub const FILE: &str = "target/edges/output";

pub fn is_limited(setting: Setting) -> bool {
    let limit = |hindrance: &Hindrance| matches!(hindrance, Limit(_) | MildLimit(_));
    setting.iter().any(limit)
}

/// Standard input with the bytes that are there at the start, and the end to write the others to. Nobody reads yet, so
/// that the bytes have to fit into the pipe; every input does.
pub fn source(setting: Setting, bytes: &[u8]) -> (Stdio, PipeWriter) {
    let (reader, mut writer) = pipe().unwrap();
    posix::widen(&writer).expect("a pipe holds a million bytes");
    writer.write_all(bytes).unwrap();
    if setting.contains(&Directory) {
        return (File::open("/").unwrap().into(), writer);
    }
    (reader.into(), writer)
}

/// Standard output, and the end to read it from.
pub fn sink(setting: Setting) -> (Stdio, Option<File>) {
    if setting.contains(&Full) {
        return (File::create("/dev/full").unwrap().into(), None);
    }
    if is_limited(setting) {
        return (File::create(FILE).unwrap().into(), None);
    }
    if setting.contains(&Packets) {
        let (reader, writer) = posix::packets().unwrap();
        return (writer.into(), Some(reader.into()));
    }
    let (reader, writer) = pipe().unwrap();
    if setting.contains(&Unheard) {
        return (writer.into(), None);
    }
    (writer.into(), Some(OwnedFd::from(reader).into()))
}

/// What the program's process does to itself before exec, where only plain calls of the kernel are allowed.
pub fn prepare(setting: Setting) -> Result<()> {
    // a program that does not end is ended by a signal, and its test fails
    posix::end_within(20);
    posix::ignore_file_limit(false);
    for &hindrance in setting {
        match hindrance {
            Hasty => posix::never_wait(0)?,
            Unheard => posix::ignore_no_reader(),
            Limit(bytes) => posix::limit_files(bytes)?,
            MildLimit(bytes) => {
                posix::ignore_file_limit(true);
                posix::limit_files(bytes)?;
            }
            Closed(descriptor) => posix::close_file(descriptor)?,
            Directory | Late | Full | Packets | Shim(_) => (),
        }
    }
    Ok(())
}
