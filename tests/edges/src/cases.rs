//! What is tried, and what has to come of it.

use crate::expected::{Line, Line::*, Written, Written::*};
use crate::hindrance::{Hindrance, Hindrance::*, Setting};

/// A name, how the run is hindered, and what standard output and standard error get, the latter line by line.
pub type Case = (&'static str, Setting, Written, &'static [Line]);

/// A file limit that is below every good output.
pub const LIMIT: usize = 1024;

const MUTE: Hindrance = Closed(2);
const HOSTILE: Hindrance = Shim("hostile");

/// What is tried with every invocation.
pub const ALL: &[Case] = &[
    ("plain", &[], All, &[]),
    ("a directory", &[Directory], Nothing, &[Unread(21)]),
    ("closed input", &[Closed(0)], Nothing, &[Unread(9)]),
    ("half is late, not awaited", &[Hasty], OfHalf, &[Unread(11)]),
    ("half is late, awaited", &[Late], All, &[]),
    // the shim lets so many bytes through before a read or a write fails
    ("EIO of read", &[Shim("read 10")], Of(10), &[Unread(5)]),
    (
        "EIO of write",
        &[Shim("write 100")],
        First(100),
        &[Unwritten(5)],
    ),
    (
        "EIO of fsync",
        &[Limit(1 << 20), Shim("fsync")],
        All,
        &[Unwritten(5)],
    ),
    ("no space", &[Full], Nothing, &[Unwritten(28)]),
    ("closed output", &[Closed(1)], Nothing, &[Unwritten(9)]),
    ("no reader", &[Unheard], Nothing, &[Unwritten(32)]),
    ("a file", &[Limit(1 << 20)], All, &[]),
    ("a file limit", &[Limit(LIMIT)], First(LIMIT), &[Cut]),
    (
        "a mild file limit",
        &[MildLimit(LIMIT)],
        First(LIMIT),
        &[Cut],
    ),
    (
        "a file limit of 0",
        &[MildLimit(0)],
        Nothing,
        &[Unwritten(27)],
    ),
    ("write calls", &[Packets], All, &[]),
    // every second call is interrupted, and the others move 7 bytes at most
    ("hostile pipes", &[HOSTILE], All, &[]),
    ("byte by byte", &[Shim("single")], All, &[]),
    ("hostile socket", &[HOSTILE, Packets], All, &[]),
    (
        "hostile, no space",
        &[HOSTILE, Full],
        Nothing,
        &[Unwritten(28)],
    ),
    // a closed standard error, where nothing can be told, changes nothing else
    ("mute", &[MUTE], All, &[]),
    ("mute, a directory", &[MUTE, Directory], Nothing, &[]),
    ("mute, closed input", &[MUTE, Closed(0)], Nothing, &[]),
    ("mute, no space", &[MUTE, Full], Nothing, &[]),
    ("mute, limit", &[MUTE, Limit(LIMIT)], First(LIMIT), &[]),
];

/// What is tried besides where the output has more than one page: a failure behind the first.
pub const PAGES: &[Case] = &[
    (
        "EIO of a late read",
        &[Shim("read 500000")],
        Of(500000),
        &[Unread(5)],
    ),
    // the report that a read broke off is stored like any other
    (
        "EIO of a late read and of fsync",
        &[Limit(1 << 20), Shim("read 500000 fsync")],
        Of(500000),
        &[Unwritten(5), Unread(5)],
    ),
    (
        "EIO of a late write",
        &[Shim("write 70000")],
        First(70000),
        &[Unwritten(5)],
    ),
    ("a late file limit", &[Limit(70000)], First(70000), &[Cut]),
    (
        "a mild, late file limit",
        &[MildLimit(70000)],
        First(70000),
        &[Cut],
    ),
    (
        "mute, EIO of a late read",
        &[MUTE, Shim("read 500000")],
        Of(500000),
        &[],
    ),
    (
        "mute, EIO of a late write",
        &[MUTE, Shim("write 70000")],
        First(70000),
        &[],
    ),
];
