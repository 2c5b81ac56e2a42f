//! The few functions of C that the standard library does not offer, with the numbers that 64-bit Linux has for them.

use std::ffi::{c_int, c_uint};
use std::io::{Error, PipeWriter, Result};
use std::os::fd::{AsRawFd, FromRawFd, OwnedFd};

extern "C" {
    fn alarm(seconds: c_uint) -> c_uint;
    fn close(file: c_int) -> c_int;
    fn fcntl(file: c_int, command: c_int, ...) -> c_int;
    fn setrlimit(resource: c_int, soft_and_hard: *const [u64; 2]) -> c_int;
    fn setsockopt(file: c_int, level: c_int, name: c_int, value: &c_int, size: c_uint) -> c_int;
    fn signal(signal: c_int, action: usize) -> usize;
    fn socketpair(domain: c_int, kind: c_int, protocol: c_int, ends: &mut [c_int; 2]) -> c_int;
}

const F_SETFL: c_int = 4;
const F_SETPIPE_SZ: c_int = 1031;
const O_NONBLOCK: c_int = 0o4000;
const RLIMIT_FSIZE: c_int = 1;
const SIGPIPE: c_int = 13;
const SIGXFSZ: c_int = 25;
const SIG_DFL: usize = 0;
const SIG_IGN: usize = 1;
const AF_UNIX: c_int = 1;
const SOCK_SEQPACKET: c_int = 5;
const SOCK_CLOEXEC: c_int = 0o2000000;
const SOL_SOCKET: c_int = 1;
const SO_SNDBUF: c_int = 7;

fn done(answer: c_int) -> Result<()> {
    if answer < 0 {
        return Err(Error::last_os_error());
    }
    Ok(())
}

/// Ends this process by a signal if it takes longer, and what it becomes by exec as well.
pub fn end_within(seconds: c_uint) {
    unsafe { alarm(seconds) };
}

/// Whether the signal of a file limit is ignored, or has its default action, which kills.
pub fn ignore_file_limit(ignored: bool) {
    unsafe { signal(SIGXFSZ, if ignored { SIG_IGN } else { SIG_DFL }) };
}

pub fn ignore_no_reader() {
    unsafe { signal(SIGPIPE, SIG_IGN) };
}

pub fn limit_files(bytes: usize) -> Result<()> {
    done(unsafe { setrlimit(RLIMIT_FSIZE, &[bytes as u64; 2]) })
}

pub fn close_file(file: c_int) -> Result<()> {
    done(unsafe { close(file) })
}

/// Lets a read fail where nothing is there yet.
pub fn never_wait(file: c_int) -> Result<()> {
    done(unsafe { fcntl(file, F_SETFL, O_NONBLOCK) })
}

/// Lets a pipe hold the longest input.
pub fn widen(pipe: &PipeWriter) -> Result<()> {
    done(unsafe { fcntl(pipe.as_raw_fd(), F_SETPIPE_SZ, 1 << 20) })
}

/// A socket that keeps write calls apart, one packet for each: the end to read and the end to write.
pub fn packets() -> Result<(OwnedFd, OwnedFd)> {
    let room = 256 * 1024;
    let mut ends = [0; 2];
    unsafe {
        done(socketpair(
            AF_UNIX,
            SOCK_SEQPACKET | SOCK_CLOEXEC,
            0,
            &mut ends,
        ))?;
        done(setsockopt(ends[1], SOL_SOCKET, SO_SNDBUF, &room, 4))?;
        Ok((OwnedFd::from_raw_fd(ends[0]), OwnedFd::from_raw_fd(ends[1])))
    }
}
