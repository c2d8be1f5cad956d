//! Runs the ledger as a separate process on one stream and collects all that it says.

use std::fs::{self, File};
use std::io::{self, Read, Write};
use std::os::fd::{AsRawFd, FromRawFd};
use std::path::{Path, PathBuf};
use std::process::{Child, Command, Stdio};
use std::sync::atomic::{AtomicBool, AtomicU64, Ordering};
use std::thread;
use std::time::{Duration, Instant};

/// Far above what any stream needs; a program that takes longer hangs.
const LONGEST: Duration = Duration::from_secs(20);

/// Once a program has hung it gets less, so that the tests end.
const LONGEST_AFTER: Duration = Duration::from_secs(1);

/// Far above what any stream makes a ledger print; a program that prints more hangs too.
const MOST: usize = 64 << 20;

static HAS_HUNG: AtomicBool = AtomicBool::new(false);

/// A pipe that polls as writable takes this many bytes without blocking (PIPE_BUF).
const PIECE: usize = 4096;

#[derive(Clone, Copy)]
pub enum Delivery {
    /// Through a pipe, in pieces that the reader may see joined or cut.
    Pipe,
    /// From a file, so that each read is as full as it can be.
    File,
    /// Through a pipe in packet mode: no read gets more than this many bytes.
    Packets(usize),
    /// Through a pipe whose writing end stays open until the program has ended.
    HeldOpen,
}

pub struct Outcome {
    pub out: Vec<u8>,
    pub err: Vec<u8>,
    /// The exit status; none after a signal, and none where the program did not end in time.
    pub status: Option<i32>,
    pub hung: bool,
}

pub fn run(ledger: &Path, stream: &[u8], delivery: Delivery) -> io::Result<Outcome> {
    let (stdin, writer) = match delivery {
        Delivery::File => (file_of(stream)?, None),
        Delivery::Pipe | Delivery::HeldOpen => pipe(0).map(|(reader, writer)| (reader, Some(writer)))?,
        Delivery::Packets(_) => pipe(O_DIRECT).map(|(reader, writer)| (reader, Some(writer)))?,
    };
    let mut child = Command::new(ledger).stdin(stdin).stdout(Stdio::piped()).stderr(Stdio::piped()).spawn()?;
    let piece = match delivery {
        Delivery::Packets(size) => size.min(PIECE),
        _ => PIECE,
    };
    let hold = matches!(delivery, Delivery::HeldOpen);
    let feeder = Feeder { writer, left: stream, piece, hold };
    let deadline = Instant::now() + if HAS_HUNG.load(Ordering::Relaxed) { LONGEST_AFTER } else { LONGEST };
    let talk = converse(&mut child, feeder, deadline);
    let status = if talk.is_ok() { wait_until(&mut child, deadline)? } else { None };
    if status.is_none() {
        HAS_HUNG.store(true, Ordering::Relaxed);
        child.kill()?;
        child.wait()?;
    }
    let (out, err) = talk.unwrap_or_default();
    Ok(Outcome { out, err, status: status.and_then(|status| status.code()), hung: status.is_none() })
}

struct Feeder<'a> {
    writer: Option<File>,
    left: &'a [u8],
    piece: usize,
    hold: bool,
}

impl Feeder<'_> {
    fn is_busy(&self) -> bool {
        self.writer.is_some() && !self.left.is_empty()
    }

    /// One piece; the program may have stopped reading, and then the rest is not wanted.
    fn feed(&mut self) {
        let piece = &self.left[..self.piece.min(self.left.len())];
        if let Some(writer) = &mut self.writer {
            match writer.write(piece) {
                Ok(written) => self.left = &self.left[written..],
                Err(_) => self.writer = None,
            }
        }
        self.close_if_done();
    }

    fn close_if_done(&mut self) {
        if self.left.is_empty() && !self.hold {
            self.writer = None;
        }
    }
}

/// Feeds the child and reads both its outputs to their ends; the first is standard output.
fn converse(child: &mut Child, mut feeder: Feeder, deadline: Instant) -> io::Result<(Vec<u8>, Vec<u8>)> {
    let (mut stdout, mut stderr) = (child.stdout.take(), child.stderr.take());
    let (mut out, mut err) = (Vec::new(), Vec::new());
    feeder.close_if_done();
    while stdout.is_some() || stderr.is_some() {
        let mut ends = [
            PollEnd::new(feeder.writer.as_ref().filter(|_| feeder.is_busy()), POLLOUT),
            PollEnd::new(stdout.as_ref(), POLLIN),
            PollEnd::new(stderr.as_ref(), POLLIN),
        ];
        poll_until(&mut ends, deadline)?;
        if ends[0].is_ready() {
            feeder.feed();
        }
        if ends[1].is_ready() {
            read_some(&mut stdout, &mut out)?;
        }
        if ends[2].is_ready() {
            read_some(&mut stderr, &mut err)?;
        }
    }
    Ok((out, err))
}

fn read_some<R: Read>(source: &mut Option<R>, into: &mut Vec<u8>) -> io::Result<()> {
    let mut buffer = [0; 16384];
    if let Some(reader) = source {
        match reader.read(&mut buffer)? {
            0 => *source = None,
            count if into.len() + count <= MOST => into.extend(&buffer[..count]),
            _ => return Err(io::ErrorKind::OutOfMemory.into()),
        }
    }
    Ok(())
}

fn wait_until(child: &mut Child, deadline: Instant) -> io::Result<Option<std::process::ExitStatus>> {
    for turn in 0.. {
        if let Some(status) = child.try_wait()? {
            return Ok(Some(status));
        }
        if Instant::now() >= deadline {
            break;
        }
        if turn < 200 {
            thread::yield_now();
        } else {
            thread::sleep(Duration::from_micros(200));
        }
    }
    Ok(None)
}

/// The stream as an open file that has no name any more.
fn file_of(stream: &[u8]) -> io::Result<File> {
    static COUNT: AtomicU64 = AtomicU64::new(0);
    let count = COUNT.fetch_add(1, Ordering::Relaxed);
    let path = temporary(&format!("streams-{}-{count}", std::process::id()));
    fs::write(&path, stream)?;
    let file = File::open(&path);
    fs::remove_file(&path)?;
    file
}

pub fn temporary(name: &str) -> PathBuf {
    std::env::temp_dir().join(name)
}

// Values of Linux on x86-64.
const O_DIRECT: i32 = 0o40000;
const O_CLOEXEC: i32 = 0o2000000;
const POLLIN: i16 = 0x1;
const POLLOUT: i16 = 0x4;

extern "C" {
    fn pipe2(fds: *mut i32, flags: i32) -> i32;
    fn poll(ends: *mut PollEnd, count: u64, milliseconds: i32) -> i32;
}

fn pipe(flags: i32) -> io::Result<(File, File)> {
    let mut fds = [0; 2];
    // SAFETY: pipe2 writes two numbers, and on success both are open and belong to nobody else.
    unsafe {
        if pipe2(fds.as_mut_ptr(), flags | O_CLOEXEC) != 0 {
            return Err(io::Error::last_os_error());
        }
        Ok((File::from_raw_fd(fds[0]), File::from_raw_fd(fds[1])))
    }
}

/// The C library's pollfd; a negative number is passed over.
#[repr(C)]
struct PollEnd {
    fd: i32,
    wanted: i16,
    found: i16,
}

impl PollEnd {
    fn new<F: AsRawFd>(end: Option<&F>, wanted: i16) -> PollEnd {
        PollEnd { fd: end.map_or(-1, |end| end.as_raw_fd()), wanted, found: 0 }
    }

    /// Ready, or closed at the other end, which the next read or write will show.
    fn is_ready(&self) -> bool {
        self.found != 0
    }
}

fn poll_until(ends: &mut [PollEnd], deadline: Instant) -> io::Result<()> {
    loop {
        let left = deadline.saturating_duration_since(Instant::now());
        if left.is_zero() {
            return Err(io::ErrorKind::TimedOut.into());
        }
        let left = left.as_millis() as i32 + 1;
        // SAFETY: the pointer and the count are those of one slice of the C library's layout.
        match unsafe { poll(ends.as_mut_ptr(), ends.len() as u64, left) } {
            0 => {}
            count if count > 0 => return Ok(()),
            _ => match io::Error::last_os_error() {
                error if error.kind() == io::ErrorKind::Interrupted => {}
                error => return Err(error),
            },
        }
    }
}
