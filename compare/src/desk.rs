//! The proved program: its two entries in the static library, and the bench
//! program as a process.

use std::io::{self, Write};
use std::path::Path;
use std::process::{Command, Stdio};
use std::thread::sleep;
use std::time::Duration;

/// Long enough for the program to have read what came before.
const PAUSE: Duration = Duration::from_millis(20);

extern "C" {
    fn desk_decide(
        book: *const u8,
        book_len: usize,
        snapshot: *const u8,
        snapshot_len: usize,
        question: *const u8,
        question_len: usize,
    ) -> u64;

    fn desk_check(
        book: *const u8,
        book_len: usize,
        snapshot: *const u8,
        snapshot_len: usize,
        question: *const u8,
        question_len: usize,
        unfolding: *const u8,
        unfolding_len: usize,
    ) -> u64;
}

/// Twice the refusal plus the verdict, on the entry's own 1,024 lines.
pub fn decide(book: &[u8], snapshot: &[u8], question: &[u8]) -> u64 {
    // Safety: each pointer is to as many bytes as the length after it says;
    // the entry reads them and keeps nothing.
    unsafe {
        desk_decide(
            book.as_ptr(),
            book.len(),
            snapshot.as_ptr(),
            snapshot.len(),
            question.as_ptr(),
            question.len(),
        )
    }
}

/// Twice the refusal plus 1 if the unfolding is taken.
pub fn check(book: &[u8], snapshot: &[u8], question: &[u8], unfolding: &[u8]) -> u64 {
    // Safety: as for `decide`.
    unsafe {
        desk_check(
            book.as_ptr(),
            book.len(),
            snapshot.as_ptr(),
            snapshot.len(),
            question.as_ptr(),
            question.len(),
            unfolding.as_ptr(),
            unfolding.len(),
        )
    }
}

/// What the bench program wrote for this input, and how it ended.
pub struct Printed {
    pub text: Vec<u8>,
    pub success: bool,
}

/// Runs it with an input that arrives in these pieces, a pause between them.
pub fn bench_program(program: &Path, pieces: &[&[u8]]) -> io::Result<Printed> {
    let mut child = Command::new(program)
        .stdin(Stdio::piped())
        .stdout(Stdio::piped())
        .spawn()?;
    let mut pipe = child.stdin.take().expect("it was asked for");
    for (index, piece) in pieces.iter().enumerate() {
        if index > 0 {
            sleep(PAUSE);
        }
        match pipe.write_all(piece) {
            // It reads no more than it wants to.
            Err(error) if error.kind() == io::ErrorKind::BrokenPipe => break,
            other => other?,
        }
    }
    drop(pipe);
    let output = child.wait_with_output()?;
    Ok(Printed {
        text: output.stdout,
        success: output.status.success(),
    })
}
