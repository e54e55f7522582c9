//! The service form: jobs on standard input, each closed by an `(end)` line.

use crate::answer::LONGEST_JOB;
use std::io::{self, ErrorKind, Read};

pub enum Job<'a> {
    /// The bytes before the `(end)` line.
    Text(&'a [u8]),
    /// More bytes than a job may have.
    TooLong,
    /// The input stopped after bytes but before an `(end)`.
    Unfinished,
}

/// Call `each` for every job, as soon as its `(end)` line has arrived.
pub fn jobs(mut input: impl Read, mut each: impl FnMut(Job) -> io::Result<()>) -> io::Result<()> {
    let limit = LONGEST_JOB as usize;
    // Kept bytes of the job and the count of all of them; the same of its line.
    let mut kept: Vec<u8> = Vec::new();
    let mut total: u64 = 0;
    let mut line: Vec<u8> = Vec::new();
    let mut line_total: u64 = 0;
    let mut buffer = vec![0u8; 65_536];
    loop {
        let count = match input.read(&mut buffer) {
            Ok(count) => count,
            Err(error) if error.kind() == ErrorKind::Interrupted => continue,
            // A read error is the end of the input.
            Err(_) => 0,
        };
        if count == 0 {
            break;
        }
        for &byte in &buffer[..count] {
            if line.len() < 8 {
                line.push(byte);
            }
            line_total += 1;
            total += 1;
            // The `(end)` line itself is not counted: 6 bytes more are kept.
            if kept.len() < limit + 6 {
                kept.push(byte);
            }
            if byte == b'\n' {
                if line_total == 6 && line == b"(end)\n" {
                    let length = total - 6;
                    if length > LONGEST_JOB {
                        each(Job::TooLong)?;
                    } else {
                        each(Job::Text(&kept[..length as usize]))?;
                    }
                    kept.clear();
                    total = 0;
                }
                line.clear();
                line_total = 0;
            }
        }
    }
    if total > 0 {
        each(Job::Unfinished)?;
    }
    Ok(())
}
