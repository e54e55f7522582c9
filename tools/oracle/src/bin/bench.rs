//! The proved library beside the Rust in one process, from text to text: called in turn on each circuit of standard
//! input, and a line for each with the least and the median CPU time of both, in nanoseconds. Where the answers differ it
//! shows the circuit and stops with status 1. Its argument is how often each is called.
//!
//! With a second argument, a count of gates, no Rust is measured: the BITS of the last gate but so many are edited again and
//! again, and the library maps the circuit afresh and from the state that it kept before that gate.

#[allow(warnings)]
mod circuit {
    include!(concat!(env!("OUT_DIR"), "/plain/circuit.rs"));
}
#[allow(warnings)]
mod lut {
    include!(concat!(env!("OUT_DIR"), "/plain/lut.rs"));
}
#[allow(warnings)]
mod mapper {
    include!(concat!(env!("OUT_DIR"), "/plain/mapper.rs"));
}
#[allow(dead_code)]
#[path = "../answer.rs"]
mod answer;
#[allow(dead_code)]
#[path = "../probe.rs"]
mod probe;
#[path = "../reader.rs"]
mod reader;
#[path = "../service.rs"]
mod service;
#[path = "../weights.rs"]
mod weights;

use service::Job;
use std::hint::black_box;
use std::io::{self, Write};
use std::process::ExitCode;

/// The answer buffer of the service.
const BUFFER: usize = 65_536;

/// The bytes of a state.
const STATE: usize = 34_704;

/// 0 and the count of bytes written, or the number and the line of the refusal.
#[repr(C)]
struct FbsReply {
    number: usize,
    line: usize,
    count: usize,
}

/// The same, and how many gates' mapping the call began.
#[repr(C)]
struct FbsRetuned {
    number: usize,
    line: usize,
    count: usize,
    begun: usize,
}

unsafe extern "C" {
    fn fbs_map(text: *const u8, length: usize, out: *mut u8, room: usize) -> FbsReply;
    fn fbs_retune(
        text: *const u8,
        length: usize,
        line: usize,
        state: *mut u8,
        state_length: usize,
        out: *mut u8,
        room: usize,
    ) -> FbsRetuned;
    fn clock_gettime(clock: i32, time: *mut [i64; 2]) -> i32;
}

const THREAD_CPU_TIME: i32 = 3;

fn now() -> u64 {
    let mut time = [0i64; 2];
    unsafe { clock_gettime(THREAD_CPU_TIME, &mut time) };
    time[0] as u64 * 1_000_000_000 + time[1] as u64
}

fn rust(job: &[u8]) -> String {
    answer::answer_text(&answer::map(job), job)
}

fn proved(job: &[u8], out: &mut [u8]) -> FbsReply {
    unsafe { fbs_map(job.as_ptr(), job.len(), out.as_mut_ptr(), out.len()) }
}

fn retuned(job: &[u8], line: usize, state: &mut [u8], out: &mut [u8]) -> FbsRetuned {
    unsafe { fbs_retune(job.as_ptr(), job.len(), line, state.as_mut_ptr(), state.len(), out.as_mut_ptr(), out.len()) }
}

fn proved_text(reply: FbsReply, out: &[u8]) -> Vec<u8> {
    if reply.number == 0 {
        return out[..reply.count].to_vec();
    }
    format!("(no {} {})\n", reply.number, reply.line).into_bytes()
}

/// The least time of nothing at all, which every measured time holds.
fn clock_cost() -> u64 {
    (0..10_000)
        .map(|_| {
            let start = now();
            now() - start
        })
        .min()
        .unwrap_or(0)
}

/// Least and median, less the clock's own.
fn summary(times: &mut [u64], cost: u64) -> (u64, u64) {
    times.sort_unstable();
    let less = |time: u64| time.saturating_sub(cost).max(1);
    (less(times[0]), less(times[times.len() / 2]))
}

fn measure(job: &[u8], calls: usize, cost: u64, out: &mut [u8]) -> Option<String> {
    let expected = rust(job);
    let answered = proved_text(proved(job, out), out);
    if answered != expected.as_bytes() {
        eprintln!("bench: the answers differ; the circuit was:");
        eprintln!("{}", String::from_utf8_lossy(job));
        eprintln!("the Rust's answer:\n{expected}");
        eprintln!("the library's:\n{}", String::from_utf8_lossy(&answered));
        return None;
    }
    let (mut theirs, mut ours) = (Vec::new(), Vec::new());
    for _ in 0..calls {
        let start = now();
        black_box(rust(black_box(job)));
        theirs.push(now() - start);
        let start = now();
        black_box(proved(black_box(job), out));
        ours.push(now() - start);
    }
    let (rust_least, rust_median) = summary(&mut theirs, cost);
    let (least, median) = summary(&mut ours, cost);
    Some(format!("{rust_least} {rust_median} {least} {median}"))
}

/// The line of the last gate but so many, and the circuit with that gate's BITS opposite.
fn edited(job: &[u8], behind: usize) -> Option<(usize, Vec<u8>)> {
    let lines: Vec<&[u8]> = job.split_inclusive(|byte| *byte == b'\n').collect();
    let gates: Vec<usize> = (0..lines.len()).filter(|place| lines[*place].starts_with(b"(gate ")).collect();
    let place = gates[gates.len().checked_sub(1 + behind)?];
    let mut other: Vec<Vec<u8>> = lines.iter().map(|line| line.to_vec()).collect();
    let mut words: Vec<Vec<u8>> = other[place].split(|byte| *byte == b' ').map(<[u8]>::to_vec).collect();
    words[2].iter_mut().for_each(|bit| *bit ^= 1);
    other[place] = words.join(&b' ');
    Some((place + 1, other.concat()))
}

/// Least and median of mapping the edited circuit afresh, and of going on from the state.
fn measure_again(job: &[u8], behind: usize, calls: usize, cost: u64, out: &mut [u8]) -> Option<String> {
    let (line, other) = edited(job, behind)?;
    let mut state = vec![0u8; STATE];
    let expected = proved(&other, out);
    let expected = proved_text(expected, out);
    retuned(job, line, &mut state, out);
    let again = retuned(&other, line, &mut state, out);
    let answered = proved_text(FbsReply { number: again.number, line: again.line, count: again.count }, out);
    let refused_before = again.number != 0 && again.line != 0 && again.line < line;
    if answered != expected || (again.begun > behind + 1 && !refused_before) {
        eprintln!("bench: {} gates were begun, or the answers differ; the circuit was:", again.begun);
        eprintln!("{}", String::from_utf8_lossy(&other));
        return None;
    }
    let (mut afresh, mut on) = (Vec::new(), Vec::new());
    for call in 0..calls {
        let text = if call % 2 == 0 { job } else { other.as_slice() };
        let start = now();
        black_box(proved(black_box(text), out));
        afresh.push(now() - start);
        let start = now();
        black_box(retuned(black_box(text), line, &mut state, out));
        on.push(now() - start);
    }
    let (afresh_least, afresh_median) = summary(&mut afresh, cost);
    let (least, median) = summary(&mut on, cost);
    Some(format!("{afresh_least} {afresh_median} {least} {median}"))
}

fn main() -> ExitCode {
    let number = |place| std::env::args().nth(place).map(|word| word.parse());
    let (Some(Ok(calls)), behind @ (None | Some(Ok(_)))) = (number(1), number(2)) else {
        eprintln!("usage: bench CALLS [GATES] < circuits");
        return ExitCode::from(2);
    };
    let cost = clock_cost();
    let mut out = vec![0u8; BUFFER];
    let mut output = io::stdout().lock();
    let done = service::jobs(io::stdin().lock(), |job| {
        let Job::Text(job) = job else {
            return Ok(());
        };
        let line = match behind {
            Some(Ok(behind)) => measure_again(job, behind, calls, cost, &mut out),
            _ => measure(job, calls, cost, &mut out),
        };
        let Some(line) = line else {
            return Err(io::Error::other("the answers differ"));
        };
        writeln!(output, "{line}")?;
        output.flush()
    });
    if done.is_err() {
        return ExitCode::FAILURE;
    }
    ExitCode::SUCCESS
}
