//! The Rust mapper as an oracle. Circuits in document 01's service form come on
//! standard input.
//!
//! - without an argument: the service; a network or `(no NUMBER LINE)` and
//!   `(end)` for each job
//! - `--cap`: how often the cap of T + 1 merged sources was met, and the most
//!   sources merged
//! - `--time`: microseconds of each job, the least of three runs
//! - `--stats`: the statistics of each network

#[macro_use]
mod copies;
rust_copied_to!("plain");
mod answer;
mod probe;
mod reader;
mod service;
mod weights;

use reader::Refusal;
use service::Job;
use std::io::{self, Write};
use std::process::ExitCode;
use std::time::Instant;

fn refused(job: &Job) -> Option<Refusal> {
    match job {
        Job::Text(_) => None,
        Job::TooLong => Some(Refusal { number: 3, line: 0 }),
        Job::Unfinished => Some(Refusal { number: 1, line: 0 }),
    }
}

/// Answer every job by `text`, closed by `(end)`.
fn serve(text: impl Fn(&[u8]) -> String) -> io::Result<()> {
    let mut output = io::stdout().lock();
    service::jobs(io::stdin().lock(), |job| {
        let mut answer = match (&job, refused(&job)) {
            (Job::Text(job), _) => text(job),
            (_, Some(refusal)) => answer::refusal_text(refusal),
            _ => unreachable!(),
        };
        answer.push_str("(end)\n");
        output.write_all(answer.as_bytes())?;
        output.flush()
    })
}

fn cap() -> io::Result<()> {
    let mut count = 0u64;
    service::jobs(io::stdin().lock(), |job| {
        count += 1;
        if let Job::Text(job) = job {
            answer::map(job);
        }
        Ok(())
    })?;
    let cap = probe::cap();
    println!("jobs {count}");
    println!("attempts at a composition {}", cap.attempts);
    println!("attempts with T + 1 sources {}", cap.one_over);
    println!("cap met {}", cap.met);
    println!("most sources merged {}", cap.most_sources);
    Ok(())
}

/// Median, 99th of 100 and largest, in microseconds.
fn summary(name: &str, times: &mut [f64]) {
    if times.is_empty() {
        println!("{name}: no times");
        return;
    }
    times.sort_by(f64::total_cmp);
    let at = |part: f64| times[((times.len() - 1) as f64 * part).round() as usize];
    println!(
        "{name}: {} jobs, median {:.1}, 99% {:.1}, max {:.1} microseconds",
        times.len(),
        at(0.5),
        at(0.99),
        at(1.0)
    );
}

fn time() -> io::Result<()> {
    let (mut map_times, mut text_times) = (Vec::new(), Vec::new());
    let mut number = 0u64;
    println!("job map text-to-text answer");
    service::jobs(io::stdin().lock(), |job| {
        number += 1;
        let Job::Text(job) = job else {
            println!("{number} - - not a text");
            return Ok(());
        };
        let (mut map_time, mut text_time): (Option<f64>, f64) = (None, f64::INFINITY);
        let mut kind = String::new();
        for _ in 0..3 {
            let start = Instant::now();
            let mapped = answer::map(job);
            let text = answer::answer_text(&mapped, job);
            text_time = text_time.min(start.elapsed().as_secs_f64() * 1e6);
            if let Some(time) = mapped.map_time {
                let time = time.as_secs_f64() * 1e6;
                map_time = Some(map_time.map_or(time, |least| least.min(time)));
            }
            kind = if mapped.result.is_ok() {
                "network".to_owned()
            } else {
                text.trim_end().to_owned()
            };
        }
        match map_time {
            Some(time) => {
                println!("{number} {time:.1} {text_time:.1} {kind}");
                map_times.push(time);
            }
            None => println!("{number} - {text_time:.1} {kind}"),
        }
        text_times.push(text_time);
        Ok(())
    })?;
    summary("map", &mut map_times);
    summary("text-to-text", &mut text_times);
    Ok(())
}

fn main() -> ExitCode {
    let arguments: Vec<String> = std::env::args().skip(1).collect();
    let arguments: Vec<&str> = arguments.iter().map(String::as_str).collect();
    let done = match arguments.as_slice() {
        [] => serve(|job| answer::answer_text(&answer::map(job), job)),
        ["--cap"] => cap(),
        ["--time"] => time(),
        ["--stats"] => serve(|job| answer::stats_text(&answer::map(job), job)),
        _ => {
            eprintln!("usage: oracle [--cap | --time | --stats] < circuits");
            return ExitCode::from(2);
        }
    };
    match done {
        Ok(()) => ExitCode::SUCCESS,
        Err(_) => ExitCode::FAILURE,
    }
}
