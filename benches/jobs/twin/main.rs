//! The same in plain Rust: job texts read to programs, timed alike, and texts to time them on. One source of a job's
//! text: the lines above the script, a lexer that walks the bytes, a recursive descent to a tree, the assembler.
#![allow(dead_code)]
mod conditions;
mod faults;
mod frames;
mod jobs;
mod messages;
mod programs;
mod texts;
mod tokens;

use jobs::read_jobs;
use std::time::Instant;
use texts::job;

const ROUNDS: u32 = 7;

fn main() {
    let words: Vec<String> = std::env::args().collect();
    match words[1].as_str() {
        "script" => std::fs::write(&words[2], job(10_000_000, usize::MAX)).unwrap(),
        "jobs" => std::fs::write(&words[2], job(usize::MAX, 500)).unwrap(),
        _ => {
            let text = std::fs::read(&words[1]).unwrap();
            let count: usize = words[2].parse().unwrap();
            let texts = vec![text.as_slice(); count];
            let (mut best, mut told) = (u128::MAX, String::new());
            for _ in 0..ROUNDS {
                let start = Instant::now();
                let read = std::hint::black_box(read_jobs(&texts));
                best = best.min(start.elapsed().as_nanos());
                told = match &read {
                    Ok(jobs) => format!(
                        "operations {} messages {}",
                        jobs.iter().map(|j| j.program.operations.len()).sum::<usize>(),
                        jobs.iter().map(|j| j.program.messages.len()).sum::<usize>()
                    ),
                    Err((index, fault)) => format!("{index} {fault}"),
                };
            }
            println!("{} {best} {told}", text.len() * count);
        }
    }
}
