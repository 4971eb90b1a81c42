//! The same in plain Rust: an index of a recording and its dump, timed alike, and a recording to time them on.
mod fields;
mod index;
mod lines;
mod messages;
mod recordings;
mod text;

use index::build;
use lines::dump;
use recordings::{headers, recording};
use std::io::Write;
use std::time::Instant;

const ROUNDS: u32 = 7;

struct Counter {
    bytes: u64,
}
impl Write for Counter {
    fn write(&mut self, buf: &[u8]) -> std::io::Result<usize> {
        self.bytes += buf.len() as u64;
        Ok(buf.len())
    }
    fn flush(&mut self) -> std::io::Result<()> {
        Ok(())
    }
}

fn main() {
    let words: Vec<String> = std::env::args().collect();
    if words[1] == "make" {
        std::fs::write(&words[2], recording()).unwrap();
        return;
    }
    if words[1] == "headers" {
        std::fs::write(&words[2], headers()).unwrap();
        return;
    }
    if words[1] == "syncs" {
        std::fs::write(&words[2], [0x25, 0xEB].repeat(50_000_000)).unwrap();
        return;
    }
    let bytes = std::fs::read(&words[2]).unwrap();
    if words[1] == "print" {
        dump(&bytes, &mut std::io::stdout().lock()).unwrap();
        return;
    }
    if words[1] == "count" {
        let mut counter = Counter { bytes: 0 };
        for _ in 0..words[3].parse::<u32>().unwrap() {
            dump(&bytes, &mut counter).unwrap();
        }
        println!("{}", counter.bytes);
        return;
    }
    let (mut best_build, mut best_dump, mut total, mut counter) = (u128::MAX, u128::MAX, 0, Counter { bytes: 0 });
    for _ in 0..ROUNDS {
        let start = Instant::now();
        if let Ok((packets, count)) = build(&bytes) {
            total = count;
            std::hint::black_box(packets);
        }
        best_build = best_build.min(start.elapsed().as_nanos());
        let start = Instant::now();
        let _ = dump(&bytes, &mut counter);
        best_dump = best_dump.min(start.elapsed().as_nanos());
    }
    println!(
        "{} {best_build} {best_dump} {total} {}",
        bytes.len(),
        counter.bytes / u64::from(ROUNDS)
    );
}
