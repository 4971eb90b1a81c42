// The same in plain Rust: a recording is played again beside its file and kept by checkpoints, and moved about in. Its
// buses are those of the twin of benches/exchange, its controllers those of the twin of benches/run. No code of the
// repository is in it.
//   twin CHANNELS TIMES ROUNDS CHANCE STEPS FILE      what the file's messages are, as the twin of benches/run sends
//   them; how many moves go to places by chance, and how many steps forward from the start and back
// It prints how many messages there are, the nanoseconds of opening, of the moves by chance, of the steps forward and
// of those back, and a sum over all places.
#[path = "../../exchange/twin/buses.rs"]
mod buses;
#[allow(dead_code)]
#[path = "../../run/twin/controller.rs"]
mod controller;
#[allow(dead_code)]
#[path = "../../exchange/twin/messages.rs"]
mod messages;
#[path = "../../exchange/twin/records.rs"]
mod records;
mod replay;
mod saved;
#[path = "../../exchange/twin/terminals.rs"]
mod terminals;
#[path = "../../exchange/twin/words.rs"]
mod words;

use replay::Replay;
use std::process::exit;
use std::time::Instant;

fn by_chance(replay: &mut Replay, count: u64) -> u64 {
    let (places, mut state, mut sum) = (replay.total() as u64 + 1, 1u64, 0u64);
    for _ in 0..count {
        state = state
            .wrapping_mul(6_364_136_223_846_793_005)
            .wrapping_add(1_442_695_040_888_963_407);
        replay.go(((state >> 33) % places) as usize);
        sum = sum.wrapping_add(replay.ticks());
    }
    sum
}

fn forward(replay: &mut Replay, count: usize) -> u64 {
    let mut sum = 0u64;
    replay.go(0);
    for place in 1..=count.min(replay.total()) {
        replay.go(place);
        sum = sum.wrapping_add(replay.ticks());
    }
    sum
}

fn back(replay: &mut Replay, count: usize) -> u64 {
    let mut sum = 0u64;
    for place in (0..count.min(replay.total())).rev() {
        replay.go(place);
        sum = sum.wrapping_add(replay.ticks());
    }
    sum
}

fn main() -> std::io::Result<()> {
    let words: Vec<String> = std::env::args().skip(1).collect();
    let words: Vec<&str> = words.iter().map(String::as_str).collect();
    let [channels, times, rounds, chance, steps, path] = words[..] else {
        exit(2)
    };
    let number = |word: &str| word.parse::<u16>().expect("a number");
    let steps = steps.parse().expect("a number");
    let file = std::fs::read(path)?;
    let start = Instant::now();
    let mut replay = Replay::open(number(channels), number(times), number(rounds), &file).expect("accord");
    let opened = start.elapsed().as_nanos();
    let start = Instant::now();
    let mut sum = by_chance(&mut replay, chance.parse().expect("a number"));
    let moved = start.elapsed().as_nanos();
    let start = Instant::now();
    sum = sum.wrapping_add(forward(&mut replay, steps));
    let onward = start.elapsed().as_nanos();
    let start = Instant::now();
    sum = sum.wrapping_add(back(&mut replay, steps));
    let homeward = start.elapsed().as_nanos();
    println!("{} {opened} {moved} {onward} {homeward} {sum}", replay.total());
    Ok(())
}
