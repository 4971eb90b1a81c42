// The same in plain Rust: buses on threads of their own, and one recording of them all, timed alike. Its bus is that of
// the twin of benches/exchange. No code of the repository is in it.
//   twin CHANNELS TIMES ROUNDS open|paced memory|FILE      the nanoseconds of a run, and its messages, refused ones and
//                                                          packets
//   twin compare FILE FILE                                 whether two recordings give the same for each channel
//   twin count FILE                                        how many messages a recording has
#[path = "../../exchange/twin/buses.rs"]
mod buses;
mod controller;
#[allow(dead_code)]
#[path = "../../exchange/twin/messages.rs"]
mod messages;
mod reading;
mod recorder;
#[path = "../../exchange/twin/records.rs"]
mod records;
mod run;
#[path = "../../exchange/twin/terminals.rs"]
mod terminals;
#[path = "../../exchange/twin/words.rs"]
mod words;

use run::{Load, Report};
use std::fs::File;
use std::io;
use std::process::exit;
use std::time::Instant;

fn timed<W: io::Write>(load: Load, sink: W) -> io::Result<()> {
    let start = Instant::now();
    let (report, _sink) = run::run(load, sink)?;
    let nanos = start.elapsed().as_nanos();
    let Report { made, refused, packets } = report;
    println!("{nanos} {made} {refused} {packets}");
    Ok(())
}

fn main() -> io::Result<()> {
    let words: Vec<String> = std::env::args().skip(1).collect();
    let words: Vec<&str> = words.iter().map(String::as_str).collect();
    let number = |word: &str| word.parse::<u16>().expect("a number");
    match words[..] {
        [channels, times, rounds, gate, place] => {
            let channels = number(channels).min(8) as u8;
            let load = Load {
                channels,
                times: number(times),
                rounds: number(rounds),
                paced: gate == "paced",
            };
            if place == "memory" {
                timed(load, Vec::new())
            } else {
                timed(load, File::create(place)?)
            }
        }
        ["compare", ours, twin] => reading::compare(&std::fs::read(ours)?, &std::fs::read(twin)?),
        ["count", file] => {
            println!("{}", reading::count(&std::fs::read(file)?)?);
            Ok(())
        }
        _ => exit(2),
    }
}
