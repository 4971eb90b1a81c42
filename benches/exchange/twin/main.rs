// The same rules in plain Rust: a bus of terminals, exchanges and their records, timed alike. No code of the repository
// is in it.
mod buses;
mod messages;
mod records;
mod terminals;
mod words;

use buses::Bus;
use messages::{Message, Ready};
use std::hint::black_box;
use std::time::Instant;
use words::{Line, List};

const ROUNDS: u32 = 9;
const EXCHANGES: u32 = 20_000;

#[inline(never)]
fn round(bus: &mut Bus, message: &Ready, exchanges: u32) -> u64 {
    let mut sum = 0u64;
    for _ in 0..exchanges {
        let talk = bus.exchange(Line::A, message, 40, &[]);
        sum = sum.wrapping_add(talk.values.len as u64);
    }
    sum
}

#[inline(never)]
fn observed_round(bus: &mut Bus, message: &Ready, exchanges: u32) -> u64 {
    let mut sum = 0u64;
    for _ in 0..exchanges {
        let record = bus.exchange(Line::A, message, 40, &[]).observe();
        sum = sum
            .wrapping_add(u64::from(record.gaps) + u64::from(record.block))
            .wrapping_add(record.stamp);
        if let Some(word) = record.words.as_slice().last() {
            sum = sum.wrapping_add(u64::from(*word));
        }
    }
    sum
}

fn speed(name: &str, addresses: &[u8], message: &Message) {
    let message = &Ready::of(message);
    let mut bus = Bus::new(0, addresses);
    let (mut exchanges, mut records, mut words, mut sum) = (u128::MAX, u128::MAX, 0, 0);
    for _ in 0..ROUNDS {
        let start = Instant::now();
        words = round(black_box(&mut bus), black_box(message), EXCHANGES);
        exchanges = exchanges.min(start.elapsed().as_nanos());
        let start = Instant::now();
        sum = observed_round(black_box(&mut bus), black_box(message), EXCHANGES);
        records = records.min(start.elapsed().as_nanos());
    }
    println!(
        "{name} {} {exchanges} {records} {words} {sum} {}",
        addresses.len(),
        bus.clock
    );
}

fn main() {
    let all: Vec<u8> = (0..31).collect();
    let mut words = List::new();
    words.push(1);
    let one = Message::ToTerminal {
        address: 5,
        sub: 1,
        words,
    };
    let mut words = List::new();
    for word in [
        0x0000, 0x1234, 0xffff, 0x8001, 0xaaaa, 0x5555, 0x00ff, 0xff00, 0x0f0f, 0xf0f0, 0x0102, 0x0304, 0x0506, 0x0708,
        0x090a, 0x0b0c, 0x0d0e, 0x0f10, 0x1112, 0x1314, 0x1516, 0x1718, 0x191a, 0x1b1c, 0x1d1e, 0x1f20, 0x2122, 0x2324,
        0x2526, 0x2728, 0x292a, 0x2b2c,
    ] {
        words.push(word);
    }
    let many = Message::ToTerminal {
        address: 5,
        sub: 1,
        words,
    };
    let transmit = Message::FromTerminal {
        address: 5,
        sub: 1,
        count: 32,
    };
    let transfer = Message::Between {
        sender: 7,
        sender_sub: 1,
        receiver: 5,
        receiver_sub: 2,
        count: 32,
    };
    let mut words = std::env::args().skip(1).filter_map(|word| word.parse::<usize>().ok());
    if let (Some(kind), Some(exchanges)) = (words.next(), words.next()) {
        let message = Ready::of([&one, &many, &transmit, &transfer][kind.min(3)]);
        let mut bus = Bus::new(0, &all);
        let sum = observed_round(&mut bus, &message, exchanges as u32);
        println!("{sum} {}", bus.clock);
        return;
    }
    speed("receive-1", &[5], &one);
    speed("receive-1", &all, &one);
    speed("receive-32", &[5], &many);
    speed("receive-32", &all, &many);
    speed("transmit-32", &[5], &transmit);
    speed("transmit-32", &all, &transmit);
    speed("transfer-32", &[5, 7], &transfer);
    speed("transfer-32", &all, &transfer);
}
