// A recording, the controllers of its jobs at a place, the states at places 0, 64, 128 .., and those at which the
// latest 32 moves ended.
use crate::controller::Controller;
use crate::records::Record;
use crate::saved::{Saved, restore, save};
use std::collections::VecDeque;

const APART: usize = 64;
const RECENT: usize = 32;

struct Stop {
    place: usize,
    states: Vec<Saved>,
}

pub struct Replay {
    channels: Vec<u16>,
    live: Vec<Controller>,
    place: usize,
    checkpoints: Vec<Stop>,
    recent: VecDeque<Stop>,
}

fn number(bytes: &[u8], place: usize, size: usize) -> u64 {
    bytes[place..place + size]
        .iter()
        .rev()
        .fold(0, |sum, byte| sum << 8 | u64::from(*byte))
}

// Whether a message of the file is this record.
fn is_record(message: &[u8], record: &Record) -> bool {
    number(message, 0, 8) == record.stamp
        && number(message, 8, 2) == u64::from(record.block)
        && number(message, 10, 2) == u64::from(record.gaps)
        && message[14..]
            .chunks_exact(2)
            .map(|word| u16::from_le_bytes([word[0], word[1]]))
            .eq(record.words.as_slice().iter().copied())
}

fn stop(place: usize, live: &[Controller]) -> Stop {
    Stop {
        place,
        states: live.iter().map(save).collect(),
    }
}

// The messages of a file, each with its channel; None where a packet is not sound.
fn messages(file: &[u8]) -> Option<Vec<(u16, &[u8])>> {
    let (mut all, mut rest) = (Vec::new(), file);
    while !rest.is_empty() {
        if rest.len() < 28 || number(rest, 0, 2) != 0xEB25 {
            return None;
        }
        let sum = rest[..22].chunks_exact(2).fold(0u16, |sum, word| {
            sum.wrapping_add(u16::from_le_bytes([word[0], word[1]]))
        });
        let (length, used) = (number(rest, 4, 4) as usize, number(rest, 8, 4) as usize);
        if u64::from(sum) != number(rest, 22, 2) || rest.len() < length || length < used + 24 {
            return None;
        }
        let channel = number(rest, 2, 2) as u16;
        let mut body = &rest[28..24 + used];
        for _ in 0..number(rest, 24, 3) {
            let size = 14 + body.get(12..14).map(|size| number(size, 0, 2) as usize)?;
            all.push((channel, body.get(..size)?));
            body = &body[size..];
        }
        rest = &rest[length..];
    }
    Some(all)
}

impl Replay {
    pub fn open(channels: u16, times: u16, rounds: u16, file: &[u8]) -> Option<Replay> {
        let all = messages(file)?;
        let mut live: Vec<Controller> = (0..channels).map(|_| Controller::new(times, rounds)).collect();
        let mut checkpoints = Vec::with_capacity(all.len() / APART + 1);
        for (place, (channel, message)) in all.iter().enumerate() {
            if place % APART == 0 {
                checkpoints.push(stop(place, &live));
            }
            let record = live.get_mut(usize::from(*channel - 1))?.next()?;
            if !is_record(message, &record) {
                return None;
            }
        }
        if all.len() % APART == 0 {
            checkpoints.push(stop(all.len(), &live));
        }
        if live.iter_mut().any(|controller| controller.next().is_some()) {
            return None;
        }
        let channels = all.iter().map(|(channel, _)| *channel - 1).collect();
        for (controller, saved) in live.iter_mut().zip(&checkpoints[0].states) {
            restore(controller, saved);
        }
        Some(Replay {
            channels,
            live,
            place: 0,
            checkpoints,
            recent: VecDeque::with_capacity(RECENT),
        })
    }
    pub fn total(&self) -> usize {
        self.channels.len()
    }
    pub fn ticks(&self) -> u64 {
        self.live
            .iter()
            .fold(0, |sum, controller| sum.wrapping_add(controller.bus.clock))
    }
    // To a place that the file has: from where it stands, or from the nearest state below.
    pub fn go(&mut self, place: usize) {
        let mut best = &self.checkpoints[place / APART];
        for stop in &self.recent {
            if best.place < stop.place && stop.place <= place {
                best = stop;
            }
        }
        let mut from = self.place;
        if place < self.place || self.place < best.place {
            for (controller, saved) in self.live.iter_mut().zip(&best.states) {
                restore(controller, saved);
            }
            from = best.place;
        }
        for channel in &self.channels[from..place] {
            self.live[usize::from(*channel)].next();
        }
        self.place = place;
        if self.recent.len() == RECENT {
            self.recent.pop_front();
        }
        self.recent.push_back(stop(place, &self.live));
    }
}
