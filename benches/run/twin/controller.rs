// A bus controller: operations over a list of messages, as an assembler would make them of a script.
use crate::buses::Bus;
use crate::messages::{Fault, Message, Ready};
use crate::records::Record;
use crate::words::{Line, List};

#[derive(Clone, Copy)]
pub enum Op {
    Send(u16),
    Loop(u16),
    Again(u16),
    Halt,
}

pub struct Controller {
    pub ops: Vec<Op>,
    pub messages: Vec<Ready>,
    pub faults: Vec<(u32, Vec<Fault>)>,
    pub bus: Bus,
    pub place: usize,
    pub counters: Vec<u16>,
    pub number: u32,
    pub failed: bool,
}

const WORDS: [u16; 32] = [
    0x0000, 0x1234, 0xffff, 0x8001, 0xaaaa, 0x5555, 0x00ff, 0xff00, 0x0f0f, 0xf0f0, 0x0102, 0x0304, 0x0506, 0x0708,
    0x090a, 0x0b0c, 0x0d0e, 0x0f10, 0x1112, 0x1314, 0x1516, 0x1718, 0x191a, 0x1b1c, 0x1d1e, 0x1f20, 0x2122, 0x2324,
    0x2526, 0x2728, 0x292a, 0x2b2c,
];

impl Controller {
    // A receive command of 32 words to each of 31 terminals, so many times.
    pub fn new(times: u16, rounds: u16) -> Controller {
        let all: Vec<u8> = (0..31).collect();
        let mut words = List::new();
        for word in WORDS {
            words.push(word);
        }
        let mut ops = vec![Op::Loop(times), Op::Loop(rounds)];
        ops.extend((0..31).map(Op::Send));
        ops.extend([Op::Again(2), Op::Again(1), Op::Halt]);
        Controller {
            ops,
            messages: all
                .iter()
                .map(|address| {
                    Ready::of(&Message::ToTerminal {
                        address: *address,
                        sub: 1,
                        words,
                    })
                })
                .collect(),
            faults: Vec::new(),
            bus: Bus::new(0, &all),
            place: 0,
            counters: Vec::with_capacity(16),
            number: 0,
            failed: false,
        }
    }
    pub fn next(&mut self) -> Option<Record> {
        loop {
            match self.ops[self.place] {
                Op::Send(index) => {
                    self.place += 1;
                    self.number += 1;
                    return Some(self.send(index));
                }
                Op::Loop(count) => {
                    self.counters.push(count);
                    self.place += 1;
                }
                Op::Again(place) => match self.counters.pop() {
                    Some(count) if count > 1 => {
                        self.counters.push(count - 1);
                        self.place = place as usize;
                    }
                    _ => self.place += 1,
                },
                Op::Halt => return None,
            }
        }
    }
    pub fn send(&mut self, index: u16) -> Record {
        let faults = match self.faults.binary_search_by_key(&self.number, |(number, _)| *number) {
            Ok(place) => self.faults[place].1.as_slice(),
            Err(_) => &[],
        };
        let record = self
            .bus
            .exchange(Line::A, &self.messages[index as usize], 40, faults)
            .observe();
        self.failed = record.block & 0x1000 != 0;
        record
    }
}
