// Messages, and what the planned faults make of a run.
use crate::words::{List, Word, encode};

#[derive(Clone, Copy)]
pub struct Due {
    pub address: u8,
    pub words: u8,
}

#[allow(dead_code)]
#[derive(Clone, Copy)]
pub enum Message {
    ToTerminal {
        address: u8,
        sub: u8,
        words: List<u16, 32>,
    },
    FromTerminal {
        address: u8,
        sub: u8,
        count: u8,
    },
    Between {
        sender: u8,
        sender_sub: u8,
        receiver: u8,
        receiver_sub: u8,
        count: u8,
    },
}

pub fn command(address: u8, transmit: bool, sub: u8, count: usize) -> u16 {
    u16::from(address) << 11 | u16::from(transmit) << 10 | u16::from(sub) << 5 | (count as u16 & 31)
}

impl Message {
    pub fn commands(&self) -> (u16, Option<u16>) {
        match self {
            Message::ToTerminal { address, sub, words } => (command(*address, false, *sub, words.len), None),
            Message::FromTerminal { address, sub, count } => (command(*address, true, *sub, usize::from(*count)), None),
            Message::Between {
                sender,
                sender_sub,
                receiver,
                receiver_sub,
                count,
            } => (
                command(*receiver, false, *receiver_sub, usize::from(*count)),
                Some(command(*sender, true, *sender_sub, usize::from(*count))),
            ),
        }
    }
    pub fn data_words(&self) -> &[u16] {
        match self {
            Message::ToTerminal { words, .. } => words.as_slice(),
            Message::FromTerminal { .. } | Message::Between { .. } => &[],
        }
    }
    pub fn due(&self) -> (Option<Due>, Option<Due>) {
        match self {
            Message::ToTerminal { address, .. } => (
                Some(Due {
                    address: *address,
                    words: 0,
                }),
                None,
            ),
            Message::FromTerminal { address, count, .. } => (
                Some(Due {
                    address: *address,
                    words: *count,
                }),
                None,
            ),
            Message::Between {
                sender,
                receiver,
                count,
                ..
            } => (
                Some(Due {
                    address: *sender,
                    words: *count,
                }),
                Some(Due {
                    address: *receiver,
                    words: 0,
                }),
            ),
        }
    }
}

// A message, and what is known of it before it is sent: the values of its words, commands first, and the replies that
// are due.
pub struct Ready {
    pub values: List<u16, 34>,
    pub commands: usize,
    pub due: (Option<Due>, Option<Due>),
}

impl Ready {
    pub fn of(message: &Message) -> Ready {
        let (first, second) = message.commands();
        let mut values = List::new();
        values.push(first);
        if let Some(second) = second {
            values.push(second);
        }
        values.extend(message.data_words());
        Ready {
            values,
            commands: 1 + usize::from(second.is_some()),
            due: message.due(),
        }
    }
    pub fn due_count(&self) -> u8 {
        u8::from(self.due.0.is_some()) + u8::from(self.due.1.is_some())
    }
}

#[allow(dead_code)]
#[derive(Clone, Copy)]
pub enum Fault {
    Mask { run: u32, index: u32, half_bits: u64 },
    Drop { run: u32, index: u32 },
    Add { run: u32, index: u32, word: Word },
    Late { run: u32, ticks: u16 },
    Mute { run: u32 },
}

pub fn altered(faults: &[Fault], at_run: u32, given: &[u64], room: usize) -> List<u64, 40> {
    let mut waves = List::new();
    if faults
        .iter()
        .any(|f| matches!(f, Fault::Mute { run } if *run == at_run))
    {
        return waves;
    }
    for (place, wave) in given.iter().enumerate() {
        let at = place as u32;
        if !faults
            .iter()
            .any(|f| matches!(f, Fault::Drop { run, index } if *run == at_run && *index == at))
            && waves.len < room
        {
            let mut wave = *wave;
            for f in faults {
                if let Fault::Mask { run, index, half_bits } = f
                    && *run == at_run
                    && *index == at
                {
                    wave ^= half_bits;
                }
            }
            waves.push(wave);
        }
        for f in faults {
            if let Fault::Add { run, index, word } = f
                && *run == at_run
                && *index == at
                && waves.len < room
            {
                waves.push(encode(*word));
            }
        }
    }
    waves
}

pub fn late_gap(faults: &[Fault], at_run: u32, gap: u16) -> u16 {
    let mut gap = gap;
    for f in faults {
        if let Fault::Late { run, ticks } = f
            && *run == at_run
        {
            gap = *ticks;
        }
    }
    gap
}
