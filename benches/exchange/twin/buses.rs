// Exchanges on a bus. A run that no fault touches is sent, heard and counted as a whole, by the values of its words;
// only under a fault are there waves.
use crate::messages::{Fault, Ready, altered, late_gap};
use crate::records::Seen;
use crate::terminals::Terminal;
use crate::words::{Line, List, Word, address, decode, encode, is_broadcast, raw_bits};

pub struct Talk<'a> {
    pub start: u64,
    pub line: Line,
    pub ready: &'a Ready,
    pub values: List<u16, 40>,
    pub seen: Seen,
    pub end: u64,
    pub is_controllers_last: bool,
}

// What a sender gives: the controller where there is no address.
pub struct Offered {
    pub own: Option<u8>,
    pub gap: u16,
    pub commands: usize,
    pub values: List<u16, 34>,
}

pub struct Bus {
    pub begin: u64,
    pub clock: u64,
    pub least: Option<u16>,
    pub on_a: Option<u64>,
    pub on_b: Option<u64>,
    pub terminals: Vec<Terminal>,
    pub places: [u8; 32],
    pub opened: u32,
}

pub fn gap_from(end: Option<u64>, tick: u64) -> u16 {
    end.map_or(65535, |end| (tick + 20 - end).min(65535) as u16)
}

impl Bus {
    pub fn new(start: u64, addresses: &[u8]) -> Bus {
        let mut places = [0; 32];
        for (place, own) in addresses.iter().enumerate() {
            places[*own as usize] = place as u8;
        }
        let terminals = addresses.iter().map(|own| Terminal::new(*own)).collect();
        Bus {
            begin: start,
            clock: start,
            least: None,
            on_a: None,
            on_b: None,
            terminals,
            places,
            opened: u32::MAX,
        }
    }
    // The places of a mask, each told, with the mask of the windows that are open afterwards.
    fn each(&mut self, mask: u32, mut tell: impl FnMut(&mut Terminal)) {
        let mut left = mask;
        while left != 0 {
            let place = left.trailing_zeros() as usize;
            let Some(terminal) = self.terminals.get_mut(place) else {
                break;
            };
            left &= left - 1;
            tell(terminal);
            if terminal.window.is_some() {
                self.opened |= 1 << place
            } else {
                self.opened &= !(1 << place)
            }
        }
    }
    pub fn hear(&mut self, line: Line, own: Option<u8>, word: Option<Word>, gap: u16) {
        let mask = match word {
            Some(Word {
                is_command: true,
                value,
            }) if is_broadcast(value) => u32::MAX,
            Some(Word {
                is_command: true,
                value,
            }) => self.opened | 1 << (self.places[address(value) as usize] % 32),
            _ => self.opened,
        };
        self.each(mask, |terminal| {
            if own != Some(terminal.own) {
                terminal.hear(line, word, gap);
            }
        });
    }
    // The words of a run without a fault: its commands one by one, its data words as a whole.
    fn hear_run(&mut self, line: Line, own: Option<u8>, gap: u16, commands: &[u16], values: &[u16]) {
        let mut gap = gap;
        for value in commands {
            self.hear(
                line,
                own,
                Some(Word {
                    is_command: true,
                    value: *value,
                }),
                gap,
            );
            gap = 20;
        }
        if !values.is_empty() {
            self.each(self.opened, |terminal| {
                if own != Some(terminal.own)
                    && let Some(pending) = &mut terminal.window
                    && pending.line == line
                {
                    pending.take_data(values);
                }
            });
        }
    }
    pub fn quiet(&mut self, line: Line, offer: &mut Offered) -> bool {
        let mut answered = false;
        self.each(self.opened, |terminal| {
            let own = terminal.own;
            if let Some(reply) = terminal.quiet(line)
                && !answered
            {
                answered = true;
                offer.own = Some(own);
                offer.gap = reply.gap;
                offer.commands = 1;
                offer.values.len = 0;
                offer.values.extend(reply.words.as_slice());
            }
        });
        answered
    }
    pub fn exchange<'a>(&mut self, line: Line, ready: &'a Ready, gap: u16, faults: &[Fault]) -> Talk<'a> {
        let start = self
            .least
            .map_or(self.begin, |least| self.clock + u64::from(gap.max(least)) - 20);
        let on_line = match line {
            Line::A => self.on_a,
            Line::B => self.on_b,
        };
        let mut talk = Talk {
            start,
            line,
            ready,
            values: List::new(),
            seen: Seen::default(),
            end: start,
            is_controllers_last: true,
        };
        let mut offer = Offered {
            own: None,
            gap: gap_from(on_line, start),
            commands: ready.commands,
            values: ready.values,
        };
        for run in 0..40u8 {
            let before = talk.values.len;
            let gap = late_gap(faults, u32::from(run), offer.gap);
            if faults.is_empty() {
                self.sound_run(&mut talk, run, &offer);
            } else {
                self.altered_run(&mut talk, run, gap, &offer, faults);
            }
            let count = talk.values.len - before;
            if count == 0 {
                break;
            }
            talk.end += if before == 0 { 200 } else { u64::from(gap) + 180 } + 200 * (count as u64 - 1);
            talk.is_controllers_last = run == 0;
            if !self.quiet(line, &mut offer) {
                break;
            }
        }
        self.note(&talk);
        talk
    }
    fn sound_run(&mut self, talk: &mut Talk, run: u8, offer: &Offered) {
        let count = offer.values.len.min(40 - talk.values.len);
        let values = &offer.values.as_slice()[..count];
        if count > 0 {
            talk.values.extend(values);
            talk.seen
                .note_run(talk.ready.due_count(), run, offer.gap, values[0], count);
            let (commands, data) = values.split_at(offer.commands.min(count));
            self.hear_run(talk.line, offer.own, offer.gap, commands, data);
        }
    }
    fn altered_run(&mut self, talk: &mut Talk, run: u8, gap: u16, offer: &Offered, faults: &[Fault]) {
        let mut given: List<u64, 34> = List::new();
        for (place, value) in offer.values.as_slice().iter().enumerate() {
            given.push(encode(Word {
                is_command: place < offer.commands,
                value: *value,
            }));
        }
        let waves = altered(faults, u32::from(run), given.as_slice(), 40 - talk.values.len);
        let mut gap = gap;
        for wave in waves.as_slice() {
            let word = decode(*wave);
            talk.values.push(raw_bits(*wave));
            talk.seen
                .note(talk.ready.commands, talk.ready.due_count(), run, gap, word);
            self.hear(talk.line, offer.own, word, gap);
            gap = 20;
        }
    }
    pub fn note(&mut self, talk: &Talk) {
        self.clock = talk.end;
        self.least = Some(if talk.errors().2 || talk.is_controllers_last {
            180
        } else {
            40
        });
        if talk.values.len > 0 {
            match talk.line {
                Line::A => self.on_a = Some(talk.end),
                Line::B => self.on_b = Some(talk.end),
            }
        }
    }
}
