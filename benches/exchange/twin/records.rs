// What is seen of a talk: its outcome and its record.
use crate::buses::Talk;
use crate::messages::Due;
use crate::words::{Line, List, Word, address};

#[derive(Clone, Copy)]
pub struct Came {
    pub gap: u16,
    pub first: Option<Word>,
    pub count: u8,
}

#[derive(Default)]
pub struct Seen {
    pub controllers: u8,
    pub one: Option<Came>,
    pub two: Option<Came>,
    pub beyond: bool,
    pub unsound: bool,
    pub other_sync: bool,
}

#[allow(dead_code)]
pub struct Outcome {
    pub failed: bool,
    pub silent: bool,
    pub bits: u16,
}

pub fn one_more(came: &mut Option<Came>, gap: u16, first: Option<Word>) {
    match came {
        None => *came = Some(Came { gap, first, count: 1 }),
        Some(came) => came.count += 1,
    }
}
pub fn is_late(due: Option<Due>, came: Option<Came>) -> bool {
    due.is_some() && came.is_none_or(|came| came.gap > 140)
}
pub fn is_miscounted(due: Option<Due>, came: Option<Came>) -> bool {
    let (Some(due), Some(came)) = (due, came) else {
        return false;
    };
    let excuse = came.first.is_some_and(|w| w.is_command && w.value & 0x0408 != 0);
    u16::from(came.count) != u16::from(due.words) + 1 && !(came.count == 1 && excuse)
}
pub fn has_other_address(due: Option<Due>, came: Option<Came>) -> bool {
    let (Some(due), Some(came)) = (due, came) else {
        return false;
    };
    came.first
        .is_some_and(|w| w.is_command && address(w.value) != due.address)
}
pub fn came_bits(due: Option<Due>, came: Option<Came>) -> u16 {
    let (Some(_), Some(came)) = (due, came) else { return 0 };
    came.first
        .map_or(0, |w| if w.is_command { w.value & 0x071F } else { 0 })
}

pub struct Record {
    pub stamp: u64,
    pub block: u16,
    pub gaps: u16,
    pub words: List<u16, 40>,
}

impl Seen {
    // One word.
    pub fn note(&mut self, commands: usize, due: u8, run: u8, gap: u16, word: Option<Word>) {
        let takes_command = match run {
            0 => usize::from(self.controllers) < commands,
            1 => due >= 1 && self.one.is_none(),
            run => run <= due && self.two.is_none(),
        };
        self.other_sync |= word.is_some_and(|w| w.is_command != takes_command);
        self.unsound |= word.is_none();
        self.beyond |= due < run;
        match run {
            0 => self.controllers += 1,
            1 => one_more(&mut self.one, gap, word),
            2 => one_more(&mut self.two, gap, word),
            _ => {}
        }
    }
    // A whole run without a fault, which begins with this word: of the controller, or a status word with its data
    // words.
    pub fn note_run(&mut self, due: u8, run: u8, gap: u16, first: u16, count: usize) {
        let came = Some(Came {
            gap,
            first: Some(Word {
                is_command: true,
                value: first,
            }),
            count: count as u8,
        });
        match run {
            0 => self.controllers = count as u8,
            1 => self.one = came,
            2 => self.two = came,
            _ => {}
        }
        self.beyond |= due < run;
        self.other_sync |= due < run;
    }
}

impl Talk<'_> {
    pub fn errors(&self) -> (bool, bool, bool) {
        let seen = &self.seen;
        let (first, second) = self.ready.due;
        let late = is_late(first, seen.one) || is_late(second, seen.two);
        let miscounted = usize::from(seen.controllers) != self.ready.values.len
            || is_miscounted(first, seen.one)
            || is_miscounted(second, seen.two);
        let other = has_other_address(first, seen.one) || has_other_address(second, seen.two);
        (
            late,
            miscounted,
            late || miscounted || seen.other_sync || seen.unsound || other || seen.beyond,
        )
    }
    #[allow(dead_code)]
    pub fn outcome(&self) -> Outcome {
        let (first, second) = self.ready.due;
        Outcome {
            failed: self.errors().2,
            silent: first.is_some() && self.seen.one.is_none(),
            bits: came_bits(first, self.seen.one) | came_bits(second, self.seen.two),
        }
    }
    pub fn observe(self) -> Record {
        let (late, miscounted, any) = self.errors();
        let half = |came: Option<Came>| came.map_or(0, |came| came.gap.min(255));
        let bit = |on: bool, place: u16| u16::from(on) << place;
        Record {
            stamp: self.start,
            block: bit(self.line == Line::B, 13)
                | bit(any, 12)
                | bit(self.ready.commands == 2, 11)
                | bit(late, 9)
                | bit(miscounted, 5)
                | bit(self.seen.other_sync, 4)
                | bit(self.seen.unsound, 3),
            gaps: half(self.seen.two) << 8 | half(self.seen.one),
            words: self.values,
        }
    }
}
