// Remote terminals.
use crate::words::*;

#[derive(Clone, Copy)]
pub enum Phase {
    Start,
    Taking,
    Called(u8),
    Waiting(u8),
    LostTransfer,
    Lost,
}

pub struct Pending {
    pub line: Line,
    pub command: u16,
    pub phase: Phase,
    pub words: List<u16, 32>,
}

pub fn words_due(command: u16) -> usize {
    if is_receive(command) {
        count(command)
    } else if is_mode(command) && !is_transmit(command) && code(command) >= 16 {
        1
    } else {
        0
    }
}

impl Pending {
    pub fn take_due(&mut self, word: Option<Word>, gap: u16) {
        match word {
            Some(word) if gap == 20 && self.words.len < words_due(self.command) && !word.is_command => {
                self.words.push(word.value);
                self.phase = Phase::Taking;
            }
            _ => self.phase = Phase::Lost,
        }
    }
    pub fn take_word(&mut self, own: u8, word: Option<Word>, gap: u16) {
        let heard = word.filter(|w| w.is_command).map(|w| w.value);
        match self.phase {
            Phase::Start => match heard {
                Some(called)
                    if is_receive(self.command)
                        && gap == 20
                        && is_transmit(called)
                        && !is_mode(called)
                        && address(called) != own
                        && !is_broadcast(called) =>
                {
                    self.phase = Phase::Called(address(called));
                }
                _ => self.take_due(word, gap),
            },
            Phase::Taking => self.take_due(word, gap),
            Phase::Called(_) => self.phase = Phase::LostTransfer,
            Phase::Waiting(sender) => {
                let answers = heard.is_some_and(|status| address(status) == sender && gap <= 170);
                self.phase = if answers { Phase::Taking } else { Phase::Lost };
            }
            Phase::LostTransfer | Phase::Lost => {}
        }
    }
    // Contiguous data words, at least one.
    pub fn take_data(&mut self, values: &[u16]) {
        match self.phase {
            Phase::Start | Phase::Taking => {
                let taken = values.len().min(words_due(self.command) - self.words.len);
                self.words.extend(&values[..taken]);
                self.phase = if taken < values.len() {
                    Phase::Lost
                } else {
                    Phase::Taking
                };
            }
            Phase::Called(_) => self.phase = Phase::LostTransfer,
            Phase::Waiting(_) => self.phase = Phase::Lost,
            Phase::LostTransfer | Phase::Lost => {}
        }
    }
    pub fn take_quiet(&mut self) -> Option<bool> {
        match self.phase {
            Phase::Start => Some(words_due(self.command) == 0),
            Phase::Taking => Some(words_due(self.command) == self.words.len),
            Phase::Called(sender) => {
                self.phase = Phase::Waiting(sender);
                None
            }
            Phase::LostTransfer => {
                self.phase = Phase::Lost;
                None
            }
            Phase::Waiting(_) | Phase::Lost => Some(false),
        }
    }
}

#[derive(Clone, Copy, Default)]
pub struct Conditions {
    pub message_error: bool,
    pub service: bool,
    pub broadcast: bool,
    pub busy: bool,
    pub subsystem: bool,
    pub control: bool,
    pub terminal: bool,
}

pub struct Terminal {
    pub own: u8,
    pub window: Option<Pending>,
    pub busy: bool,
    pub service: bool,
    pub subsystem: bool,
    pub fault: bool,
    pub control: bool,
    pub vector: u16,
    pub self_test: u16,
    pub response: u16,
    pub marks: [u32; 64],
    pub conditions: Conditions,
    pub off_a: bool,
    pub off_b: bool,
    pub inhibited: bool,
    pub sync_word: u16,
    pub bit_word: u16,
    pub last_command: u16,
    pub words: Vec<u16>,
    pub counts: [u8; 96],
}

pub struct Reply {
    pub gap: u16,
    pub words: List<u16, 33>,
}

impl Terminal {
    pub fn new(own: u8) -> Terminal {
        Terminal {
            own,
            window: None,
            busy: false,
            service: false,
            subsystem: false,
            fault: false,
            control: false,
            vector: 0,
            self_test: 0,
            response: 80,
            marks: [0; 64],
            conditions: Conditions::default(),
            off_a: false,
            off_b: false,
            inhibited: false,
            sync_word: 0,
            bit_word: 0,
            last_command: 0,
            words: vec![0; 3072],
            counts: [0; 96],
        }
    }
    pub fn store(&mut self, slot: usize, words: &[u16]) {
        self.words[32 * slot..32 * slot + words.len()].copy_from_slice(words);
        self.counts[slot] = words.len() as u8;
    }
    pub fn at(&self, slot: usize) -> &[u16] {
        &self.words[32 * slot..32 * slot + self.counts[slot] as usize]
    }
    pub fn is_question(&self, command: u16) -> bool {
        address(command) == self.own
            && is_transmit(command)
            && is_mode(command)
            && (code(command) == 2 || code(command) == 18)
    }
    pub fn tell(&mut self, command: u16, good: bool) {
        if !self.is_question(command) {
            let mode = is_mode(command) && is_transmit(command);
            let inhibits = match code(command) {
                6 if good && mode => true,
                7 if good && mode => false,
                _ => self.inhibited,
            };
            self.conditions = Conditions {
                message_error: !good,
                service: self.service,
                broadcast: is_broadcast(command),
                busy: self.busy,
                subsystem: self.subsystem,
                control: good && mode && code(command) == 0 && self.control,
                terminal: self.fault && !inhibits,
            };
        }
    }
    pub fn hear(&mut self, line: Line, word: Option<Word>, gap: u16) {
        match word {
            Some(Word {
                is_command: true,
                value,
            }) if address(value) == self.own || is_broadcast(value) => {
                if let Some(pending) = self.window.take() {
                    self.tell(pending.command, false);
                }
                self.window = Some(Pending {
                    line,
                    command: value,
                    phase: Phase::Start,
                    words: List::new(),
                });
                if !(self.is_question(value) && code(value) == 18) {
                    self.last_command = value;
                }
            }
            _ => {
                if let Some(pending) = &mut self.window
                    && pending.line == line
                {
                    pending.take_word(self.own, word, gap);
                }
            }
        }
    }
    pub fn is_on(&self, line: Line) -> bool {
        match line {
            Line::A => !self.off_a,
            Line::B => !self.off_b,
        }
    }
    pub fn quiet(&mut self, line: Line) -> Option<Reply> {
        let pending = self.window.as_mut()?;
        if pending.line != line {
            return None;
        }
        let shape = pending.take_quiet()?;
        let pending = self.window.take()?;
        let command = pending.command;
        let answers = shape && address(command) == self.own && self.is_on(line);
        let good = shape && !self.bars(command);
        self.tell(command, good);
        if good {
            self.act(line, command, pending.words.as_slice());
        }
        answers.then(|| self.answer(command, good))
    }
    pub fn bars(&self, command: u16) -> bool {
        if is_mode(command) {
            !is_legal_mode(is_transmit(command), code(command))
                || is_broadcast(command) && !broadcast_allowed(is_transmit(command), code(command))
        } else {
            let row = if is_transmit(command) { 32 } else { 0 } + sub(command) as usize;
            is_broadcast(command) && is_transmit(command) || self.marks[row] >> (count(command) - 1) & 1 == 1
        }
    }
    pub fn act(&mut self, line: Line, command: u16, words: &[u16]) {
        if is_receive(command) {
            if !self.busy {
                let slot = sub(command) as usize + if is_broadcast(command) { 32 } else { 0 };
                self.store(slot, words);
            }
        } else if is_mode(command) {
            let off = matches!((code(command), is_transmit(command)), (4, true));
            match (code(command), is_transmit(command)) {
                (1, true) => self.sync_word = 0,
                (3, true) => self.bit_word = self.self_test,
                (4 | 5, true) => match line {
                    Line::A => self.off_b = off,
                    Line::B => self.off_a = off,
                },
                (6, true) => self.inhibited = true,
                (7, true) => self.inhibited = false,
                (8, true) => {
                    self.off_a = false;
                    self.off_b = false;
                    self.inhibited = false;
                    self.sync_word = 0;
                }
                (17, false) => self.sync_word = words[0],
                _ => {}
            }
        }
    }
    pub fn status(&self) -> u16 {
        let c = &self.conditions;
        let bit = |on: bool, place: u16| u16::from(on) << place;
        u16::from(self.own) << 11
            | bit(c.message_error, 10)
            | bit(c.service, 8)
            | bit(c.broadcast, 4)
            | bit(c.busy, 3)
            | bit(c.subsystem, 2)
            | bit(c.control, 1)
            | bit(c.terminal, 0)
    }
    pub fn answer(&self, command: u16, good: bool) -> Reply {
        let mut words = List::new();
        words.push(self.status());
        if good && is_transmit(command) {
            if is_mode(command) {
                match code(command) {
                    18 => words.push(self.last_command),
                    16 if !self.busy => words.push(self.vector),
                    19 if !self.busy => words.push(self.bit_word),
                    _ => {}
                }
            } else if !self.busy {
                let from = if sub(command) == 30 {
                    self.at(30)
                } else {
                    self.at(64 + sub(command) as usize)
                };
                for place in 0..count(command) {
                    words.push(from.get(place).copied().unwrap_or(0));
                }
            }
        }
        Reply {
            gap: self.response,
            words,
        }
    }
}
