// Lists of a fixed room, words, waves and commands.

#[derive(Clone, Copy)]
pub struct List<T: Copy + Default, const N: usize> {
    pub items: [T; N],
    pub len: usize,
}

impl<T: Copy + Default, const N: usize> List<T, N> {
    pub fn new() -> Self {
        List {
            items: [T::default(); N],
            len: 0,
        }
    }
    pub fn push(&mut self, item: T) {
        self.items[self.len] = item;
        self.len += 1;
    }
    pub fn extend(&mut self, items: &[T]) {
        self.items[self.len..self.len + items.len()].copy_from_slice(items);
        self.len += items.len();
    }
    pub fn as_slice(&self) -> &[T] {
        &self.items[..self.len]
    }
}

#[derive(Clone, Copy, PartialEq, Eq)]
pub enum Line {
    A,
    B,
}

#[derive(Clone, Copy, PartialEq, Eq)]
pub struct Word {
    pub is_command: bool,
    pub value: u16,
}

pub const fn pairs() -> [u16; 256] {
    let mut table = [0; 256];
    let mut byte = 0;
    while byte < 256 {
        let mut bit = 0;
        while bit < 8 {
            table[byte] |= (if byte >> bit & 1 == 1 { 2 } else { 1 }) << (2 * bit);
            bit += 1;
        }
        byte += 1;
    }
    table
}

pub const fn firsts() -> [u8; 256] {
    let mut table = [0; 256];
    let mut halves = 0;
    while halves < 256 {
        let mut bit = 0;
        while bit < 4 {
            table[halves] |= ((halves >> (2 * bit + 1) & 1) as u8) << bit;
            bit += 1;
        }
        halves += 1;
    }
    table
}

pub static PAIRS: [u16; 256] = pairs();
pub static FIRSTS: [u8; 256] = firsts();

pub fn encode(word: Word) -> u64 {
    let sync: u64 = if word.is_command { 0b111000 } else { 0b000111 };
    let high = u64::from(PAIRS[(word.value >> 8) as usize]);
    let low = u64::from(PAIRS[(word.value & 0xff) as usize]);
    let last = u64::from((word.value.count_ones() + 1) % 2) + 1;
    sync << 34 | high << 18 | low << 2 | last
}

pub fn raw_bits(wave: u64) -> u16 {
    let nibble = |place: u32| u16::from(FIRSTS[(wave >> place & 0xff) as usize]);
    nibble(26) << 12 | nibble(18) << 8 | nibble(10) << 4 | nibble(2)
}

pub fn decode(wave: u64) -> Option<Word> {
    let word = Word {
        is_command: wave >> 34 == 0b111000,
        value: raw_bits(wave),
    };
    (encode(word) == wave).then_some(word)
}

pub fn address(command: u16) -> u8 {
    (command >> 11) as u8
}
pub fn is_broadcast(command: u16) -> bool {
    address(command) == 31
}
pub fn is_transmit(command: u16) -> bool {
    command & 0x0400 != 0
}
pub fn sub(command: u16) -> u8 {
    (command >> 5 & 31) as u8
}
pub fn is_mode(command: u16) -> bool {
    sub(command) == 0 || sub(command) == 31
}
pub fn code(command: u16) -> u8 {
    (command & 31) as u8
}
pub fn count(command: u16) -> usize {
    if command & 31 == 0 { 32 } else { (command & 31) as usize }
}
pub fn is_receive(command: u16) -> bool {
    !is_mode(command) && !is_transmit(command)
}
pub fn is_legal_mode(transmit: bool, code: u8) -> bool {
    if transmit {
        code <= 8 || code == 16 || code == 18 || code == 19
    } else {
        code == 17 || code == 20 || code == 21
    }
}
pub fn broadcast_allowed(transmit: bool, code: u8) -> bool {
    if transmit {
        code == 1 || (3..=8).contains(&code)
    } else {
        code == 17 || code == 20 || code == 21
    }
}
