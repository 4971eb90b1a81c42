//! Text that is printed: lines into a buffer, digits two at a time from tables.

// The two digits of each byte, and of each number below 100.
pub(crate) static HEX: [[u8; 2]; 256] = {
    let digits = *b"0123456789ABCDEF";
    let mut table = [[0; 2]; 256];
    let mut i = 0;
    while i < 256 {
        table[i] = [digits[i / 16], digits[i % 16]];
        i += 1;
    }
    table
};
static DEC: [[u8; 2]; 100] = {
    let mut table = [[0; 2]; 100];
    let mut i = 0;
    while i < 100 {
        table[i] = [b'0' + (i / 10) as u8, b'0' + (i % 10) as u8];
        i += 1;
    }
    table
};

// What a line has at most beside its bus words, and the bytes at which the text is handed on.
pub(crate) const HEAD: usize = 128;
pub(crate) const PIECE: usize = 65536;

// A line in room that was reserved for all of it: each piece goes to the front of what is left.
pub(crate) struct Line<'a> {
    pub(crate) rest: &'a mut [u8],
}
impl<'a> Line<'a> {
    #[inline(always)]
    pub(crate) fn put<const N: usize>(&mut self, piece: &[u8; N]) {
        let (front, rest) = std::mem::take(&mut self.rest).split_first_chunk_mut::<N>().unwrap();
        *front = *piece;
        self.rest = rest;
    }
    #[inline(always)]
    pub(crate) fn number(&mut self, mut n: u64) {
        let (mut buf, mut at) = ([0u8; 20], 20);
        while n >= 100 {
            at -= 2;
            buf[at..at + 2].copy_from_slice(&DEC[(n % 100) as usize]);
            n /= 100;
        }
        if n >= 10 {
            at -= 2;
            buf[at..at + 2].copy_from_slice(&DEC[n as usize]);
        } else {
            at -= 1;
            buf[at] = b'0' + n as u8;
        }
        let (front, rest) = std::mem::take(&mut self.rest).split_at_mut(20 - at);
        front.copy_from_slice(&buf[at..]);
        self.rest = rest;
    }
    #[inline(always)]
    pub(crate) fn word(&mut self, w: u16) {
        self.put(&HEX[(w >> 8) as usize]);
        self.put(&HEX[(w & 255) as usize]);
    }
}

// The bytes that wait for the writer: the first `len` of the buffer, which grows where a line may not fit.
pub(crate) struct Text {
    pub(crate) bytes: Vec<u8>,
    pub(crate) len: usize,
}
impl Text {
    #[inline(always)]
    pub(crate) fn line(&mut self, most: usize, write: impl FnOnce(&mut Line<'_>)) {
        if self.bytes.len() - self.len < most {
            self.bytes.resize(self.len + most, 0);
        }
        let mut line = Line {
            rest: &mut self.bytes[self.len..],
        };
        write(&mut line);
        let left = line.rest.len();
        self.len = self.bytes.len() - left;
    }
}
