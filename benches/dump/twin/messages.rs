//! The messages of a packet's body, and whether it is made of whole messages.
use crate::fields::{u16_at, u32_at, u64_at};

pub(crate) struct Messages<'a> {
    pub(crate) left: u32,
    pub(crate) rest: &'a [u8],
}
pub(crate) struct Seen<'a> {
    pub(crate) stamp: u64,
    pub(crate) block: u16,
    pub(crate) gaps: u16,
    pub(crate) words: &'a [u8],
}

fn split(b: &[u8]) -> Result<(Seen<'_>, &[u8]), &'static str> {
    if b.len() < 14 {
        return Err("F3");
    }
    let size = u16_at(b, 12) as usize;
    if size % 2 == 1 {
        return Err("F2");
    }
    if b.len() < 14 + size {
        return Err("F3");
    }
    let (words, rest) = b[14..].split_at(size);
    Ok((
        Seen {
            stamp: u64_at(b, 0),
            block: u16_at(b, 8),
            gaps: u16_at(b, 10),
            words,
        },
        rest,
    ))
}

pub(crate) fn messages(body: &[u8]) -> Result<Messages<'_>, &'static str> {
    if body.len() < 4 {
        return Err("F1");
    }
    let left = u32_at(body, 0) % 0x100_0000;
    let mut rest = &body[4..];
    for _ in 0..left {
        rest = split(rest)?.1;
    }
    Ok(Messages { left, rest: &body[4..] })
}

impl<'a> Iterator for Messages<'a> {
    type Item = Seen<'a>;
    fn next(&mut self) -> Option<Seen<'a>> {
        if self.left == 0 {
            return None;
        }
        let (seen, rest) = split(self.rest).ok()?;
        self.left -= 1;
        self.rest = rest;
        Some(seen)
    }
}
