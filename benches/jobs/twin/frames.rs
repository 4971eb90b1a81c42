//! The frames of a script, as a tree by recursive descent, and how many messages a script sends at most.
use crate::conditions::Test;
use crate::faults::Fault;
use crate::messages::Form;
use crate::tokens::Reader;

pub(crate) enum Frame {
    Send(bool, Form),
    Retry(u8, bool, Form),
    Gap(u16),
    Repeat(u16, Vec<Frame>),
    If(Test, Vec<Frame>, Vec<Frame>),
}

impl Reader<'_> {
    fn block(&mut self, depth: u32) -> Result<Vec<Frame>, Fault> {
        self.expect(b"{")?;
        if depth == 0 {
            return Err(Fault::Script('6'));
        }
        let mut frames = Vec::new();
        loop {
            let word = self.next()?;
            if word == b"}" {
                return Ok(frames);
            }
            frames.push(self.frame(word, depth - 1)?);
        }
    }
    fn frame(&mut self, word: &[u8], depth: u32) -> Result<Frame, Fault> {
        Ok(match word {
            b"send" => {
                let (line, form) = self.send()?;
                Frame::Send(line, form)
            }
            b"retry" => {
                let count = self.within(1, 8)?;
                self.expect(b"send")?;
                let (line, form) = self.send()?;
                Frame::Retry(count as u8, line, form)
            }
            b"gap" => Frame::Gap(self.within(40, 65535)? as u16),
            b"repeat" => {
                let count = self.within(1, 10_000)?;
                Frame::Repeat(count as u16, self.block(depth)?)
            }
            b"if" => {
                let test = self.test(16)?;
                let then = self.block(depth)?;
                let otherwise = if self.peek() == Some(b"else") {
                    self.at += 4;
                    self.block(depth)?
                } else {
                    Vec::new()
                };
                Frame::If(test, then, otherwise)
            }
            _ => return Err(Fault::Script('2')),
        })
    }
}

pub(crate) fn parse(text: &[u8]) -> Result<Vec<Frame>, Fault> {
    let mut reader = Reader { text, at: 0 };
    let mut frames = Vec::new();
    while let Some(word) = reader.peek() {
        reader.at += word.len();
        frames.push(reader.frame(word, 16)?);
    }
    if worst(&frames) > 1_000_000 {
        return Err(Fault::Script('8'));
    }
    Ok(frames)
}

fn worst(frames: &[Frame]) -> u64 {
    frames
        .iter()
        .map(|f| match f {
            Frame::Send(..) => 1,
            Frame::Retry(n, ..) => 1 + u64::from(*n),
            Frame::Gap(_) => 0,
            Frame::Repeat(n, body) => u64::from(*n) * worst(body),
            Frame::If(_, then, otherwise) => worst(then).max(worst(otherwise)),
        })
        .fold(0, |a, b| a.saturating_add(b))
}
