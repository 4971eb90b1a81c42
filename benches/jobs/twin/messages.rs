//! The messages of a script, each with the line it is sent on.
use crate::faults::Fault;
use crate::tokens::Reader;

#[derive(Clone, Copy)]
pub(crate) struct Words {
    count: u8,
    words: [u16; 32],
}

#[derive(Clone, Copy)]
pub(crate) enum Form {
    ToTerminal {
        address: u8,
        subaddress: u8,
        words: Words,
    },
    FromTerminal {
        address: u8,
        subaddress: u8,
        count: u8,
    },
    Between {
        sender: u8,
        sender_subaddress: u8,
        receiver: u8,
        receiver_subaddress: u8,
        count: u8,
    },
    Mode {
        address: u8,
        zero: bool,
        code: u8,
    },
    ModeFrom {
        address: u8,
        zero: bool,
        code: u8,
    },
    ModeTo {
        address: u8,
        zero: bool,
        code: u8,
        word: u16,
    },
    ToAll {
        subaddress: u8,
        words: Words,
    },
    BetweenAll {
        sender: u8,
        sender_subaddress: u8,
        receiver_subaddress: u8,
        count: u8,
    },
    ModeAll {
        zero: bool,
        code: u8,
    },
    ModeAllTo {
        zero: bool,
        code: u8,
        word: u16,
    },
}

impl Reader<'_> {
    fn bracketed(&mut self) -> Result<Words, Fault> {
        self.expect(b"[")?;
        let (count, words) = self.data()?;
        if count == 0 || count > 32 {
            return Err(Fault::Script('4'));
        }
        Ok(Words {
            count: count as u8,
            words,
        })
    }
    fn optional(&mut self) -> Result<Option<(usize, u16)>, Fault> {
        if self.peek() != Some(b"[") {
            return Ok(None);
        }
        self.at += 1;
        let (count, words) = self.data()?;
        Ok(Some((count, words[0])))
    }
    pub(crate) fn send(&mut self) -> Result<(bool, Form), Fault> {
        let line = match self.next()? {
            b"A" => false,
            b"B" => true,
            _ => return Err(Fault::Script('2')),
        };
        Ok((line, self.form()?))
    }
    fn form(&mut self) -> Result<Form, Fault> {
        let word = self.next()?;
        Ok(match word {
            b"rx" => {
                let (address, subaddress) = (self.number()?, self.number()?);
                let words = self.bracketed()?;
                Form::ToTerminal {
                    address: fit(address, 0, 30)?,
                    subaddress: fit(subaddress, 1, 30)?,
                    words,
                }
            }
            b"tx" => {
                let (address, subaddress, count) = (self.number()?, self.number()?, self.number()?);
                Form::FromTerminal {
                    address: fit(address, 0, 30)?,
                    subaddress: fit(subaddress, 1, 30)?,
                    count: fit(count, 1, 32)?,
                }
            }
            b"rt" => {
                let (sender, from, receiver, to, count) = (
                    self.number()?,
                    self.number()?,
                    self.number()?,
                    self.number()?,
                    self.number()?,
                );
                if sender == receiver {
                    return Err(Fault::Script('4'));
                }
                Form::Between {
                    sender: fit(sender, 0, 30)?,
                    sender_subaddress: fit(from, 1, 30)?,
                    receiver: fit(receiver, 0, 30)?,
                    receiver_subaddress: fit(to, 1, 30)?,
                    count: fit(count, 1, 32)?,
                }
            }
            b"mode" | b"mode0" => {
                let (address, code, words) = (self.number()?, self.number()?, self.optional()?);
                let (address, code, zero) = (fit(address, 0, 30)?, fit(code, 0, 31)?, word == b"mode0");
                match (code, words) {
                    (0..=15, None) => Form::Mode { address, zero, code },
                    (16 | 18 | 19 | 22..=31, None) => Form::ModeFrom { address, zero, code },
                    (17 | 20..=31, Some((1, word))) => Form::ModeTo {
                        address,
                        zero,
                        code,
                        word,
                    },
                    _ => return Err(Fault::Script('4')),
                }
            }
            b"brx" => {
                let subaddress = self.number()?;
                let words = self.bracketed()?;
                Form::ToAll {
                    subaddress: fit(subaddress, 1, 30)?,
                    words,
                }
            }
            b"brt" => {
                let (sender, from, to, count) = (self.number()?, self.number()?, self.number()?, self.number()?);
                Form::BetweenAll {
                    sender: fit(sender, 0, 30)?,
                    sender_subaddress: fit(from, 1, 30)?,
                    receiver_subaddress: fit(to, 1, 30)?,
                    count: fit(count, 1, 32)?,
                }
            }
            b"bmode" | b"bmode0" => {
                let (code, words) = (self.number()?, self.optional()?);
                let (code, zero) = (fit(code, 0, 31)?, word == b"bmode0");
                match (code, words) {
                    (0..=15, None) => Form::ModeAll { zero, code },
                    (17 | 20..=31, Some((1, word))) => Form::ModeAllTo { zero, code, word },
                    _ => return Err(Fault::Script('4')),
                }
            }
            _ => return Err(Fault::Script('2')),
        })
    }
}

fn fit(n: u32, low: u32, high: u32) -> Result<u8, Fault> {
    if low <= n && n <= high {
        Ok(n as u8)
    } else {
        Err(Fault::Script('4'))
    }
}
