//! The tokens of a script: a lexer that walks the bytes by a table, numbers, and data words up to their bracket.
use crate::faults::Fault;

const fn classes() -> [u8; 256] {
    let mut table = [0u8; 256];
    let mut b = 0;
    while b < 256 {
        let c = b as u8;
        if c.is_ascii_alphanumeric() || c == b'_' {
            table[b] = 1;
        }
        if c == b' ' || c == b'\t' || c == b'\r' || c == b'\n' {
            table[b] = 2;
        }
        b += 1;
    }
    table
}

static CLASSES: [u8; 256] = classes();

pub(crate) struct Reader<'a> {
    pub(crate) text: &'a [u8],
    pub(crate) at: usize,
}

impl<'a> Reader<'a> {
    pub(crate) fn peek(&mut self) -> Option<&'a [u8]> {
        while let Some(&b) = self.text.get(self.at) {
            if b == b'#' {
                while let Some(&b) = self.text.get(self.at) {
                    if b == b'\n' {
                        break;
                    }
                    self.at += 1;
                }
            } else if CLASSES[b as usize] == 2 {
                self.at += 1;
            } else {
                break;
            }
        }
        let rest = &self.text[self.at..];
        let first = *rest.first()?;
        if CLASSES[first as usize] != 1 {
            return Some(&rest[..1]);
        }
        let end = rest
            .iter()
            .position(|b| CLASSES[*b as usize] != 1)
            .unwrap_or(rest.len());
        Some(&rest[..end])
    }
    pub(crate) fn next(&mut self) -> Result<&'a [u8], Fault> {
        let word = self.peek().ok_or(Fault::Script('5'))?;
        self.at += word.len();
        Ok(word)
    }
    pub(crate) fn expect(&mut self, wanted: &[u8]) -> Result<(), Fault> {
        if self.next()? == wanted {
            Ok(())
        } else {
            Err(Fault::Script('2'))
        }
    }
    pub(crate) fn number(&mut self) -> Result<u32, Fault> {
        number(self.next()?).ok_or(Fault::Script('3'))
    }
    pub(crate) fn within(&mut self, low: u32, high: u32) -> Result<u32, Fault> {
        let n = self.number()?;
        if low <= n && n <= high {
            Ok(n)
        } else {
            Err(Fault::Script('7'))
        }
    }
    pub(crate) fn data(&mut self) -> Result<(usize, [u16; 32]), Fault> {
        let (mut count, mut words) = (0, [0u16; 32]);
        loop {
            let word = self.next()?;
            if word == b"]" {
                return Ok((count, words));
            }
            let value = data_word(word).ok_or(Fault::Script('3'))?;
            if count < 32 {
                words[count] = value;
            }
            count += 1;
        }
    }
}

pub(crate) fn number(word: &[u8]) -> Option<u32> {
    if word.is_empty() || word.len() > 7 {
        return None;
    }
    let mut n = 0;
    for b in word {
        if !b.is_ascii_digit() {
            return None;
        }
        n = n * 10 + u32::from(b - b'0');
    }
    Some(n)
}

fn digit(b: u8) -> Option<u16> {
    Some(
        match b {
            b'0'..=b'9' => b - b'0',
            b'A'..=b'F' => b - b'A' + 10,
            b'a'..=b'f' => b - b'a' + 10,
            _ => return None,
        }
        .into(),
    )
}

fn data_word(word: &[u8]) -> Option<u16> {
    let [a, b, c, d] = word else { return None };
    Some(digit(*a)? << 12 | digit(*b)? << 8 | digit(*c)? << 4 | digit(*d)?)
}
