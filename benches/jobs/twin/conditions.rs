//! The conditions of a script, as trees no deeper than is allowed.
use crate::faults::Fault;
use crate::tokens::Reader;

pub(crate) enum Test {
    Fail,
    Silent,
    Bit(u8),
    Not(Box<Test>),
    And(Box<Test>, Box<Test>),
    Or(Box<Test>, Box<Test>),
}

impl Reader<'_> {
    pub(crate) fn test(&mut self, depth: u32) -> Result<Test, Fault> {
        let word = self.next()?;
        if matches!(word, b"not" | b"all" | b"any") && depth == 0 {
            return Err(Fault::Script('6'));
        }
        Ok(match word {
            b"fail" => Test::Fail,
            b"silent" => Test::Silent,
            b"bit" => Test::Bit(match self.next()? {
                b"message_error" => 10,
                b"instrumentation" => 9,
                b"service_request" => 8,
                b"broadcast" => 4,
                b"busy" => 3,
                b"subsystem" => 2,
                b"control" => 1,
                b"terminal" => 0,
                _ => return Err(Fault::Script('2')),
            }),
            b"not" => Test::Not(Box::new(self.test(depth - 1)?)),
            b"all" | b"any" => {
                self.expect(b"(")?;
                let (a, b) = (Box::new(self.test(depth - 1)?), Box::new(self.test(depth - 1)?));
                self.expect(b")")?;
                if word == b"all" {
                    Test::And(a, b)
                } else {
                    Test::Or(a, b)
                }
            }
            _ => return Err(Fault::Script('2')),
        })
    }
}
