//! Programs: the operations and the list of messages that the assembler makes of a script's frames.
use crate::conditions::Test;
use crate::faults::Fault;
use crate::frames::Frame;
use crate::messages::Form;

#[derive(Clone, Copy)]
pub(crate) enum Op {
    Halt,
    Send(u16),
    Alt(u16),
    Gap(u16),
    Loop(u16),
    Again(u16),
    Leave(u16),
    Jump(u16),
    Test(u16),
    JumpFalse(u16),
}

pub(crate) struct Program {
    pub(crate) operations: Vec<Op>,
    pub(crate) messages: Vec<(bool, Form)>,
    budget: u64,
}

fn tests(t: &Test) -> usize {
    match t {
        Test::Not(a) => tests(a),
        Test::And(a, b) | Test::Or(a, b) => tests(a) + tests(b),
        _ => 3,
    }
}

fn size(frames: &[Frame]) -> usize {
    frames
        .iter()
        .map(|f| match f {
            Frame::Send(..) | Frame::Gap(_) => 1,
            Frame::Retry(..) => 8,
            Frame::Repeat(_, body) => size(body) + 2,
            Frame::If(t, then, otherwise) => tests(t) + size(then) + 1 + size(otherwise),
        })
        .sum()
}

fn entries(frames: &[Frame]) -> usize {
    frames
        .iter()
        .map(|f| match f {
            Frame::Send(..) | Frame::Retry(..) => 1,
            Frame::Gap(_) => 0,
            Frame::Repeat(_, body) => entries(body),
            Frame::If(_, then, otherwise) => entries(then) + entries(otherwise),
        })
        .sum()
}

impl Program {
    fn branch(&mut self, t: &Test, yes: usize, no: usize) {
        let kind = match t {
            Test::Not(a) => return self.branch(a, no, yes),
            Test::And(a, b) => {
                let next = self.operations.len() + tests(a);
                self.branch(a, next, no);
                return self.branch(b, yes, no);
            }
            Test::Or(a, b) => {
                let next = self.operations.len() + tests(a);
                self.branch(a, yes, next);
                return self.branch(b, yes, no);
            }
            Test::Fail => 0,
            Test::Silent => 1,
            Test::Bit(n) => 16 + u16::from(*n),
        };
        self.operations
            .extend([Op::Test(kind), Op::JumpFalse(no as u16), Op::Jump(yes as u16)]);
    }
    fn emit(&mut self, frames: &[Frame]) {
        for f in frames {
            let p = self.operations.len() as u16;
            match f {
                Frame::Send(line, form) => {
                    self.operations.push(Op::Send(self.messages.len() as u16));
                    self.messages.push((*line, *form));
                }
                Frame::Retry(n, line, form) => {
                    let m = self.messages.len() as u16;
                    self.operations.extend([
                        Op::Send(m),
                        Op::Loop(u16::from(*n)),
                        Op::Test(0),
                        Op::JumpFalse(p + 6),
                        Op::Alt(m),
                        Op::Jump(p + 7),
                        Op::Leave(p + 8),
                        Op::Again(p + 2),
                    ]);
                    self.messages.push((*line, *form));
                }
                Frame::Gap(t) => self.operations.push(Op::Gap(*t)),
                Frame::Repeat(n, body) => {
                    self.operations.push(Op::Loop(*n));
                    self.emit(body);
                    self.operations.push(Op::Again(p + 1));
                }
                Frame::If(t, then, otherwise) => {
                    let yes = usize::from(p) + tests(t);
                    let no = yes + size(then) + 1;
                    self.branch(t, yes, no);
                    self.emit(then);
                    self.operations.push(Op::Jump((no + size(otherwise)) as u16));
                    self.emit(otherwise);
                }
            }
        }
    }
}

pub(crate) fn program(frames: &[Frame], line: u64) -> Result<Program, Fault> {
    if size(frames) > 4095 {
        return Err(Fault::Operations(line));
    }
    if entries(frames) > 1024 {
        return Err(Fault::Messages(line));
    }
    let mut made = Program {
        operations: Vec::new(),
        messages: Vec::new(),
        budget: 0,
    };
    made.emit(frames);
    made.operations.push(Op::Halt);
    let (mut weight, mut open) = (1u64, Vec::new());
    for op in &made.operations {
        made.budget += weight;
        match op {
            Op::Loop(n) => {
                open.push(weight);
                weight *= u64::from(*n);
            }
            Op::Again(_) => weight = open.pop().unwrap(),
            _ => {}
        }
    }
    Ok(made)
}
