//! Jobs: the lines above a script, and its program.
use crate::faults::Fault;
use crate::frames::parse;
use crate::programs::{Program, program};
use crate::tokens::number;

pub(crate) struct Job {
    channel: u16,
    start: u64,
    terminals: Vec<u8>,
    pub(crate) program: Program,
}

fn read_job(text: &[u8]) -> Result<Job, Fault> {
    let (mut rest, mut line) = (text, 1);
    let (mut channel, mut start, mut terminals) = (None, 0, Vec::new());
    loop {
        let end = rest.iter().position(|b| *b == b'\n').ok_or(Fault::Line(line))?;
        let mut words = rest[..end].split(|b| *b == b' ').filter(|w| !w.is_empty());
        rest = &rest[end + 1..];
        match words.next() {
            None => {}
            Some([b'#', ..]) => {}
            Some(b"script") => break,
            Some(word) => {
                let n = words.next().and_then(number).ok_or(Fault::Line(line))?;
                match word {
                    b"channel" => channel = Some(n as u16),
                    b"start" => start = u64::from(n),
                    b"terminal" => terminals.push(n as u8),
                    _ => return Err(Fault::Line(line)),
                }
            }
        }
        line += 1;
    }
    let frames = parse(rest)?;
    Ok(Job {
        channel: channel.ok_or(Fault::Line(line))?,
        start,
        terminals,
        program: program(&frames, line)?,
    })
}

pub(crate) fn read_jobs(texts: &[&[u8]]) -> Result<Vec<Job>, (usize, Fault)> {
    texts
        .iter()
        .enumerate()
        .map(|(index, text)| read_job(text).map_err(|fault| (index, fault)))
        .collect()
}
