// Chapter 11 packets of several channels, each written where it is closed.
use crate::records::Record;
use std::io::{self, Write};

const LIMIT: usize = 65_536;
const LONGEST: u64 = 1_000_000;
const FIRST_MESSAGE: usize = 28;

pub struct Lane {
    pub channel: u16,
    pub bytes: Vec<u8>,
    pub count: u32,
    pub first_stamp: u64,
    pub last: u32,
    pub overflow: bool,
    pub sequence: u8,
}

pub struct Recorder<W: Write> {
    pub lanes: Vec<Lane>,
    pub packets: u64,
    pub sink: W,
}

impl Lane {
    pub fn new(channel: u16) -> Lane {
        let mut bytes = Vec::with_capacity(LIMIT);
        bytes.resize(FIRST_MESSAGE, 0);
        Lane {
            channel,
            bytes,
            count: 0,
            first_stamp: 0,
            last: 0,
            overflow: false,
            sequence: 0,
        }
    }
    pub fn takes(&self, record: &Record) -> bool {
        let size = self.bytes.len() + 14 + 2 * record.words.len;
        self.count == 0 || size.next_multiple_of(4) <= LIMIT && record.stamp < self.first_stamp + LONGEST
    }
    pub fn keep(&mut self, number: u32, record: &Record) {
        if self.count == 0 {
            self.first_stamp = record.stamp;
        }
        self.overflow |= number != self.last + 1;
        self.last = number;
        self.count += 1;
        let words = record.words.as_slice();
        let mut head = [0; 14];
        head[..8].copy_from_slice(&record.stamp.to_le_bytes());
        head[8..10].copy_from_slice(&record.block.to_le_bytes());
        head[10..12].copy_from_slice(&record.gaps.to_le_bytes());
        head[12..].copy_from_slice(&(2 * words.len() as u16).to_le_bytes());
        self.bytes.extend_from_slice(&head);
        self.bytes.extend(words.iter().flat_map(|word| word.to_le_bytes()));
    }
    pub fn close<W: Write>(&mut self, sink: &mut W) -> io::Result<()> {
        let used = self.bytes.len();
        self.bytes.resize(used.next_multiple_of(4), 0);
        let mut head = [0; FIRST_MESSAGE];
        head[..2].copy_from_slice(&0xEB25u16.to_le_bytes());
        head[2..4].copy_from_slice(&self.channel.to_le_bytes());
        head[4..8].copy_from_slice(&(self.bytes.len() as u32).to_le_bytes());
        head[8..12].copy_from_slice(&(used as u32 - 24).to_le_bytes());
        head[12..16].copy_from_slice(&[6, self.sequence, if self.overflow { 0x10 } else { 0 }, 0x19]);
        head[16..22].copy_from_slice(&self.first_stamp.to_le_bytes()[..6]);
        let sum = head[..22].chunks_exact(2).fold(0u16, |sum, word| {
            sum.wrapping_add(u16::from_le_bytes([word[0], word[1]]))
        });
        head[22..24].copy_from_slice(&sum.to_le_bytes());
        head[24..].copy_from_slice(&(0x4000_0000 + self.count).to_le_bytes());
        self.bytes[..FIRST_MESSAGE].copy_from_slice(&head);
        sink.write_all(&self.bytes)?;
        self.bytes.truncate(FIRST_MESSAGE);
        self.sequence = self.sequence.wrapping_add(1);
        self.count = 0;
        self.overflow = false;
        Ok(())
    }
}

impl<W: Write> Recorder<W> {
    pub fn new(channels: u8, sink: W) -> Recorder<W> {
        let lanes = (1..=u16::from(channels)).map(Lane::new).collect();
        Recorder {
            lanes,
            packets: 0,
            sink,
        }
    }
    pub fn keep(&mut self, index: u8, number: u32, record: &Record) -> io::Result<()> {
        let lane = &mut self.lanes[usize::from(index)];
        if !lane.takes(record) {
            lane.close(&mut self.sink)?;
            self.packets += 1;
        }
        lane.keep(number, record);
        Ok(())
    }
    pub fn end(&mut self, index: u8) -> io::Result<()> {
        let lane = &mut self.lanes[usize::from(index)];
        if lane.count > 0 {
            lane.close(&mut self.sink)?;
            self.packets += 1;
        }
        Ok(())
    }
}
