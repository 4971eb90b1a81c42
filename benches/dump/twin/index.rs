//! The index of a recording: its packets one after the other, each with its header and its count of messages.
use crate::fields::{u16_at, u32_at};
use crate::messages::messages;

#[derive(Clone, Copy)]
pub(crate) struct Header {
    pub(crate) channel: u16,
    packet_length: u32,
    pub(crate) data_length: u32,
    pub(crate) sequence: u8,
    pub(crate) flags: u8,
    pub(crate) kind: u8,
}

#[allow(dead_code)]
pub(crate) struct Packet {
    pub(crate) offset: usize,
    pub(crate) header: Header,
    pub(crate) before: u64,
    pub(crate) count: u64,
    sequence_jump: bool,
}

fn read_header(b: &[u8]) -> Result<Header, &'static str> {
    if b.len() < 24 {
        return Err("K1");
    }
    if u16_at(b, 0) != 0xEB25 {
        return Err("K2");
    }
    let mut sum = 0u32;
    for i in 0..11 {
        sum += u32::from(u16_at(b, 2 * i));
    }
    if u32::from(u16_at(b, 22)) != sum % 65536 {
        return Err("K3");
    }
    let h = Header {
        channel: u16_at(b, 2),
        packet_length: u32_at(b, 4),
        data_length: u32_at(b, 8),
        sequence: b[13],
        flags: b[14],
        kind: b[15],
    };
    if h.packet_length < 24 || h.packet_length % 4 != 0 {
        return Err("K4");
    }
    if u64::from(h.packet_length) < body_start(&h) as u64 + u64::from(h.data_length) {
        return Err("K5");
    }
    Ok(h)
}

pub(crate) fn body_start(h: &Header) -> usize {
    if h.flags >= 128 { 36 } else { 24 }
}

pub(crate) fn build(file: &[u8]) -> Result<(Vec<Packet>, u64), (usize, &'static str)> {
    let mut latest: Vec<Option<u8>> = vec![None; 65536];
    let (mut packets, mut before, mut rest) = (Vec::new(), 0u64, file);
    while !rest.is_empty() {
        let offset = file.len() - rest.len();
        let header = read_header(rest).map_err(|e| (offset, e))?;
        if rest.len() < header.packet_length as usize {
            return Err((offset, "N2"));
        }
        let mut count = 0;
        if header.kind == 0x19 {
            let start = body_start(&header);
            count = u64::from(
                messages(&rest[start..start + header.data_length as usize])
                    .map_err(|e| (offset, e))?
                    .left,
            );
        }
        let sequence_jump = latest[header.channel as usize].is_some_and(|s| header.sequence != s.wrapping_add(1));
        latest[header.channel as usize] = Some(header.sequence);
        packets.push(Packet {
            offset,
            header,
            before,
            count,
            sequence_jump,
        });
        before += count;
        rest = &rest[header.packet_length as usize..];
    }
    Ok((packets, before))
}
