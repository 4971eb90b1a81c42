//! The dump of a recording: a line for each packet and each message.
use crate::index::{Packet, body_start, build};
use crate::messages::{Messages, Seen};
use crate::text::{HEAD, HEX, PIECE, Text};
use std::io::Write;

fn put_packet(text: &mut Text, p: &Packet) {
    let h = &p.header;
    text.line(HEAD, |l| {
        l.put(b"packet ");
        l.number(p.offset as u64);
        l.put(b" channel ");
        l.number(h.channel.into());
        l.put(b" type ");
        l.put(&HEX[h.kind as usize]);
        if h.kind != 0x19 {
            l.put(b" skipped\n");
            return;
        }
        l.put(b" seq ");
        l.number(h.sequence.into());
        l.put(b" flags ");
        l.put(&HEX[h.flags as usize]);
        l.put(b" messages ");
        l.number(p.count);
        l.put(b"\n");
    });
}

#[inline(always)]
fn put_message(text: &mut Text, number: u64, channel: u16, seen: &Seen<'_>) {
    text.line(HEAD + seen.words.len() / 2 * 5, |l| {
        l.put(b"message ");
        l.number(number);
        l.put(b" channel ");
        l.number(channel.into());
        l.put(b" stamp ");
        l.number(seen.stamp);
        l.put(b" block ");
        l.word(seen.block);
        l.put(b" gaps ");
        l.word(seen.gaps);
        l.put(b" words");
        let (area, rest) = std::mem::take(&mut l.rest).split_at_mut(seen.words.len() / 2 * 5);
        for (place, w) in area.chunks_exact_mut(5).zip(seen.words.chunks_exact(2)) {
            let ([a, b], [c, d]) = (HEX[w[1] as usize], HEX[w[0] as usize]);
            place.copy_from_slice(&[b' ', a, b, c, d]);
        }
        l.rest = rest;
        l.put(b"\n");
    });
}

pub(crate) fn dump(file: &[u8], out: &mut impl Write) -> std::io::Result<()> {
    let Ok((packets, _)) = build(file) else { return Ok(()) };
    let mut text = Text {
        bytes: vec![0; PIECE + 1024],
        len: 0,
    };
    for p in &packets {
        let h = &p.header;
        put_packet(&mut text, p);
        if h.kind != 0x19 {
            continue;
        }
        let start = p.offset + body_start(h);
        let body = &file[start..start + h.data_length as usize];
        let found = Messages {
            left: p.count as u32,
            rest: &body[4..],
        };
        for (number, seen) in (p.before + 1..).zip(found) {
            put_message(&mut text, number, h.channel, &seen);
            if text.len >= PIECE {
                out.write_all(&text.bytes[..text.len])?;
                text.len = 0;
            }
        }
    }
    out.write_all(&text.bytes[..text.len])?;
    out.flush()
}
