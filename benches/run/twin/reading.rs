// Recordings read back: the packets of each channel in their order, and how many messages they have.
use std::collections::BTreeMap;
use std::io::{self, Error};

fn u16_at(bytes: &[u8], place: usize) -> u16 {
    u16::from_le_bytes([bytes[place], bytes[place + 1]])
}
fn u32_at(bytes: &[u8], place: usize) -> u32 {
    u32::from(u16_at(bytes, place)) | u32::from(u16_at(bytes, place + 2)) << 16
}

fn packets(file: &[u8]) -> io::Result<Vec<&[u8]>> {
    let (mut packets, mut rest) = (Vec::new(), file);
    while !rest.is_empty() {
        if rest.len() < 28 || u16_at(rest, 0) != 0xEB25 || rest.len() < u32_at(rest, 4) as usize {
            return Err(Error::other(format!("no packet at {}", file.len() - rest.len())));
        }
        let (packet, behind) = rest.split_at(u32_at(rest, 4) as usize);
        packets.push(packet);
        rest = behind;
    }
    Ok(packets)
}

pub fn count(file: &[u8]) -> io::Result<u64> {
    Ok(packets(file)?
        .iter()
        .map(|packet| u64::from(u32_at(packet, 24) & 0xff_ffff))
        .sum())
}

fn channels(file: &[u8]) -> io::Result<BTreeMap<u16, Vec<u8>>> {
    let mut channels: BTreeMap<u16, Vec<u8>> = BTreeMap::new();
    for packet in packets(file)? {
        channels.entry(u16_at(packet, 2)).or_default().extend_from_slice(packet);
    }
    Ok(channels)
}

pub fn compare(ours: &[u8], twin: &[u8]) -> io::Result<()> {
    if channels(ours)? != channels(twin)? {
        return Err(Error::other("the two recordings differ"));
    }
    println!(
        "{}",
        if ours == twin {
            "the same bytes"
        } else {
            "the same packets of each channel"
        }
    );
    Ok(())
}
