//! Recordings to time the index and the dump on.

// About 100 MB: eight channels in turn, packets of 60 messages with 1 to 32 bus words.
pub(crate) fn recording() -> Vec<u8> {
    let (mut file, mut seed, mut stamp) = (Vec::new(), 1u64, 0u64);
    let mut sequence = [0u8; 8];
    for packet in 0usize.. {
        if file.len() >= 100_000_000 {
            break;
        }
        let mut body = (0x4000_0000u32 + 60).to_le_bytes().to_vec();
        let first = stamp;
        for _ in 0..60 {
            seed = seed.wrapping_mul(6364136223846793005).wrapping_add(1442695040888963407);
            let words = 1 + (seed >> 59) as usize;
            body.extend_from_slice(&stamp.to_le_bytes());
            body.extend_from_slice(&[0, 0, 0x50, 0, 2 * words as u8, 0]);
            for i in 0..words {
                body.extend_from_slice(&((seed >> 20) as u16).wrapping_mul(i as u16 + 1).to_le_bytes());
            }
            stamp += 900;
        }
        let channel = packet % 8;
        let filler = (4 - body.len() % 4) % 4;
        let mut head = vec![0x25, 0xEB, channel as u8 + 1, 0];
        head.extend_from_slice(&((24 + body.len() + filler) as u32).to_le_bytes());
        head.extend_from_slice(&(body.len() as u32).to_le_bytes());
        head.extend_from_slice(&[6, sequence[channel], 0, 0x19]);
        head.extend_from_slice(&first.to_le_bytes()[..6]);
        let sum: u32 = head
            .chunks_exact(2)
            .map(|w| u32::from(u16::from_le_bytes([w[0], w[1]])))
            .sum();
        head.extend_from_slice(&(sum as u16).to_le_bytes());
        sequence[channel] = sequence[channel].wrapping_add(1);
        file.extend_from_slice(&head);
        file.extend_from_slice(&body);
        file.extend_from_slice(&[0; 3][..filler]);
    }
    file
}

// 100 MB of headers one behind the other. Each says that its packet goes on to the end of the file, and what is a
// header to one is a message of 24 bytes to those before it; so each body is walked to the end of the file before it
// turns out to have a fault.
pub(crate) fn headers() -> Vec<u8> {
    let mut file = Vec::new();
    let count = 100_000_000usize / 24;
    for number in 0..count {
        let mut head = vec![0x25, 0xEB, 0xFF, 0];
        let rest = 24 * (count - number) as u32;
        head.extend_from_slice(&rest.to_le_bytes());
        head.extend_from_slice(&(rest - 24).to_le_bytes());
        head.extend_from_slice(&[6, 0, 0, 0x19, 10, 0, 0, 0, 0, 0]);
        let sum: u32 = head
            .chunks_exact(2)
            .map(|w| u32::from(u16::from_le_bytes([w[0], w[1]])))
            .sum();
        head.extend_from_slice(&(sum as u16).to_le_bytes());
        file.extend_from_slice(&head);
    }
    file
}
