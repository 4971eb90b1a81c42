//! The word codec in Rust, by the same tables as crates/mil_word/src/code.rt.
#[path = "../../crates/mil_word/src/tables.rt"]
mod tables;

use tables::{FIRSTS, PAIRS};

#[inline]
fn wave_of(is_command: bool, value: u16) -> u64 {
    let sync: u64 = if is_command { 0b111000 } else { 0b000111 };
    let high = u64::from(PAIRS[usize::from(value >> 8)]);
    let low = u64::from(PAIRS[usize::from(value & 0xff)]);
    let last = u64::from((value.count_ones() + 1) % 2) + 1;
    sync << 34 | high << 18 | low << 2 | last
}

#[inline]
fn first_halves(wave: u64) -> u16 {
    let four = |place: u32| u16::from(FIRSTS[(wave >> place & 0xff) as usize]);
    four(26) << 12 | four(18) << 8 | four(10) << 4 | four(2)
}

#[unsafe(no_mangle)]
pub extern "C" fn rust_encode(value: u16) -> u64 {
    wave_of(true, value)
}

#[unsafe(no_mangle)]
pub extern "C" fn rust_decode(half_bits: u64) -> u32 {
    let wave = half_bits & 0xff_ffff_ffff;
    let is_command = wave >> 34 == 0b111000;
    let value = first_halves(wave);
    if wave_of(is_command, value) != wave {
        return 0x2_0000;
    }
    u32::from(value) + if is_command { 0 } else { 0x1_0000 }
}

#[unsafe(no_mangle)]
pub extern "C" fn rust_raw_bits(half_bits: u64) -> u16 {
    first_halves(half_bits & 0xff_ffff_ffff)
}
