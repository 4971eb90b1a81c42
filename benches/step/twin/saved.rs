// What is kept of a controller: its few fields, and of each terminal its registers and the slots that hold words,
// packed.
use crate::controller::Controller;
use crate::terminals::{Conditions, Terminal};

#[derive(Clone)]
struct SavedTerminal {
    conditions: Conditions,
    off_a: bool,
    off_b: bool,
    inhibited: bool,
    sync_word: u16,
    bit_word: u16,
    last_command: u16,
    // of each slot that is not empty a head, which has its number and how many words it holds, and the words
    words: Vec<u16>,
}

#[derive(Clone)]
pub struct Saved {
    clock: u64,
    least: Option<u16>,
    on_a: Option<u64>,
    on_b: Option<u64>,
    opened: u32,
    place: usize,
    counters: [u16; 4],
    open_loops: usize,
    number: u32,
    failed: bool,
    terminals: Vec<SavedTerminal>,
}

fn saved_terminal(terminal: &Terminal) -> SavedTerminal {
    let room = terminal
        .counts
        .iter()
        .map(|count| if *count > 0 { 1 + usize::from(*count) } else { 0 })
        .sum();
    let mut words = Vec::with_capacity(room);
    for (slot, count) in terminal.counts.iter().enumerate() {
        if *count > 0 {
            words.push((64 * slot + usize::from(*count)) as u16);
            words.extend_from_slice(terminal.at(slot));
        }
    }
    SavedTerminal {
        conditions: terminal.conditions,
        off_a: terminal.off_a,
        off_b: terminal.off_b,
        inhibited: terminal.inhibited,
        sync_word: terminal.sync_word,
        bit_word: terminal.bit_word,
        last_command: terminal.last_command,
        words,
    }
}

fn restore_terminal(terminal: &mut Terminal, saved: &SavedTerminal) {
    terminal.window = None;
    terminal.conditions = saved.conditions;
    terminal.off_a = saved.off_a;
    terminal.off_b = saved.off_b;
    terminal.inhibited = saved.inhibited;
    terminal.sync_word = saved.sync_word;
    terminal.bit_word = saved.bit_word;
    terminal.last_command = saved.last_command;
    terminal.counts = [0; 96];
    let mut rest = saved.words.as_slice();
    while let Some((head, behind)) = rest.split_first() {
        let (words, others) = behind.split_at(usize::from(*head % 64));
        terminal.store(usize::from(*head / 64), words);
        rest = others;
    }
}

pub fn save(controller: &Controller) -> Saved {
    let bus = &controller.bus;
    let mut counters = [0; 4];
    counters[..controller.counters.len()].copy_from_slice(&controller.counters);
    Saved {
        clock: bus.clock,
        least: bus.least,
        on_a: bus.on_a,
        on_b: bus.on_b,
        opened: bus.opened,
        place: controller.place,
        counters,
        open_loops: controller.counters.len(),
        number: controller.number,
        failed: controller.failed,
        terminals: bus.terminals.iter().map(saved_terminal).collect(),
    }
}

pub fn restore(controller: &mut Controller, saved: &Saved) {
    let bus = &mut controller.bus;
    bus.clock = saved.clock;
    bus.least = saved.least;
    bus.on_a = saved.on_a;
    bus.on_b = saved.on_b;
    bus.opened = saved.opened;
    for (terminal, kept) in bus.terminals.iter_mut().zip(&saved.terminals) {
        restore_terminal(terminal, kept);
    }
    controller.place = saved.place;
    controller.counters.clear();
    controller
        .counters
        .extend_from_slice(&saved.counters[..saved.open_loops]);
    controller.number = saved.number;
    controller.failed = saved.failed;
}
