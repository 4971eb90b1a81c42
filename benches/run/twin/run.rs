// Buses on threads of their own, and one writer.
use crate::controller::Controller;
use crate::recorder::Recorder;
use crate::records::Record;
use std::io::{self, Write};
use std::sync::mpsc::{Receiver, SyncSender, TrySendError, sync_channel};
use std::thread;

const QUEUE: usize = 4096;

#[derive(Clone, Copy)]
pub struct Load {
    pub channels: u8,
    pub times: u16,
    pub rounds: u16,
    pub paced: bool,
}

pub struct Report {
    pub made: u64,
    pub refused: u64,
    pub packets: u64,
}

pub enum Entry {
    Message { index: u8, number: u32, record: Record },
    End { index: u8 },
}

// Sends each message: where it is paced, it waits for room in the queue; else it offers the message once, and lists the
// numbers of those that a full queue refused.
fn channel(index: u8, mut controller: Controller, queue: SyncSender<Entry>, paced: bool) -> (u32, Vec<u32>) {
    let mut refused = Vec::new();
    while let Some(record) = controller.next() {
        let number = controller.number;
        let entry = Entry::Message { index, number, record };
        if paced {
            queue.send(entry).expect("a writer");
        } else if let Err(TrySendError::Full(_)) = queue.try_send(entry) {
            refused.push(number);
        }
    }
    let _ = queue.send(Entry::End { index });
    (controller.number, refused)
}

fn write<W: Write>(queue: Receiver<Entry>, recorder: &mut Recorder<W>) -> io::Result<()> {
    for entry in queue {
        match entry {
            Entry::Message { index, number, record } => recorder.keep(index, number, &record)?,
            Entry::End { index } => recorder.end(index)?,
        }
    }
    recorder.sink.flush()
}

pub fn run<W: Write>(load: Load, sink: W) -> io::Result<(Report, W)> {
    let (sender, receiver) = sync_channel(QUEUE);
    let mut recorder = Recorder::new(load.channels, sink);
    let (mut made, mut refused) = (0, 0);
    thread::scope(|scope| {
        let handles: Vec<_> = (0..load.channels)
            .map(|index| {
                let sender = sender.clone();
                scope.spawn(move || channel(index, Controller::new(load.times, load.rounds), sender, load.paced))
            })
            .collect();
        drop(sender);
        let written = write(receiver, &mut recorder);
        for handle in handles {
            let (number, numbers) = handle.join().expect("a channel's thread");
            made += u64::from(number);
            refused += numbers.len() as u64;
        }
        written
    })?;
    let Recorder { packets, sink, .. } = recorder;
    Ok((Report { made, refused, packets }, sink))
}
