// The twin of `speed trunk` in plain Rust: a queue of the standard library under a mutex, and the same work.
use std::collections::VecDeque;
use std::sync::Mutex;
use std::thread;
use std::time::Instant;

#[derive(Clone, Copy)]
struct Item {
    tag: u8,
    number: u32,
}

struct Trunk {
    capacity: usize,
    items: Mutex<VecDeque<Item>>,
}

impl Trunk {
    fn make(capacity: usize) -> Trunk {
        Trunk {
            capacity,
            items: Mutex::new(VecDeque::with_capacity(capacity)),
        }
    }

    fn offer(&self, item: Item) -> Result<(), Item> {
        let mut items = self.items.lock().unwrap();
        if items.len() == self.capacity {
            return Err(item);
        }
        items.push_back(item);
        Ok(())
    }

    fn take(&self) -> Option<Item> {
        self.items.lock().unwrap().pop_front()
    }
}

fn send(trunk: &Trunk, item: Item) {
    while trunk.offer(item).is_err() {
        thread::yield_now();
    }
}

fn take_all(trunk: &Trunk, wanted: u64) -> u64 {
    let (mut left, mut sum) = (wanted, 0u64);
    while left > 0 {
        match trunk.take() {
            Some(item) => {
                left -= 1;
                sum = sum.wrapping_add(u64::from(item.number) ^ u64::from(item.tag));
            }
            None => thread::yield_now(),
        }
    }
    sum
}

fn main() {
    let words: Vec<u32> = std::env::args()
        .skip(1)
        .map(|word| word.parse().expect("a number"))
        .collect();
    let [threads, count, capacity] = words[..] else {
        eprintln!("mutex_queue THREADS COUNT CAPACITY");
        std::process::exit(2);
    };
    let trunk = Trunk::make(capacity as usize);
    let start = Instant::now();
    let sum = thread::scope(|scope| {
        for tag in 0..threads as u8 {
            let trunk = &trunk;
            scope.spawn(move || {
                for number in 0..count {
                    send(trunk, Item { tag, number });
                }
            });
        }
        take_all(&trunk, u64::from(threads) * u64::from(count))
    });
    println!("{} {sum}", start.elapsed().as_nanos());
}
