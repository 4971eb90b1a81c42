//! Job texts to time the reading on.

// Frames as an engineer writes them, until there are so many bytes, or so many messages.
pub(crate) fn job(bytes: usize, messages: usize) -> String {
    let mut text = String::from("# a channel of one bus\nchannel 1\nstart 1000\nterminal 5\nterminal 9\nscript\n");
    let (mut seed, mut sent) = (1u64, 0);
    let mut chance = move || {
        seed = seed.wrapping_mul(6364136223846793005).wrapping_add(1442695040888963407);
        seed >> 33
    };
    let data = |chance: &mut dyn FnMut() -> u64, most: u64| {
        let words: Vec<String> = (0..1 + chance() % most)
            .map(|_| format!("{:04X}", chance() & 0xFFFF))
            .collect();
        format!("[{}]", words.join(" "))
    };
    while text.len() < bytes && sent < messages {
        let more = match chance() % 10 {
            0 => {
                sent += 1;
                format!("send A tx 5 {} {}\n", 1 + chance() % 30, 1 + chance() % 32)
            }
            1 => {
                sent += 1;
                format!("send B mode 5 {}\n", chance() % 16)
            }
            2 => {
                sent += 2;
                format!(
                    "# the stores\nrepeat {} {{\n  send A rx 9 1 {}\n  retry 2 send B rt 5 2 9 3 4\n}}\n",
                    1 + chance() % 2,
                    data(&mut chance, 32)
                )
            }
            3 => {
                sent += 1;
                format!(
                    "if any ( fail bit busy ) {{\n  gap 400\n  retry 1 send A rx 9 7 {}\n}} else {{\n  gap 40\n}}\n",
                    data(&mut chance, 8)
                )
            }
            _ => {
                sent += 1;
                format!(
                    "send A rx {} {} {}\n",
                    5 + 4 * (chance() % 2),
                    1 + chance() % 30,
                    data(&mut chance, 32)
                )
            }
        };
        text.push_str(&more);
    }
    text
}
