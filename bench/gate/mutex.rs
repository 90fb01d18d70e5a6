//! What `solo_bench gate` measures, with std's Mutex and Condvar in place of a gate.
use std::hint::black_box;
use std::sync::{Condvar, Mutex};
use std::thread;
use std::time::Instant;

const TOP: u64 = 3;

/// The level of the crate level_monitor.
struct Level {
    level: u64,
    waiting: [bool; 5],
    turn: Option<u8>,
}

impl Level {
    fn can_go(&self, process: u8) -> bool {
        if process % 2 == 1 {
            self.level < TOP
        } else {
            0 < self.level
        }
    }

    fn first_waiting(&self, one: u8, other: u8) -> Option<u8> {
        [one, other]
            .into_iter()
            .find(|&process| self.waiting[usize::from(process)])
    }

    fn resume(&mut self, process: u8) {
        self.waiting[usize::from(process)] = false;
        if process % 2 == 1 {
            self.level += 1;
            self.turn = self.first_waiting(2, 4);
        } else {
            self.level -= 1;
            self.turn = self.first_waiting(1, 3);
        }
    }
}

struct Monitor {
    state: Mutex<Level>,
    moved: [Condvar; 5],
}

impl Monitor {
    fn new() -> Monitor {
        Monitor {
            state: Mutex::new(Level {
                level: 0,
                waiting: [false; 5],
                turn: None,
            }),
            moved: Default::default(),
        }
    }

    /// One entry: a process waits in its queue until the level lets it go on.
    fn change(&self, process: u8) {
        let mut level = self.state.lock().unwrap();
        while !level.can_go(process) {
            level.waiting[usize::from(process)] = true;
            level = self.moved[usize::from(process)].wait(level).unwrap();
        }
        level.resume(process);
        if let Some(next) = level.turn {
            self.moved[usize::from(next)].notify_one();
        }
    }
}

/// A slot for one item, as a buffer of the crate slot_buffer: either side may stop.
struct Slot {
    item: Option<u32>,
    stopped: bool,
}

struct Buffer {
    slot: Mutex<Slot>,
    filled: Condvar,
    emptied: Condvar,
}

impl Buffer {
    fn new() -> Buffer {
        Buffer {
            slot: Mutex::new(Slot {
                item: None,
                stopped: false,
            }),
            filled: Condvar::new(),
            emptied: Condvar::new(),
        }
    }

    /// Puts an item in, and waits until there is room. False: the other side stopped.
    fn put(&self, item: u32) -> bool {
        let mut slot = self.slot.lock().unwrap();
        while slot.item.is_some() && !slot.stopped {
            slot = self.emptied.wait(slot).unwrap();
        }
        if slot.stopped {
            return false;
        }
        slot.item = Some(item);
        self.filled.notify_one();
        true
    }

    /// Takes the item out, and waits until there is one. None: the other side stopped.
    fn take(&self) -> Option<u32> {
        let mut slot = self.slot.lock().unwrap();
        while slot.item.is_none() && !slot.stopped {
            slot = self.filled.wait(slot).unwrap();
        }
        let item = slot.item.take();
        self.emptied.notify_one();
        item
    }

    fn stop(&self) {
        self.slot.lock().unwrap().stopped = true;
        self.filled.notify_one();
        self.emptied.notify_one();
    }
}

/// Hands numbers on through so many buffers, each between two threads, and says whether each came in its place.
fn hand_on(buffers: usize, items: u32) -> bool {
    let chain: Vec<Buffer> = (0..buffers).map(|_| Buffer::new()).collect();
    thread::scope(|scope| {
        let (first, last) = (&chain[0], &chain[buffers - 1]);
        scope.spawn(move || {
            for number in 0..items {
                if !first.put(number) {
                    break;
                }
            }
        });
        for pair in chain.windows(2) {
            let (from, into) = (&pair[0], &pair[1]);
            scope.spawn(move || {
                for _ in 0..items {
                    match from.take() {
                        Some(number) if into.put(number) => {}
                        _ => break,
                    }
                }
                from.stop();
            });
        }
        let in_order = (0..items).all(|number| last.take() == Some(number));
        last.stop();
        in_order
    })
}

fn main() {
    let words: Vec<u32> = std::env::args().skip(1).map(|word| word.parse().unwrap()).collect();
    let (entries, items, chained) = (words[0], words[1], words[2]);

    let monitor = black_box(Monitor::new());
    let start = Instant::now();
    for _ in 0..entries {
        monitor.change(1);
        monitor.change(2);
    }
    eprintln!("entries {} ns", start.elapsed().as_nanos());
    for (name, buffers, items) in [("buffer", 1, items), ("chain", 4, chained)] {
        let start = Instant::now();
        assert!(hand_on(buffers, items));
        eprintln!("{name} {} ns", start.elapsed().as_nanos());
    }
}
