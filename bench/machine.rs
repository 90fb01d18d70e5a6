//! Runs the loop of `solo_bench machine` in a plain interpreter: an enum of instructions, a vector of words and one of
//! operands. It tests what the stack machine's table tests: the stack's height, the words' places, the range of results
//! and the limit of ticks.
use std::time::Instant;

#[derive(Clone, Copy)]
enum Instr {
    Push(i16),
    Load(usize),
    Store(usize),
    Add,
    Mod,
    Ge,
    Succ,
    JumpF(usize),
    Tick(u32),
    WriteInt,
    Halt,
}
use Instr::*;

#[derive(Debug, Clone, Copy)]
enum End {
    Terminated,
    Overflow,
    TimeLimit,
}

/// WORD 2 := (WORD 2 + 7) MOD 1001, 999,000 times in two loops, and then WRITEINT(WORD 2).
const LOOP: [Instr; 27] = [
    Tick(1), Push(0), Store(1),
    Tick(2), Load(2), Push(7), Add, Push(1001), Mod, Store(2),
    Load(1), Succ, Store(1), Load(1), Push(999), Ge, JumpF(3),
    Load(0), Succ, Store(0), Load(0), Push(1000), Ge, JumpF(0),
    Load(2), WriteInt, Halt,
];

struct Machine {
    code: Vec<Instr>,
    words: Vec<i16>,
    operands: Vec<i16>,
    place: usize,
    line: u32,
    ticks: u32,
    limit: u32,
    written: Vec<i16>,
}

impl Machine {
    fn new(code: &[Instr], words: usize, height: usize, limit: u32) -> Machine {
        Machine {
            code: code.to_vec(),
            words: vec![0; words],
            operands: Vec::with_capacity(height),
            place: 0,
            line: 0,
            ticks: 0,
            limit,
            written: Vec::new(),
        }
    }

    fn pop(&mut self) -> i16 {
        self.operands.pop().expect("an operand")
    }

    /// One instruction; an end, if it ends the program.
    fn step(&mut self) -> Option<End> {
        let instr = self.code[self.place];
        self.place += 1;
        match instr {
            Push(word) => self.operands.push(word),
            Load(place) => self.operands.push(self.words[place]),
            Store(place) => self.words[place] = self.pop(),
            Add => {
                let (right, left) = (self.pop(), self.pop());
                let Some(sum) = left.checked_add(right) else { return Some(End::Overflow) };
                self.operands.push(sum);
            }
            Mod => {
                let (right, left) = (self.pop(), self.pop());
                if right == 0 {
                    return Some(End::Overflow);
                }
                self.operands.push(left.wrapping_rem(right));
            }
            Ge => {
                let (right, left) = (self.pop(), self.pop());
                self.operands.push(i16::from(left >= right));
            }
            Succ => {
                let Some(next) = self.pop().checked_add(1) else { return Some(End::Overflow) };
                self.operands.push(next);
            }
            JumpF(target) => {
                if self.pop() == 0 {
                    self.place = target;
                }
            }
            Tick(line) => {
                self.line = line;
                if self.ticks >= self.limit {
                    return Some(End::TimeLimit);
                }
                self.ticks += 1;
            }
            WriteInt => {
                let number = self.pop();
                self.written.push(number);
            }
            Halt => return Some(End::Terminated),
        }
        None
    }

    fn run(&mut self) -> End {
        loop {
            if let Some(end) = self.step() {
                return end;
            }
        }
    }
}

fn main() {
    let mut machine = Machine::new(std::hint::black_box(&LOOP), 3, 2, 2_000_000);
    let began = Instant::now();
    let end = machine.run();
    let time = began.elapsed().as_micros();
    println!("{}, {} ticks", machine.written[0], machine.ticks);
    eprintln!("{time} microseconds");
    if !matches!(end, End::Terminated) {
        eprintln!("{end:?} in line {}", machine.line);
        std::process::exit(1);
    }
}
