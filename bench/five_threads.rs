//! Lists a deck of `#LIST` groups as the program `solo batch` does, on five threads with std's Mutex and Condvar: one hands on
//! the cards, one packs them into pages, one makes the reports' lines of them, one unpacks these, and one prints. A card or a line
//! passes through a queue of one place, and a page of 512 bytes through one of 256.
mod jobs;

use std::collections::VecDeque;
use std::io::{self, BufRead, BufReader, BufWriter, Read, Write};
use std::mem;
use std::sync::{Condvar, Mutex};
use std::thread;

const PAGE: usize = 512;
const PAGES: usize = 256;

/// A queue of bounded length. A text of no bytes ends the stream.
struct Queue {
    places: usize,
    texts: Mutex<VecDeque<Vec<u8>>>,
    room: Condvar,
    text: Condvar,
}

impl Queue {
    fn of(places: usize) -> Queue {
        Queue {
            places,
            texts: Mutex::new(VecDeque::with_capacity(places)),
            room: Condvar::new(),
            text: Condvar::new(),
        }
    }

    fn put(&self, text: Vec<u8>) {
        let mut texts = self.texts.lock().unwrap();
        while texts.len() == self.places {
            texts = self.room.wait(texts).unwrap();
        }
        texts.push_back(text);
        self.text.notify_one();
    }

    fn take(&self) -> Vec<u8> {
        let mut texts = self.texts.lock().unwrap();
        loop {
            if let Some(text) = texts.pop_front() {
                self.room.notify_one();
                return text;
            }
            texts = self.text.wait(texts).unwrap();
        }
    }
}

/// Packs lines into pages, and puts each page once the next line has no room in it.
struct Packer<'a> {
    page: Vec<u8>,
    pages: &'a Queue,
}

impl Packer<'_> {
    fn of(pages: &Queue) -> Packer<'_> {
        Packer { page: Vec::with_capacity(PAGE), pages }
    }

    fn push(&mut self, line: &[u8]) {
        if self.page.len() + line.len() > PAGE {
            self.pages.put(mem::replace(&mut self.page, Vec::with_capacity(PAGE)));
        }
        self.page.extend_from_slice(line);
    }

    fn finish(self) {
        if !self.page.is_empty() {
            self.pages.put(self.page);
        }
        self.pages.put(Vec::new());
    }
}

fn read_cards(cards: &Queue) -> io::Result<()> {
    let mut deck = BufReader::new(io::stdin().lock().take(16_777_216));
    let mut line = Vec::new();
    while deck.read_until(b'\n', &mut line)? > 0 {
        cards.put(mem::take(&mut line));
    }
    cards.put(line);
    Ok(())
}

fn pack(cards: &Queue, pages: &Queue) {
    let mut packer = Packer::of(pages);
    loop {
        let card = cards.take();
        if card.is_empty() {
            return packer.finish();
        }
        packer.push(&card);
    }
}

fn run_jobs(pages: &Queue, reports: &Queue) -> io::Result<()> {
    let mut packer = Packer::of(reports);
    let mut place = jobs::Place::start();
    let mut lines = Vec::new();
    loop {
        let page = pages.take();
        if page.is_empty() {
            break;
        }
        for card in page.split_inclusive(|&byte| byte == b'\n') {
            place = jobs::step(place, card, &mut lines)?;
            lines.split_inclusive(|&byte| byte == b'\n').for_each(|line| packer.push(line));
            lines.clear();
        }
    }
    jobs::close(place, &mut lines)?;
    lines.split_inclusive(|&byte| byte == b'\n').for_each(|line| packer.push(line));
    packer.finish();
    Ok(())
}

fn unpack(reports: &Queue, lines: &Queue) {
    loop {
        let page = reports.take();
        page.split_inclusive(|&byte| byte == b'\n').for_each(|line| lines.put(line.to_vec()));
        if page.is_empty() {
            return lines.put(page);
        }
    }
}

fn print(lines: &Queue) -> io::Result<()> {
    let mut paper = BufWriter::new(io::stdout().lock());
    loop {
        let line = lines.take();
        if line.is_empty() {
            return paper.flush();
        }
        paper.write_all(&line)?;
    }
}

fn main() -> io::Result<()> {
    let (cards, lines) = (Queue::of(1), Queue::of(1));
    let (input, output) = (Queue::of(PAGES), Queue::of(PAGES));
    thread::scope(|threads| {
        let reader = threads.spawn(|| read_cards(&cards));
        threads.spawn(|| pack(&cards, &input));
        let jobs = threads.spawn(|| run_jobs(&input, &output));
        threads.spawn(|| unpack(&output, &lines));
        print(&lines)?;
        reader.join().unwrap()?;
        jobs.join().unwrap()
    })
}
