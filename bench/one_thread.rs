//! Lists a deck of `#LIST` groups as the program `solo batch` does: a plain program on one thread, with std's
//! buffered reader and writer. It prints each card as it comes.
mod jobs;

use std::io::{self, BufRead, BufReader, BufWriter, Read, Write};

fn main() -> io::Result<()> {
    let mut deck = BufReader::new(io::stdin().lock().take(16_777_216));
    let mut paper = BufWriter::new(io::stdout().lock());
    let mut place = jobs::Place::start();
    let mut line = Vec::new();
    while deck.read_until(b'\n', &mut line)? > 0 {
        place = jobs::step(place, &line, &mut paper)?;
        line.clear();
    }
    jobs::close(place, &mut paper)?;
    paper.flush()
}
