//! What the reports of a deck of `#LIST` groups are, in plain Rust, line by line. Here `#LIST name` and `#END` alone are control
//! cards, and every other card that begins with `#` is a bad one.
use std::io::{self, Write};

const COLUMNS: usize = 80;

/// What the deck is in: nothing, or a list with its name and how far it is.
pub enum Place {
    Outside { skipped: u32 },
    InList { name: String, cards: u32, faulty: bool },
}

enum Control {
    List(String),
    End,
    Bad,
}

impl Place {
    pub fn start() -> Place {
        Place::Outside { skipped: 0 }
    }
}

/// The card in a line, or none where the line is spoiled.
fn card_of(line: &[u8]) -> Option<&[u8]> {
    let line = line.strip_suffix(b"\n").unwrap_or(line);
    let line = line.strip_suffix(b"\r").unwrap_or(line);
    let prints = line.iter().all(|byte| (32..=126).contains(byte));
    (line.len() <= COLUMNS && prints).then(|| line.trim_ascii_end())
}

fn is_name(word: &str) -> bool {
    word.len() <= 12
        && word.starts_with(|letter: char| letter.is_ascii_alphabetic())
        && word.bytes().all(|byte| byte.is_ascii_alphanumeric())
}

fn control_of(card: &[u8]) -> Option<Control> {
    let words = std::str::from_utf8(card.strip_prefix(b"#")?).expect("a card is ASCII");
    let words: Vec<String> = words.split(' ').map(str::to_ascii_uppercase).collect();
    let begins = !words[0].is_empty();
    let words: Vec<&str> = words.iter().map(String::as_str).filter(|word| !word.is_empty()).collect();
    Some(match words.as_slice() {
        ["LIST", name] if begins && is_name(name) => Control::List(name.to_string()),
        ["END"] if begins => Control::End,
        _ => Control::Bad,
    })
}

/// Ends what the deck is in.
pub fn close(place: Place, paper: &mut impl Write) -> io::Result<()> {
    match place {
        Place::Outside { skipped: 0 } | Place::InList { faulty: true, .. } => Ok(()),
        Place::Outside { skipped } => writeln!(paper, "{skipped} CARDS SKIPPED"),
        Place::InList { name, cards, .. } => writeln!(paper, "{name}: LISTED {cards} CARDS"),
    }
}

/// Goes on with the next line of the deck.
pub fn step(place: Place, line: &[u8], paper: &mut impl Write) -> io::Result<Place> {
    let card = card_of(line);
    match (place, card.and_then(control_of)) {
        (place, Some(Control::List(name))) => {
            close(place, paper)?;
            writeln!(paper, "JOB {name}")?;
            Ok(Place::InList { name, cards: 0, faulty: false })
        }
        (place @ Place::InList { .. }, Some(Control::End)) => {
            close(place, paper)?;
            Ok(Place::Outside { skipped: 0 })
        }
        (Place::Outside { skipped }, _) => Ok(Place::Outside { skipped: skipped + u32::from(card != Some(b"")) }),
        (place @ Place::InList { faulty: true, .. }, _) => Ok(place),
        (Place::InList { name, cards, .. }, control) => {
            let number = cards + 1;
            let faulty = card.is_none() || control.is_some();
            match card {
                None => writeln!(paper, "{name}: SPOILED CARD {number}")?,
                Some(_) if faulty => writeln!(paper, "{name}: BAD CONTROL CARD {number}")?,
                Some(card) => {
                    paper.write_all(card)?;
                    paper.write_all(b"\n")?;
                }
            }
            Ok(Place::InList { name, cards: number, faulty })
        }
    }
}
