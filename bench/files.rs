//! Keeps the files of `solo_bench files` in a directory, one file each, with the same appends and look-ups, and prints the same counts
//! of calls.
use std::fs::{File, OpenOptions, create_dir, metadata, read_dir};
use std::io::{Result, Write};
use std::path::{Path, PathBuf};
use std::time::Instant;

const NAMES: u16 = 240;
const APPENDS: u16 = 3790;
const LOOKUPS: u16 = 100;

fn path(room: &Path, number: u16) -> PathBuf {
    room.join(format!("F{number:03}"))
}

fn main() -> Result<()> {
    let room = PathBuf::from(std::env::args().nth(1).expect("usage: files DIRECTORY")).join("files");
    create_dir(&room)?;
    for number in 0..NAMES {
        File::create(path(&room, number))?;
    }
    let began = Instant::now();
    for number in 0..APPENDS {
        let mut file = OpenOptions::new().append(true).open(path(&room, number % NAMES))?;
        file.write_all(&[(number % 251) as u8; 512])?;
    }
    eprintln!("{} microseconds for {APPENDS} appends", began.elapsed().as_micros());
    let began = Instant::now();
    let mut pages = 0;
    for entry in read_dir(&room)? {
        pages += entry?.metadata()?.len() / 512;
    }
    eprintln!("{} microseconds for a listing", began.elapsed().as_micros());
    assert_eq!(pages, u64::from(APPENDS));
    let began = Instant::now();
    for _ in 0..LOOKUPS {
        for number in 0..NAMES {
            assert!(metadata(path(&room, number))?.len() >= 15 * 512);
        }
    }
    eprintln!("{} microseconds for {} look-ups", began.elapsed().as_micros(), NAMES * LOOKUPS);
    Ok(())
}
