//! The stored files of the repository: how each is made, writing them, and
//! comparing them with what is made now.

use crate::bench::{bench, cuts};
use crate::draw::draw;
use std::fs;
use std::io;
use std::path::Path;

enum Making {
    /// By `draw`, from this file.
    Draw(&'static str),
    Bench,
    Cuts,
}

struct Stored {
    file: &'static str,
    making: Making,
}

const STORED: [Stored; 3] = [
    Stored { file: "crates/draw/stdout", making: Making::Draw("crates/draw/stdin") },
    Stored { file: "crates/bench/stdout", making: Making::Bench },
    Stored { file: "crates/cuts/stdout", making: Making::Cuts },
];

impl Stored {
    fn made(&self, root: &Path) -> io::Result<String> {
        match self.making {
            Making::Draw(input) => Ok(draw(&named(input, fs::read(root.join(input)))?)),
            Making::Bench => Ok(bench()),
            Making::Cuts => Ok(cuts()),
        }
    }

    /// What differs, if anything does.
    fn difference(&self, root: &Path) -> Option<String> {
        let made = match self.made(root) {
            Ok(made) => made,
            Err(error) => return Some(format!("cannot be made: {error}")),
        };
        match fs::read(root.join(self.file)) {
            Ok(stored) => first_difference(&stored, made.as_bytes()),
            Err(error) => Some(format!("missing: {error}")),
        }
    }
}

/// An error with the file's name before it.
fn named<T>(file: &str, result: io::Result<T>) -> io::Result<T> {
    result.map_err(|error| io::Error::new(error.kind(), format!("{file}: {error}")))
}

fn first_difference(stored: &[u8], made: &[u8]) -> Option<String> {
    if stored == made {
        return None;
    }
    let mut stored_lines = stored.split(|&byte| byte == b'\n');
    let mut made_lines = made.split(|&byte| byte == b'\n');
    let mut number = 0;
    loop {
        number += 1;
        let (old, new) = (stored_lines.next(), made_lines.next());
        if old != new {
            return Some(format!("line {number} is {}, made is {}", shown(old), shown(new)));
        }
    }
}

fn shown(line: Option<&[u8]>) -> String {
    match line {
        Some(bytes) => format!("\"{}\"", String::from_utf8_lossy(bytes)),
        None => "missing".to_string(),
    }
}

pub fn write(root: &Path) -> io::Result<()> {
    for stored in &STORED {
        named(stored.file, fs::write(root.join(stored.file), stored.made(root)?))?;
        println!("{} written", stored.file);
    }
    Ok(())
}

/// Whether every stored file is as it is made now.
pub fn compare(root: &Path) -> bool {
    let mut all_same = true;
    for stored in &STORED {
        match stored.difference(root) {
            None => println!("{} same", stored.file),
            Some(difference) => {
                all_same = false;
                println!("{} {difference}", stored.file);
            }
        }
    }
    all_same
}
