//! An independent program for the solid, its disk and its journal, written from
//! the written rules alone, simple rather than fast. What it writes is the
//! expected output of the programs that are proved.

mod bench;
mod disk;
mod draw;
mod edit;
mod fault;
mod journal;
mod ledger;
mod listing;
mod operators;
mod rules;
mod script;
mod session;
mod solid;
mod stored;
#[cfg(test)]
mod tests;
mod text;
mod witness;

use std::io::{self, Read, Write};
use std::path::Path;
use std::process::ExitCode;

const USAGE: &str = "independent draw|script <INPUT, independent bench|cuts, independent write|compare ROOT";

fn main() -> ExitCode {
    let arguments: Vec<String> = std::env::args().skip(1).collect();
    let words: Vec<&str> = arguments.iter().map(String::as_str).collect();
    let done = match words[..] {
        ["draw"] => input().and_then(|input| output(&draw::draw(&input))),
        ["script"] => input().and_then(|input| output(&script::script(&input))),
        ["bench"] => output(&bench::bench()),
        ["cuts"] => output(&bench::cuts()),
        ["write", root] => stored::write(Path::new(root)),
        ["compare", root] => return same_or_not(stored::compare(Path::new(root))),
        _ => Err(io::Error::other(USAGE)),
    };
    match done {
        Ok(()) => ExitCode::SUCCESS,
        Err(error) => {
            eprintln!("independent: {error}");
            ExitCode::from(2)
        }
    }
}

fn same_or_not(same: bool) -> ExitCode {
    if same {
        ExitCode::SUCCESS
    } else {
        ExitCode::FAILURE
    }
}

fn input() -> io::Result<Vec<u8>> {
    let mut bytes = vec![];
    io::stdin().read_to_end(&mut bytes)?;
    Ok(bytes)
}

fn output(text: &str) -> io::Result<()> {
    io::stdout().write_all(text.as_bytes())
}
