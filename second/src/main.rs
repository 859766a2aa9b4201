//! Says from document 01's definitions, by search, what the library and its
//! printing program must answer, and makes random books to ask them about.

mod book;
mod books;
mod calls;
mod classes;
mod damage;
mod draw;
mod facts;
mod fields;
mod hidden;
mod hierarchy;
mod lines;
mod marks;
mod print;
mod refusal;
mod sweep;

#[cfg(test)]
mod tests;

use std::ffi::OsString;
use std::fs;
use std::io::{self, BufWriter, Read, Write};
use std::path::{Path, PathBuf};
use std::process::ExitCode;

const USAGE: &str = "\
usage: second print < BOOK
       second sweep < SEED-ROUNDS-CLASSES
       second book SEED
       second books SEED COUNT DIR
       second prints DIR
";

fn main() -> ExitCode {
    let words: Vec<OsString> = std::env::args_os().skip(1).collect();
    match run(&words) {
        Ok(true) => ExitCode::SUCCESS,
        Ok(false) => {
            say(USAGE);
            ExitCode::from(2)
        }
        Err(error) => {
            say(&format!("second: {error}\n"));
            ExitCode::FAILURE
        }
    }
}

/// On standard error; where even that is closed nothing can be said.
fn say(text: &str) {
    let _ = io::stderr().write_all(text.as_bytes());
}

/// Runs one command; gives false when there is no such command.
fn run(words: &[OsString]) -> io::Result<bool> {
    let texts: Vec<&str> = words
        .iter()
        .map(|word| word.to_str().unwrap_or(""))
        .collect();
    let numbers: Vec<Option<u64>> = texts.iter().map(|text| text.parse().ok()).collect();
    match (texts.as_slice(), numbers.as_slice()) {
        (["print"], _) => print_input()?,
        (["sweep"], _) => sweep_input()?,
        (["book", _], &[_, Some(seed)]) => io::stdout().write_all(&books::book(seed))?,
        (["books", ..], &[_, Some(seed), Some(count), _]) => {
            write_books(seed, count, Path::new(&words[3]))?;
        }
        (["prints", _], _) => print_books(Path::new(&words[1]))?,
        _ => return Ok(false),
    }
    io::stdout().flush()?;
    Ok(true)
}

/// One byte more than the longest input tells that an input is too long.
fn print_input() -> io::Result<()> {
    let mut input = Vec::new();
    let enough = print::MOST_INPUT as u64 + 1;
    io::stdin().lock().take(enough).read_to_end(&mut input)?;
    io::stdout().write_all(print::printed(&input).as_bytes())
}

fn sweep_input() -> io::Result<()> {
    let mut input = Vec::new();
    io::stdin().lock().read_to_end(&mut input)?;
    let [seed, rounds, third] = sweep::input_numbers(&input);
    let most = sweep::most_classes(third);
    let mut sweep = sweep::Sweep::new(seed, most, BufWriter::new(io::stdout().lock()));
    for _ in 0..rounds {
        sweep.round()?;
    }
    sweep.flush()
}

/// DIR/0000.book and so on, of seeds from `seed` on.
fn write_books(seed: u64, count: u64, dir: &Path) -> io::Result<()> {
    fs::create_dir_all(dir)?;
    for index in 0..count {
        let book = books::book(seed.wrapping_add(index));
        fs::write(dir.join(format!("{index:04}.book")), book)?;
    }
    Ok(())
}

/// Beside each DIR/NAME.book, DIR/NAME.second with what is printed for it.
fn print_books(dir: &Path) -> io::Result<()> {
    let entries: io::Result<Vec<fs::DirEntry>> = fs::read_dir(dir)?.collect();
    let mut paths: Vec<PathBuf> = entries?.iter().map(fs::DirEntry::path).collect();
    paths.retain(|path| path.extension().is_some_and(|ending| ending == "book"));
    paths.sort();
    for path in paths {
        let printed = print::printed(&fs::read(&path)?);
        fs::write(path.with_extension("second"), printed)?;
    }
    Ok(())
}
