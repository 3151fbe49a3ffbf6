//! Writes a recording of calls and what the Rust answers to them.
//!
//!     cargo run --release --offline --bin record -- DIR

use std::path::Path;
use std::process::ExitCode;
use std::{fs, io};

use runs::sample::sample;

fn main() -> ExitCode {
    let Some(folder) = std::env::args_os().nth(1) else {
        eprintln!("usage: record DIR");
        return ExitCode::from(2);
    };
    match written(Path::new(&folder)) {
        Ok(said) => {
            println!("{said}");
            ExitCode::SUCCESS
        }
        Err(why) => {
            eprintln!("{}: {why}", Path::new(&folder).display());
            ExitCode::FAILURE
        }
    }
}

fn written(folder: &Path) -> io::Result<String> {
    let sample = sample();
    fs::create_dir_all(folder)?;
    fs::write(folder.join("stdin"), &sample.records)?;
    fs::write(folder.join("stdout"), &sample.text)?;
    let points = sample.text.lines().filter(|line| line.starts_with("p ")).count();
    Ok(format!("{} calls, {} bytes, {points} points at the end", sample.calls.len(), sample.records.len()))
}
