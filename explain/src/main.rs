//! The command: `explain SOURCE ANSWER`, over the files of a description and of resolve's answer to it.

use std::io::{self, ErrorKind, Write};
use std::path::PathBuf;
use std::process::ExitCode;

fn main() -> ExitCode {
    let words: Vec<PathBuf> = std::env::args_os().skip(1).map(PathBuf::from).collect();
    match command(&words) {
        Ok(()) => ExitCode::SUCCESS,
        Err(fault) => {
            eprintln!("explain: {fault}");
            ExitCode::from(2)
        }
    }
}

fn command(words: &[PathBuf]) -> Result<(), String> {
    let [source, answer] = words else {
        return Err("usage: explain SOURCE ANSWER".to_string());
    };
    let text = explain::explain(&read(source)?, &read(answer)?)?;
    write(text.as_bytes()).map_err(|error| format!("cannot write: {error}"))
}

fn read(path: &PathBuf) -> Result<Vec<u8>, String> {
    std::fs::read(path).map_err(|error| format!("cannot read {}: {error}", path.display()))
}

/// Who stops reading has seen enough.
fn write(text: &[u8]) -> io::Result<()> {
    let mut out = io::stdout().lock();
    match out.write_all(text).and_then(|()| out.flush()) {
        Err(error) if error.kind() == ErrorKind::BrokenPipe => Ok(()),
        done => done,
    }
}
