//! `cases --write` works out every table's answers anew by the reading and stores them beside the tables.

use cases::tables::{TABLES, answers, file, read};
use reading::READING;
use std::process::ExitCode;

fn main() -> ExitCode {
    if std::env::args().skip(1).collect::<Vec<_>>() != ["--write"] {
        eprintln!("usage: cases --write");
        return ExitCode::FAILURE;
    }
    for name in TABLES {
        let path = file(name, "answers");
        if let Err(error) = std::fs::write(&path, answers(&read(name), READING)) {
            eprintln!("{}: {error}", path.display());
            return ExitCode::FAILURE;
        }
    }
    ExitCode::SUCCESS
}
