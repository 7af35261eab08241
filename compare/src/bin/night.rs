//! night SEED COUNT FIRST FOLDER: writes COUNT generated accounts, from index FIRST on, as files of a folder, and prints the line
//! that `felgotany night --lines --empty` must print of each, by the independent program.

use independent::generate;
use independent::run::answer;
use std::fmt::Write;
use std::path::Path;
use std::process::ExitCode;

fn main() -> ExitCode {
    let words: Vec<String> = std::env::args().skip(1).collect();
    let numbers: Vec<u64> = words.iter().take(3).filter_map(|word| word.parse().ok()).collect();
    let ([seed, count, first], Some(folder), 4) = (&numbers[..], words.get(3), words.len()) else {
        eprintln!("usage: night SEED COUNT FIRST FOLDER");
        return ExitCode::from(2);
    };
    let mut lines = String::new();
    for index in *first..first + count {
        let name = format!("{folder}/{index:09}.account");
        let file = generate::account(*seed, index);
        if let Err(fault) = std::fs::write(Path::new(&name), &file) {
            eprintln!("{name}: {fault}");
            return ExitCode::FAILURE;
        }
        _ = writeln!(lines, "{} {name}", line(&file));
    }
    print!("{lines}");
    ExitCode::SUCCESS
}

fn line(file: &[u8]) -> String {
    match answer(file) {
        Err(_) if taken_for_text(file) => "U".to_string(),
        Err(refusal) => refusal.to_string(),
        Ok(figures) => format!("T {}", figures.last().expect("the total is written")),
    }
}

/// What the command takes for a text or for a saved spreadsheet and not for an account file, none of which is accepted: bytes
/// without control marks, and those that UTF-16 or a spreadsheet begins with.
fn taken_for_text(file: &[u8]) -> bool {
    let mark = |byte: &u8| *byte < b' ' && !b"\t\n\r".contains(byte);
    !file.iter().any(mark)
        || file.starts_with(&[0xff, 0xfe])
        || file.starts_with(&[0xfe, 0xff])
        || file.starts_with(b"PK\x03\x04")
}
