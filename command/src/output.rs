//! What is written, to standard output or to a file, and told where it cannot be.

use crate::failure::Failure;
use std::ffi::OsString;
use std::fs::{self, File, OpenOptions};
use std::io::{self, Write};
use std::path::{Path, PathBuf};

pub fn to_standard(text: impl AsRef<[u8]>) -> Result<(), Failure> {
    let mut out = io::stdout();
    let written = out.write_all(text.as_ref()).and_then(|()| out.flush());
    written.map_err(|fault| Failure::not_read(format!("standard output: {fault}")))
}

/// Says something on standard error, where that is still open.
pub fn tell(message: &str) {
    _ = io::stderr().write_all(message.as_bytes());
}

/// Writes a file whole or not at all: under another name first, which then takes the place of what was there. What is there
/// and is no file, a device or a pipe, is written to as it stands.
pub fn to_file(path: &Path, bytes: &[u8]) -> Result<(), Failure> {
    let device = fs::metadata(path).is_ok_and(|there| !there.is_file());
    let written = if device { to_device(path, bytes) } else { to_new_file(path, bytes) };
    written.map_err(|fault| Failure::not_read(format!("{}: {fault}", path.display())))
}

fn to_device(path: &Path, bytes: &[u8]) -> io::Result<()> {
    OpenOptions::new().write(true).open(path)?.write_all(bytes)
}

fn to_new_file(path: &Path, bytes: &[u8]) -> io::Result<()> {
    let partial = partial_name(path)?;
    let mut file = OpenOptions::new().write(true).create_new(true).open(&partial)?;
    let written = fill(&mut file, bytes).and_then(|()| fs::rename(&partial, path));
    if written.is_err() {
        _ = fs::remove_file(&partial);
    }
    written
}

fn fill(file: &mut File, bytes: &[u8]) -> io::Result<()> {
    file.write_all(bytes)?;
    file.sync_all()
}

/// A name in the same folder, for as long as the file is not whole.
fn partial_name(path: &Path) -> io::Result<PathBuf> {
    let name = path.file_name().ok_or(io::Error::new(io::ErrorKind::InvalidInput, "no name of a file"))?;
    let mut partial = OsString::from(".");
    partial.push(name);
    partial.push(format!(".{}.partial", std::process::id()));
    Ok(path.with_file_name(partial))
}
