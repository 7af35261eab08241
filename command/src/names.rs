//! The names of a book: a folder's in the order of their bytes, or a list's in the order of the list; and the parts of a list.

use crate::failure::Failure;
use crate::input::STANDARD;
use std::ffi::OsString;
use std::fs::{self, File};
use std::io::{self, BufRead, BufReader, IsTerminal, Read};
use std::ops::Range;
use std::os::unix::ffi::{OsStrExt, OsStringExt};
use std::path::{Path, PathBuf};
use std::str::FromStr;

/// No name of a file is longer.
const LONGEST_NAME: usize = 4096;

const MARK: &[u8] = "\u{feff}".as_bytes();

/// A part of a list, counted from 1.
#[derive(Clone, Copy)]
pub struct Part {
    part: usize,
    parts: usize,
}

impl FromStr for Part {
    type Err = &'static str;

    fn from_str(word: &str) -> Result<Part, &'static str> {
        let numbers = word.split_once('/').and_then(|(part, parts)| Some((part.parse().ok()?, parts.parse().ok()?)));
        match numbers {
            Some((part, parts)) if 1 <= part && part <= parts => Ok(Part { part, parts }),
            _ => Err("a part is I/N with I from 1 to N, as 1/4"),
        }
    }
}

impl std::fmt::Display for Part {
    fn fmt(&self, to: &mut std::fmt::Formatter) -> std::fmt::Result {
        write!(to, "part {}/{}", self.part, self.parts)
    }
}

impl Part {
    pub const WHOLE: Part = Part { part: 1, parts: 1 };

    pub fn is_first(self) -> bool {
        self.part == 1
    }

    pub fn is_whole(self) -> bool {
        self.parts == 1
    }

    /// Which of so many names are this part's. Each part begins where the one before ends, and none is longer than another by
    /// more than one.
    pub fn of(self, names: usize) -> Range<usize> {
        let end = |part: usize| (part as u128 * names as u128 / self.parts as u128) as usize;
        end(self.part - 1)..end(self.part)
    }
}

/// The names of a book; a book without names must be asked for. A folder has no parts, since it may change between two
/// processes that read it.
pub fn names(book: &Path, part: Option<Part>, empty: bool) -> Result<Vec<PathBuf>, Failure> {
    let standard = book == Path::new(STANDARD);
    let name = if standard { "standard input".to_string() } else { book.display().to_string() };
    let told = |fault: io::Error| Failure::not_read(format!("{name}: {fault}"));
    let names = if standard {
        if io::stdin().is_terminal() {
            return Err(Failure::called_wrongly("no folder or list is named".to_string()));
        }
        list(&name, io::stdin().lock())?
    } else if !book.is_dir() {
        list(&name, BufReader::new(File::open(book).map_err(told)?))?
    } else if part.is_none() {
        folder(book).map_err(told)?
    } else {
        let why = "a folder has no parts, since it may change between them; --names prints its names as a list, which has";
        return Err(Failure::called_wrongly(format!("{name}: {why}")));
    };
    if names.is_empty() && !empty {
        return Err(Failure::not_read(format!("{name}: no names; --empty says that an empty book is meant")));
    }
    Ok(names)
}

/// Everything that stands in a folder.
fn folder(folder: &Path) -> io::Result<Vec<PathBuf>> {
    let entries: io::Result<Vec<PathBuf>> = fs::read_dir(folder)?.map(|entry| Ok(entry?.path())).collect();
    let mut names = entries?;
    names.sort_unstable_by(|one, other| one.as_os_str().cmp(other.as_os_str()));
    Ok(names)
}

/// The lines of a list, which may end with CR LF, each a name.
fn list(name: &str, mut from: impl BufRead) -> Result<Vec<PathBuf>, Failure> {
    let mut names = vec![];
    loop {
        let mut line = vec![];
        let read = from.by_ref().take(LONGEST_NAME as u64 + 2).read_until(b'\n', &mut line);
        let read = read.map_err(|fault| Failure::not_read(format!("{name}: {fault}")))?;
        if read == 0 {
            return Ok(names);
        }
        let mut line = line.strip_suffix(b"\n").unwrap_or(&line);
        line = line.strip_suffix(b"\r").unwrap_or(line);
        if names.is_empty() {
            line = line.strip_prefix(MARK).unwrap_or(line);
        }
        if let Some(why) = no_name(line) {
            let advice = "a list has one name a line, as text in UTF-8; felgotany margin takes an account";
            return Err(Failure::not_read(format!("{name}: no list: line {} {why}\n  {advice}", names.len() + 1)));
        }
        names.push(PathBuf::from(OsString::from_vec(line.to_vec())));
    }
}

/// Why a line can be no name.
fn no_name(line: &[u8]) -> Option<&'static str> {
    if line.len() > LONGEST_NAME {
        return Some("is longer than 4,096 bytes");
    }
    line.iter().any(|byte| *byte < b' ' && *byte != b'\t').then_some("has a control mark")
}

/// The names as a list; told where one cannot stand in it.
pub fn as_list(names: &[PathBuf]) -> Result<Vec<u8>, Failure> {
    let mut list = vec![];
    for name in names {
        let bytes = name.as_os_str().as_bytes();
        if let Some(why) = no_name(bytes) {
            return Err(Failure::not_read(format!("{}: the name {why} and can stand in no list", on_one_line(name))));
        }
        list.extend_from_slice(bytes);
        list.push(b'\n');
    }
    Ok(list)
}

/// A name as it is printed: on one line, whatever marks it has.
pub fn on_one_line(name: &Path) -> String {
    let name = name.display().to_string();
    let mark = |mark: char| if mark.is_control() { mark.escape_default().to_string() } else { mark.to_string() };
    name.chars().map(mark).collect()
}

#[cfg(test)]
mod tests {
    use super::*;

    #[test]
    fn parts_follow_each_other_to_the_end() {
        for names in [0, 1, 2, 7, 100, usize::MAX] {
            for parts in [1, 2, 3, 7, 101] {
                let mut end = 0;
                for part in 1..=parts {
                    let stretch = Part { part, parts }.of(names);
                    assert_eq!(stretch.start, end);
                    assert!(stretch.len().abs_diff(names / parts) <= 1);
                    end = stretch.end;
                }
                assert_eq!(end, names);
            }
        }
    }

    #[test]
    fn what_is_no_part_is_told() {
        for word in ["", "1", "0/1", "2/1", "1/0", "/", "1/", "/2", "a/b", "-1/2", "1/2/3", "1 /2"] {
            assert!(word.parse::<Part>().is_err(), "{word}");
        }
        assert_eq!("2/3".parse::<Part>().map(|part| part.of(10)).unwrap_or_default(), 3..6);
    }

    #[test]
    fn a_list_has_a_name_a_line() {
        let read =
            |text: &[u8]| list("list", text).map(|names| as_list(&names).unwrap_or_default()).map_err(|failure| failure.told);
        assert_eq!(read(b""), Ok(vec![]));
        assert_eq!(read(b"a\nb c\r\n\n\xef\xbb\xbfd"), Ok(b"a\nb c\n\n\xef\xbb\xbfd\n".to_vec()));
        assert_eq!(read(b"\xef\xbb\xbfa"), Ok(b"a\n".to_vec()));
        assert!(read(b"a\n\x01b\n").is_err_and(|told| told.contains("line 2 has a control mark")));
        assert!(read(&[b'a'; LONGEST_NAME]).is_ok());
        assert!(read(&[b'a'; LONGEST_NAME + 1]).is_err_and(|told| told.contains("longer")));
    }
}
