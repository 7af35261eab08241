//! A list of spreads as a spreadsheet has it, one step a row: ours printed, and one that others send judged.

use crate::account::{Book, Prompt};
use crate::failure::Failure;
use crate::input::{misread_lines, text_of};
use crate::numbers::lots;
use crate::report::books::{spread_in_words, DIRECTIONS};
use crate::table::csv;
use account_text::write::Misread;
use felgotany::{List, LESS_THAN_FORMED, MORE_THAN_FORMED, RIGHT, TABLE, WRONG_USE};
use std::path::Path;

/// The columns before those of the prompts.
const COLUMNS: [&str; 4] = ["step", "spread", "direction", "number"];

/// The two steps of a spread.
const STEPS: [&str; 2] = ["A long", "A short"];

/// The list of a delta book: for each step its number and what it used of each prompt.
pub fn of_book(book: &Book) -> String {
    let header: Vec<String> =
        COLUMNS.iter().map(ToString::to_string).chain(book.prompts.iter().map(|prompt| column(book, prompt))).collect();
    let steps = book.spreads.iter().flat_map(|spread| spread.steps.iter().map(move |step| (spread.place, step)));
    let rows = steps.enumerate().map(|(at, (spread, step))| {
        let of_step = [at.to_string(), spread.to_string(), STEPS[at % 2].to_string(), lots(step.formed)];
        of_step.into_iter().chain(step.taken.iter().map(|taken| lots(*taken))).collect::<Vec<_>>()
    });
    csv(&header.iter().map(String::as_str).collect::<Vec<_>>(), rows)
}

fn column(book: &Book, prompt: &Prompt) -> String {
    match book.question {
        TABLE => format!("contract {}", prompt.tier),
        _ => format!("prompt {} {}", prompt.place, prompt.day),
    }
}

/// A list that is sent, in ten-thousandths.
pub struct Sent {
    pub name: String,
    prompts: usize,
    numbers: Vec<i64>,
    uses: Vec<i64>,
}

impl Sent {
    pub fn load(path: &Path) -> Result<Sent, Failure> {
        let (name, text) = text_of(path)?;
        match Sent::of_text(&text) {
            Ok((prompts, numbers, uses)) => Ok(Sent { name, prompts, numbers, uses }),
            Err(misread) => Err(Failure::not_read(misread_lines(&name, &misread))),
        }
    }

    /// The header says how many prompts there are; each row after it is a step.
    fn of_text(text: &[u8]) -> Result<(usize, Vec<i64>, Vec<i64>), Vec<Misread>> {
        let text = text.strip_prefix(b"\xef\xbb\xbf").unwrap_or(text);
        let mut reader = csv::ReaderBuilder::new().has_headers(false).flexible(true).comment(Some(b'#')).from_reader(text);
        let mut rows = vec![];
        for row in reader.records() {
            match row {
                Ok(row) => {
                    let line = row.position().map_or(0, |position| position.line() as usize);
                    rows.push((line, row.iter().map(|cell| cell.trim().to_string()).collect::<Vec<String>>()));
                }
                Err(fault) => return Err(vec![misread(0, "the list", &fault.to_string(), "CSV in UTF-8".to_string())]),
            }
        }
        let rows: Vec<_> = rows.into_iter().filter(|(_, cells)| cells.iter().any(|cell| !cell.is_empty())).collect();
        let Some(((line, header), steps)) = rows.split_first() else {
            return Err(vec![misread(1, "header", "", format!("{}, and a column for each prompt", COLUMNS.join(", ")))]);
        };
        for (at, column) in COLUMNS.iter().enumerate() {
            let found = header.get(at).map_or("", String::as_str);
            if !found.eq_ignore_ascii_case(column) {
                return Err(vec![misread(
                    *line,
                    &format!("column {}", at + 1),
                    found,
                    format!("the header '{column}', after it a comma"),
                )]);
            }
        }
        let prompts = header.len() - COLUMNS.len();
        let (mut numbers, mut uses, mut faults) = (vec![], vec![], vec![]);
        for (at, (line, cells)) in steps.iter().enumerate() {
            faults.extend(unlike_step(at, *line, cells, header.len()));
            for (place, (column, cell)) in header.iter().zip(cells).enumerate().skip(COLUMNS.len() - 1) {
                match ten_thousandths(cell) {
                    Some(number) if place < COLUMNS.len() => numbers.push(number),
                    Some(number) => uses.push(number),
                    None => faults.push(misread(*line, column, cell, "a number of lots with at most four places".to_string())),
                }
            }
        }
        if faults.is_empty() {
            Ok((prompts, numbers, uses))
        } else {
            Err(faults)
        }
    }

    pub fn list(&self) -> List<'_> {
        List { prompts: self.prompts, numbers: &self.numbers, uses: &self.uses }
    }

    /// What the list has where an account has other counts.
    pub fn counts(&self, book: &Book) -> String {
        let (steps, prompts) = (2 * book.spreads.len(), book.prompts.len());
        let of = prompts_in(book);
        format!("the list has {} steps and {} {of}; the account has {steps} and {prompts}", self.numbers.len(), self.prompts)
    }

    /// The verdict in words.
    pub fn verdict(&self, book: &Book, verdict: usize, step: usize) -> String {
        let name = &self.name;
        if verdict == RIGHT {
            let of = prompts_in(book);
            return format!("{name}: right, all {} steps with what each used of {} {of}\n", self.numbers.len(), self.prompts);
        }
        let (spread, right) = (&book.spreads[step / 2], &book.spreads[step / 2].steps[step % 2]);
        let legs = spread_in_words(book.question, spread);
        let why = match verdict {
            MORE_THAN_FORMED => "the number is more than can be formed",
            LESS_THAN_FORMED => "the number is less than can be formed",
            _ => "the number is right, and a use is not",
        };
        let mut page = format!("{name}: wrong at step {step}: {why}\n");
        page += &format!("  step {step} is spread {}, {}: {}\n", spread.place, DIRECTIONS[step % 2], legs);
        if verdict != WRONG_USE {
            return page + &format!("  sent {}, right {}\n", lots(self.numbers[step]), lots(right.formed));
        }
        let sent = &self.uses[step * self.prompts..][..self.prompts];
        for ((prompt, sent), right) in book.prompts.iter().zip(sent).zip(&right.taken).filter(|((_, sent), right)| sent != right)
        {
            let which = match book.question {
                TABLE => format!("contract {}", prompt.tier),
                _ => format!("prompt {}, day {}, tier {}", prompt.place, prompt.day, prompt.tier),
            };
            page += &format!("  {which}: sent {}, right {}\n", lots(*sent), lots(*right));
        }
        page
    }
}

fn prompts_in(book: &Book) -> &'static str {
    match book.question {
        TABLE => "contracts",
        _ => "prompts",
    }
}

fn misread(line: usize, column: &str, found: &str, expected: String) -> Misread {
    Misread { line, column: column.to_string(), found: found.to_string(), expected, meant: None }
}

/// Where a row is not that of the step that its place says.
fn unlike_step(at: usize, line: usize, cells: &[String], columns: usize) -> Option<Misread> {
    let expected = [at.to_string(), (at / 2 + 1).to_string(), STEPS[at % 2].to_string()];
    for (column, (found, expected)) in COLUMNS.iter().zip(cells.iter().zip(&expected)) {
        if !found.eq_ignore_ascii_case(expected) {
            return Some(misread(line, column, found, format!("{expected}, as the rows are in the order of the steps")));
        }
    }
    if cells.len() != columns {
        let cells = format!("{} cells", cells.len());
        return Some(misread(line, "row", &cells, format!("{columns} cells, as the header has")));
    }
    None
}

/// Lots with at most four places, as ten-thousandths.
fn ten_thousandths(cell: &str) -> Option<i64> {
    let (negative, digits) = match cell.strip_prefix('-') {
        Some(rest) => (true, rest),
        None => (false, cell.strip_prefix('+').unwrap_or(cell)),
    };
    let (whole, places) = digits.split_once('.').unwrap_or((digits, ""));
    let digits = |text: &str| text.bytes().all(|byte| byte.is_ascii_digit());
    if whole.is_empty() || !digits(whole) || !digits(places) || places.len() > 4 {
        return None;
    }
    let number: i128 = format!("{whole}{places:0<4}").parse().ok()?;
    i64::try_from(if negative { -number } else { number }).ok()
}

#[cfg(test)]
mod tests {
    use super::*;

    #[test]
    fn lots_have_at_most_four_places_and_fit_64_bits() {
        let read = [("5", 50_000), ("-5.0000", -50_000), ("0.0001", 1), ("-0.5", -5_000), ("+1.25", 12_500)];
        for (cell, number) in read {
            assert_eq!(ten_thousandths(cell), Some(number), "{cell}");
        }
        for number in [i64::MIN, -1, 0, 1, i64::MAX] {
            assert_eq!(ten_thousandths(&lots(number)), Some(number));
        }
        for cell in ["", "-", ".5", "1.00001", "1e3", "1,5", "--1", "922337203685477.5808", "five"] {
            assert_eq!(ten_thousandths(cell), None, "{cell}");
        }
    }

    #[test]
    fn rows_are_the_steps_in_their_order() {
        let header = "step,spread,direction,number,prompt 1 20260318,prompt 2 20260617\n";
        let rows = "0,1,A long,1.5,1.5,-1.5\n1,1,A short,0,0,0\n";
        let read = Sent::of_text(format!("\u{feff}{header}\r\n{rows}").as_bytes()).ok();
        assert_eq!(read, Some((2, vec![15_000, 0], vec![15_000, -15_000, 0, 0])));
        for rows in ["1,1,A short,0,0,0\n", "0,2,A long,0,0,0\n", "0,1,A short,0,0,0\n", "0,1,A long,0,0\n", "0,1,A long,x,0,0\n"]
        {
            assert_eq!(Sent::of_text(format!("{header}{rows}").as_bytes()).map_err(|told| told.len()), Err(1), "{rows}");
        }
        assert!(Sent::of_text(b"").is_err());
        assert!(Sent::of_text(b"step;spread;direction;number\n").is_err());
    }
}
