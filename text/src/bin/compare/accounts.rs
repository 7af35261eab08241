//! One account: its text writes its bytes, and its explanation says what the independent check says.

use account_text::explain::explain;
use account_text::read::read;
use account_text::wording::faults;
use account_text::write::write;
use felgotany::refusals::{rule, REFUSALS};
use felgotany::Outcome;
use independent::format::RECORD_BYTES;
use independent::generate::{self, Random};
use std::collections::BTreeSet;
use std::fmt;

/// The refusals of the check.
const CHECKED: [usize; 11] = [1, 2, 3, 4, 5, 6, 7, 8, 9, 14, 15];
const LAST: usize = CHECKED[CHECKED.len() - 1];

/// How many accounts and texts were held, and which wordings occurred.
#[derive(Default)]
pub struct Tally {
    verdicts: [u64; LAST + 1],
    damaged_written: u64,
    damaged_misread: u64,
    wordings: BTreeSet<&'static str>,
}

impl fmt::Display for Tally {
    fn fmt(&self, out: &mut fmt::Formatter<'_>) -> fmt::Result {
        write!(
            out,
            "{} accepted and {} refused accounts read, written and explained alike in {} wordings; \
             of damaged texts {} written, {} misread",
            self.verdicts[0],
            self.verdicts[1..].iter().sum::<u64>(),
            self.wordings.len(),
            self.damaged_written,
            self.damaged_misread
        )
    }
}

impl Tally {
    /// Every verdict and every wording of the table has occurred.
    pub fn nothing_missing(&self) -> Result<(), String> {
        let wordings = REFUSALS.iter().flat_map(|refusal| faults(refusal.number));
        let unsaid: Vec<&&str> =
            wordings.filter(|wording| !self.wordings.contains(*wording)).collect();
        let missing: Vec<usize> =
            CHECKED.into_iter().filter(|number| self.verdicts[*number] == 0).collect();
        if unsaid.is_empty()
            && missing.is_empty()
            && self.verdicts[0] > 0
            && self.damaged_misread > 0
        {
            return Ok(());
        }
        Err(format!("never said: {unsaid:?}; refusals that never occurred: {missing:?}"))
    }
}

pub fn hold_generated(seed: u64, index: u64, tally: &mut Tally) -> Result<(), String> {
    let file = generate::account(seed, index);
    hold(&file, tally)?;
    let mut random = Random::new(!seed, index);
    let mut text = read(&file).into_bytes();
    let place = random.place(text.len());
    text[place] = random.pick(b",\n#-0123456789ABxfr\"\xff");
    match write(&text) {
        Ok(written) => {
            same_bytes(&written.file)?;
            tally.damaged_written += 1;
        }
        Err(misread)
            if misread.iter().any(|misread| {
                misread.line == 0 || misread.column.is_empty() || misread.expected.is_empty()
            }) =>
        {
            return Err(format!("of a damaged text only this is said: {misread:?}"));
        }
        Err(_) => tally.damaged_misread += 1,
    }
    Ok(())
}

pub fn hold(file: &[u8], tally: &mut Tally) -> Result<(), String> {
    same_bytes(file)?;
    let verdict = felgotany::check(file);
    let second = independent::check(file).map_or_else(
        |refusal| Outcome { refusal: refusal.number.into(), record: refusal.record },
        |_| Outcome { refusal: 0, record: 0 },
    );
    if verdict != second {
        return Err(format!("the proved check gives {verdict:?}, the independent one {second:?}"));
    }
    let said = explain(file, verdict).ok_or(format!("no fault is found for {verdict:?}"))?;
    explained(file, second, &said, tally).ok_or(format!("{second:?} is explained by {said:?}"))?;
    tally.verdicts[verdict.refusal] += 1;
    Ok(())
}

/// Reading, writing and reading again gives the same bytes and the same text.
fn same_bytes(file: &[u8]) -> Result<(), String> {
    let text = read(file);
    let written = write(text.as_bytes()).map_err(|misread| format!("its text: {misread:?}"))?;
    let written = written.file;
    if written != file {
        return Err("its text writes other bytes".to_string());
    }
    if read(&written) != text {
        return Err("its text is read as another text".to_string());
    }
    Ok(())
}

/// The first line says the verdict, the second is one wording of that refusal, with a number that stands
/// where it says, and the record's text stands under it.
fn explained(file: &[u8], verdict: Outcome, said: &str, tally: &mut Tally) -> Option<()> {
    let Outcome { refusal: number, record } = verdict;
    if number == 0 {
        let records = file.len() / RECORD_BYTES;
        return said.starts_with(&format!("accepted, {records} record")).then_some(());
    }
    let (first, rest) = said.split_once('\n')?;
    let (second, text) = rest.strip_prefix("  ")?.split_once('\n')?;
    let wording = faults(number).iter().find(|wording| says(wording, second))?;
    tally.wordings.insert(wording);
    let bytes = match number {
        1 | 2 => &[],
        _ => file.chunks_exact(RECORD_BYTES).nth(record)?,
    };
    let named = if bytes.is_empty() { String::new() } else { read(bytes) };
    let begins = first.starts_with(&format!("refusal {number}, record {record}"));
    let places = second.contains(") is ") || second.starts_with("byte ");
    let stands = !places || stands(second, bytes)?;
    (begins && first.ends_with(rule(number)?) && text == named && stands).then_some(())
}

/// Whether a number stands where a line says, as in "day (bytes 4-7) is 20260319; ..".
fn stands(line: &str, record: &[u8]) -> Option<bool> {
    let (place, rest) = line.split_once(" is ")?;
    let number: i64 = rest.split(';').next()?.parse().ok()?;
    let place = place.rsplit("byte").next()?.trim_matches(['s', ' ', ')']);
    let (from, to) = place.split_once('-').unwrap_or((place, place));
    let bytes = record.get(from.parse().ok()?..=to.parse().ok()?)?;
    let mut word = [if number < 0 { 255 } else { 0 }; 8];
    word[..bytes.len()].copy_from_slice(bytes);
    Some(i64::from_le_bytes(word) == number)
}

/// Whether a line is a wording with every name in braces filled in.
fn says(wording: &str, line: &str) -> bool {
    let mut rest = line;
    for part in wording.split_inclusive('}') {
        let fixed = part.split('{').next().unwrap_or("");
        match rest.find(fixed) {
            Some(place) => rest = &rest[place + fixed.len()..],
            None => return false,
        }
    }
    !line.contains(['{', '}'])
}
