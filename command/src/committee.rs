//! Figures for the risk committee: one report over a run of accounts, for a page, a browser, a spreadsheet or another program.

use crate::args::CommitteeForm;
use crate::failure::Failure;
use crate::input::Input;
use crate::numbers::amount;
use crate::table::{csv, table};
use crate::{ask::Answer, lines};
use felgotany::refusals::rule;
use felgotany::{COMMITTEE_NUMBERS, MOST_FIGURES};
use std::fs;
use std::io;
use std::path::{Path, PathBuf};

/// The numbers of the refusals that an account can have.
const REFUSALS: usize = 15;
/// The longest bar on the page, in marks, and in a browser, in its widths of a letter.
const LONGEST_BAR: usize = 40;
/// Hundredths of the currency.
const UNIT: i64 = 100;

/// The committee's numbers, by their places in the library's answer.
const ACCEPTED: usize = 0;
const REFUSED: usize = 1;
const REFUSED_WITH: usize = 2;
const SUMMED: usize = REFUSED_WITH + REFUSALS;
const LARGEST: usize = SUMMED + 1;
const PLACE: usize = SUMMED + 2;
const WITH_CREDIT: usize = SUMMED + 3;
const ABOVE: usize = SUMMED + 4;
const MEAN: usize = SUMMED + 5;
const REMAINDER: usize = SUMMED + 6;

const LOWEST_PLACE: &str = "its lowest place, from 0";

/// An account of the run: its name, and its margin or its refusal and record.
struct Member {
    name: String,
    answer: Result<i64, (usize, usize)>,
}

struct Report {
    numbers: [i64; COMMITTEE_NUMBERS],
    members: Vec<Member>,
}

pub fn ask(paths: &[PathBuf], form: CommitteeForm, empty: bool) -> Answer {
    match load(paths, empty) {
        Ok(inputs) => Answer::of_result(form.told(), report(&inputs).map(|report| report.print(form))),
        Err(failures) => Answer { text: String::new(), failures },
    }
}

/// The accounts that are named, those of a folder in the order of their names' bytes; or what could not be read.
fn load(paths: &[PathBuf], empty: bool) -> Result<Vec<Input>, Vec<Failure>> {
    let (mut inputs, mut failures) = (vec![], vec![]);
    for path in paths {
        match standing_in(path) {
            Ok(names) => {
                for name in names {
                    Input::load(&name, empty).map_or_else(|failure| failures.push(failure), |input| inputs.push(input));
                }
            }
            Err(fault) => failures.push(Failure::not_read(format!("{}: {fault}", path.display()))),
        }
    }
    if failures.is_empty() {
        Ok(inputs)
    } else {
        Err(failures)
    }
}

fn standing_in(path: &Path) -> io::Result<Vec<PathBuf>> {
    if !path.is_dir() {
        return Ok(vec![path.to_path_buf()]);
    }
    let mut names = fs::read_dir(path)?.map(|entry| Ok(entry?.path())).collect::<io::Result<Vec<PathBuf>>>()?;
    names.sort_unstable_by(|one, other| one.as_os_str().cmp(other.as_os_str()));
    Ok(names)
}

fn report(inputs: &[Input]) -> Result<Report, Failure> {
    let bytes: Vec<u8> = inputs.iter().flat_map(|input| input.file.clone()).collect();
    let lengths: Vec<usize> = inputs.iter().map(|input| input.file.len()).collect();
    let mut numbers = [0; COMMITTEE_NUMBERS];
    let told = felgotany::committee(&bytes, &lengths, &mut numbers);
    if told.refusal != 0 {
        let words = format!("refusal {}, record {}: {}", told.refusal, told.record, rule(told.refusal).unwrap_or_default());
        let line = format!("R {} {}", told.refusal, told.record);
        return Err(Failure::refused(format!("{words}; there are {}", inputs.len()), line));
    }
    let member = |input: &Input| Member { name: input.name.clone(), answer: margin_of(&input.file) };
    Ok(Report { numbers, members: inputs.iter().map(member).collect() })
}

/// The margin of an account, or its refusal and record.
fn margin_of(file: &[u8]) -> Result<i64, (usize, usize)> {
    let mut figures = [0; MOST_FIGURES];
    let told = felgotany::figures(file, &mut figures);
    match told.refusal {
        0 => Ok(figures[felgotany::figures_needed(file) - 1]),
        _ => Err((told.refusal, told.record)),
    }
}

/// A class of margins, and how many of the accounts have one.
struct Class {
    label: String,
    count: usize,
}

impl Report {
    fn print(&self, form: CommitteeForm) -> String {
        match form {
            CommitteeForm { lines: true, .. } => lines::committee(&self.numbers),
            CommitteeForm { csv: true, .. } => self.sheet(),
            CommitteeForm { html: true, .. } => self.html(),
            _ => self.page(),
        }
    }

    fn title(&self) -> String {
        let accounts = self.members.len();
        format!("Figures for the risk committee: {accounts} {}", if accounts == 1 { "account" } else { "accounts" })
    }

    /// The name of the account with the largest margin, where one is accepted.
    fn at_place(&self) -> Option<&str> {
        (self.numbers[ACCEPTED] > 0).then(|| &*self.members[self.numbers[PLACE] as usize].name)
    }

    /// Each number but the refusals, with its name.
    fn figures(&self) -> [[String; 2]; 9] {
        let number = |name: &str, at: usize| [name.to_string(), self.numbers[at].to_string()];
        let money = |name: &str, at: usize| [name.to_string(), amount(self.numbers[at])];
        [
            number("accounts accepted", ACCEPTED),
            number("accounts refused", REFUSED),
            money("margin summed", SUMMED),
            money("largest margin", LARGEST),
            number(LOWEST_PLACE, PLACE),
            number("accounts with credit", WITH_CREDIT),
            number("contracts with a short option minimum above the risk", ABOVE),
            money("mean margin", MEAN),
            money("remainder of the mean, over all accepted accounts", REMAINDER),
        ]
    }

    /// The margins of the accepted accounts: those of 0, and then by tens, hundreds, thousands of the currency and so on.
    fn by_size(&self) -> Vec<Class> {
        let margins: Vec<i64> = self.members.iter().filter_map(|member| member.answer.ok()).collect();
        let class =
            |margin: i64| if margin == 0 { 0 } else { 1 + (margin / UNIT).checked_ilog10().map_or(0, |digits| digits + 1) };
        let of = |wanted: u32| margins.iter().filter(|margin| class(**margin) == wanted).count();
        let least = margins.iter().map(|margin| class(*margin)).min().unwrap_or(0);
        let most = margins.iter().map(|margin| class(*margin)).max().unwrap_or(0);
        let from = |class: u32| UNIT * 10_i64.pow(class - 2);
        let label = |class: u32| match class {
            0 => "0.00".to_string(),
            1 => "below 1.00".to_string(),
            _ => format!("{} to below {}", amount(from(class)), amount(10 * from(class))),
        };
        let shown = if margins.is_empty() { 0..0 } else { least..most + 1 };
        shown.map(|class| Class { label: label(class), count: of(class) }).collect()
    }

    /// How many accounts are refused with each number, for those that occur.
    fn by_refusal(&self) -> Vec<Class> {
        let count = |number: usize| self.numbers[REFUSED_WITH + number - 1] as usize;
        let label = |number: usize| format!("{number:>2}  {}", rule(number).unwrap_or_default());
        let occurs = (1..=REFUSALS).filter(|number| count(*number) > 0);
        occurs.map(|number| Class { label: label(number), count: count(number) }).collect()
    }

    fn refused(&self) -> Vec<Vec<String>> {
        let row = |(place, member): (usize, &Member)| {
            let (refusal, record) = member.answer.err()?;
            Some(vec![place.to_string(), member.name.clone(), refusal.to_string(), record.to_string()])
        };
        self.members.iter().enumerate().filter_map(row).collect()
    }

    fn page(&self) -> String {
        let mut page = self.title() + "\n\n";
        for [name, value] in self.figures() {
            page += &format!("  {name:<54}{value:>22}\n");
        }
        page.extend(self.at_place().map(|name| format!("\nThe largest margin is that of {name}\n")));
        page += &format!("\nMargins by size, in the currency\n\n{}", bars(&self.by_size()));
        page += &format!("\nRefusals by number\n\n{}", bars(&self.by_refusal()));
        let refused = self.refused();
        if !refused.is_empty() {
            let rows = [vec![REFUSED_COLUMNS.map(str::to_string).to_vec()], refused].concat();
            page += &format!("\nRefused accounts\n\n{}", table(&rows));
        }
        page
    }

    fn sheet(&self) -> String {
        let largest = self.at_place().unwrap_or_default();
        let row = |[name, value]: [String; 2]| {
            let of = if name == LOWEST_PLACE { largest } else { "" };
            vec![name, value, of.to_string()]
        };
        let mut rows: Vec<Vec<String>> = self.figures().map(row).to_vec();
        let refusals = (1..=REFUSALS).map(|number| {
            let count = self.numbers[REFUSED_WITH + number - 1].to_string();
            vec![format!("refused with {number}"), count, rule(number).unwrap_or_default().to_string()]
        });
        rows.splice(2..2, refusals);
        csv(&["figure", "value", "what it is of"], rows)
    }

    fn html(&self) -> String {
        let figures: String =
            self.figures().iter().map(|[name, value]| format!("<tr><th>{}<td>{value}\n", escaped(name))).collect();
        let largest = self.at_place().map(|name| format!("<p>The largest margin is that of {}\n", escaped(name)));
        let cells = |row: &Vec<String>| row.iter().map(|cell| format!("<td>{}", escaped(cell))).collect::<String>();
        let refused: String = self.refused().iter().map(|row| format!("<tr>{}\n", cells(row))).collect();
        let listed = match &*refused {
            "" => String::new(),
            rows => format!("<h2>Refused accounts</h2>\n<table>\n<tr><th>{}\n{rows}</table>\n", REFUSED_COLUMNS.join("<th>")),
        };
        let title = self.title();
        format!(
            "<!doctype html>\n<html lang=\"en\">\n<meta charset=\"utf-8\">\n<title>{title}</title>\n<style>{STYLE}</style>\n<h1>{title}</h1>\n\
             <table class=\"figures\">\n{figures}</table>\n{}<h2>Margins by size, in the currency</h2>\n{}<h2>Refusals by number</h2>\n{}{listed}</html>\n",
            largest.unwrap_or_default(),
            bars_in_html(&self.by_size()),
            bars_in_html(&self.by_refusal()),
        )
    }
}

const REFUSED_COLUMNS: [&str; 4] = ["place", "account", "refusal", "record"];

const STYLE: &str = "body{font:16px sans-serif;margin:2em}th{text-align:left;font-weight:normal;padding-right:2em}\
                     td{padding-right:2em}.figures td,.bars td{text-align:right}.bar{background:#46769b;height:1em}";

/// How long the bar of a count is, where the largest count has the longest.
fn length(count: usize, largest: usize) -> usize {
    if largest <= LONGEST_BAR {
        count
    } else {
        (count * LONGEST_BAR).div_ceil(largest)
    }
}

fn bars(classes: &[Class]) -> String {
    if classes.is_empty() {
        return "  none\n".to_string();
    }
    let widest = classes.iter().map(|class| class.label.len()).max().unwrap_or(0);
    let largest = classes.iter().map(|class| class.count).max().unwrap_or(0);
    let line = |class: &Class| {
        let bar = "#".repeat(length(class.count, largest));
        format!("  {:<widest$}{:>6}  {bar}", class.label, class.count).trim_end().to_string() + "\n"
    };
    classes.iter().map(line).collect()
}

fn bars_in_html(classes: &[Class]) -> String {
    if classes.is_empty() {
        return "<p>none\n".to_string();
    }
    let largest = classes.iter().map(|class| class.count).max().unwrap_or(0);
    let line = |class: &Class| {
        let bar = format!("<div class=\"bar\" style=\"width:{}em\"></div>", length(class.count, largest));
        format!("<tr><th>{}<td>{}<th>{bar}\n", escaped(&class.label), class.count)
    };
    format!("<table class=\"bars\">\n{}</table>\n", classes.iter().map(line).collect::<String>())
}

fn escaped(text: &str) -> String {
    text.replace('&', "&amp;").replace('<', "&lt;").replace('>', "&gt;")
}
