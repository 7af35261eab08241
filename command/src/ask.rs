//! What is asked, put to the library, and the answer in the form that is asked for.

use crate::account::{Account, Book};
use crate::args::{Asked, Form};
use crate::failure::{Failure, Status};
use crate::input::Input;
use crate::{committee, judge, lines, night, noon, output, page, report, sheet, table, tickets};
use account_text::explain::{accepted, explain};
use account_text::{read, wording};
use felgotany::refusals::{rule, TOO_LONG};
use felgotany::{Outcome, TABLE};
use independent::format::{records, CONTRACT, NUMBER, RECORD_BYTES};
use indicatif::ProgressBar;
use std::path::{Path, PathBuf};

/// What is printed on standard output, and what is told of what could not be answered.
#[derive(Default)]
pub struct Answer {
    pub text: String,
    pub failures: Vec<Failure>,
}

impl Answer {
    pub fn of(text: String) -> Answer {
        Answer { text, failures: vec![] }
    }

    /// Everything is printed and told already.
    pub fn ended(status: Status) -> Answer {
        Answer { text: String::new(), failures: vec![Failure { status, told: String::new(), line: None }] }
    }

    /// A failure is told; other programs are printed the line of a refusal.
    fn fail(&mut self, form: Form, failure: Failure) {
        if let (true, Some(line)) = (form.lines, &failure.line) {
            self.text += &format!("{line}\n");
        }
        self.failures.push(failure);
    }

    /// An answer, or nothing but the failure.
    pub fn of_result(form: Form, result: Result<String, Failure>) -> Answer {
        let mut answer = Answer::default();
        match result {
            Ok(text) => answer.text = text,
            Err(failure) => answer.fail(form, failure),
        }
        answer
    }
}

pub fn ask(asked: Asked) -> Result<Answer, Failure> {
    match asked {
        Asked::Check { accounts, form, empty } => Ok(check(&accounts, form, empty.empty)),
        Asked::Margin { accounts, form, empty } => Ok(margin(&accounts, form, empty.empty)),
        Asked::Book { form: Form { lines: false, csv: false }, .. } => {
            let told = "a book is printed with --lines or with --csv; for people there is felgotany report ACCOUNT";
            Err(Failure::called_wrongly(told.to_string()))
        }
        Asked::Book { account, question, form, empty } => {
            let input = Input::load(&account, empty.empty).and_then(Input::accepted);
            Ok(Answer::of_result(form, input.and_then(|input| book(&input, question, form))))
        }
        Asked::Noon { morning, noon, call, form, empty } => {
            let inputs = (Input::load(&morning, empty.empty)?, Input::load(&noon, empty.empty)?);
            Ok(Answer::of_result(form, noon::ask(&inputs.0, &inputs.1, call.as_deref(), form)))
        }
        Asked::Night(asked) => night::answer(&asked).map(Answer::ended),
        Asked::Tickets(asked) => {
            let form = Form { lines: asked.lines, csv: false };
            tickets::answer(&asked).map(Answer::ended).or_else(|failure| Ok(Answer::of_result(form, Err(failure))))
        }
        Asked::Report(asked) => report::report(&asked),
        Asked::Statement(asked) => report::statement(&asked),
        Asked::Committee { accounts, form, empty } => Ok(committee::ask(&accounts, form, empty.empty)),
        Asked::Judge { account, question, list, judging } => {
            let form = Form { lines: judging.lines, csv: false };
            judge::judge(&account, question, &list, &judging).or_else(|failure| Ok(Answer::of_result(form, Err(failure))))
        }
        Asked::List { account, question, judging } => {
            let form = Form { lines: judging.lines, csv: false };
            Ok(Answer::of_result(form, judge::list(&account, question, &judging)))
        }
        Asked::Explain { refusals: true, .. } => Ok(Answer::of(wording::table())),
        Asked::Explain { account, empty, .. } => explained(&Input::load(&account, empty.empty)?),
        Asked::Read { account, output, empty } => {
            let text = text_of(&Input::load(&account, empty.empty)?)?;
            match output {
                Some(path) => output::to_file(&path, text.as_bytes()).map(|()| Answer::default()),
                None => Ok(Answer::of(text)),
            }
        }
        Asked::Write { text, output, refused, empty } => {
            let input = Input::load(&text, empty.empty)?;
            let file = if refused { input.file } else { input.entered()? };
            output::to_file(&output, &file)?;
            Ok(Answer::default())
        }
    }
}

/// Goes over accounts, with a bar on a terminal where there are several.
fn each(accounts: &[PathBuf], mut ask: impl FnMut(&Path)) {
    let bar = if accounts.len() > 1 { ProgressBar::new(accounts.len() as u64) } else { ProgressBar::hidden() };
    for account in bar.wrap_iter(accounts.iter()) {
        ask(account);
    }
    bar.finish_and_clear();
}

fn check(accounts: &[PathBuf], form: Form, empty: bool) -> Answer {
    let mut answer = Answer::default();
    let mut rows = vec![];
    each(accounts, |path| match Input::load(path, empty) {
        Ok(input) => {
            let verdict = felgotany::check(&input.file);
            let records = accepted(input.file.len() / RECORD_BYTES);
            if form.csv {
                rows.push(verdict_row(&input, verdict, &records));
            }
            match verdict.refusal {
                0 if form.lines => answer.text += "A\n",
                0 if form.csv => {}
                0 => answer.text += &format!("{}: {records}\n", input.name),
                _ => answer.fail(form, input.refusal(verdict)),
            }
        }
        Err(failure) => answer.fail(form, failure),
    });
    if form.csv {
        answer.text = table::csv(&sheet::VERDICTS, rows);
    }
    answer
}

fn verdict_row(input: &Input, verdict: Outcome, accepted: &str) -> [String; 5] {
    let Outcome { refusal, record } = verdict;
    let name = input.name.clone();
    match refusal {
        0 => [name, "accepted".to_string(), String::new(), String::new(), accepted.to_string()],
        _ => {
            let words = input.refusal_in_words(verdict).replace("\n  ", "; ");
            [name, "refused".to_string(), refusal.to_string(), record.to_string(), words]
        }
    }
}

fn margin(paths: &[PathBuf], form: Form, empty: bool) -> Answer {
    let mut answer = Answer::default();
    let mut accounts = vec![];
    each(paths, |path| match Input::load(path, empty).and_then(|input| answers(&input).map(|account| (input.name, account))) {
        Ok((_, account)) if form.lines => answer.text += &lines::figures(&account),
        Ok(named) if form.csv => accounts.push(named),
        Ok((name, account)) => {
            let gap = if answer.text.is_empty() { "" } else { "\n" };
            answer.text += &format!("{gap}{}", page::margin(&name, &account));
        }
        Err(failure) => answer.fail(form, failure),
    });
    if form.csv {
        answer.text = sheet::margins(&accounts);
    }
    answer
}

fn answers(input: &Input) -> Result<Account, Failure> {
    Account::of_file(&input.file).map_err(|refused| input.refusal(refused))
}

fn book(input: &Input, question: Option<usize>, form: Form) -> Result<String, Failure> {
    let Some(question) = question else {
        let account = answers(input)?;
        let books = account.contracts.iter().map(|contract| &contract.book).chain(&account.table);
        return Ok(match form {
            Form { lines: true, .. } => lines::account(&account),
            _ => sheet::books(books),
        });
    };
    let book = Book::of_file(&input.file, question).map_err(|refused| unlisted(input, question, refused))?;
    Ok(match form {
        Form { lines: true, .. } => lines::book(&book),
        _ => sheet::books([&book].into_iter()),
    })
}

/// A question that an accepted account does not answer.
pub fn unlisted(input: &Input, question: usize, Outcome { refusal, record }: Outcome) -> Failure {
    let rule = rule(refusal).unwrap_or_default();
    let records = records(&input.file);
    let listed = records.iter().filter(|record| record.kind() == CONTRACT);
    let listed: String = listed.map(|record| format!("{}, ", record.get(NUMBER))).collect();
    let told = format!(
        "{}: refusal {refusal}, record {record}: {rule}\n  the question is {question}; this account answers {listed}{TABLE}",
        input.name
    );
    Failure::refused(told, format!("R {refusal} {record}"))
}

/// The verdict in words; a refused account is explained on standard output, and is refused.
fn explained(input: &Input) -> Result<Answer, Failure> {
    let verdict = felgotany::check(&input.file);
    if verdict.refusal == 0 {
        return Ok(Answer::of(accepted(input.file.len() / RECORD_BYTES) + "\n"));
    }
    let record = explain(&input.file, verdict).unwrap_or_default();
    let record: String = record.lines().skip(2).map(|line| format!("{line}\n")).collect();
    let text = format!("{}\n{record}", input.refusal_in_words(verdict));
    Ok(Answer { text, ..Answer::ended(Status::Refused) })
}

/// The text of any account but one that is too long, of which no more is read than shows that it is.
fn text_of(input: &Input) -> Result<String, Failure> {
    match felgotany::check(&input.file) {
        verdict if verdict.refusal == TOO_LONG => Err(input.refusal(verdict)),
        _ => Ok(read::read(&input.file)),
    }
}
