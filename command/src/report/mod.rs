//! The report of an account, for the desk and for a regulator, and a client's statement: text, or one page in HTML.

mod account;
pub mod args;
pub mod books;
mod contract;
mod document;
mod html;
mod left;
mod picture;
mod statement;
mod subject;
mod text;
mod working;

use crate::account::{joined, Account};
use crate::ask::Answer;
use crate::failure::{Failure, Status};
use crate::input::Input;
use crate::noon::{self, Call};
use crate::output;
use args::{Beside, Refusal, Report, Statement};
use document::Document;
use felgotany::Pair;
use independent::format::{records, Record, MARGIN_CURRENCY};
use std::path::Path;
use subject::Subject;
use working::{Differs, Working};

/// An accepted account with its working, and what is known of a joined one.
struct Answered {
    account: Account,
    working: Working,
    /// The file that supplies each contract of a joined account, contracts in file order.
    suppliers: Option<Vec<&'static str>>,
    call: Option<Call>,
}

pub fn report(asked: &Report) -> Result<Answer, Failure> {
    let files = Files::load(&asked.account, &asked.beside, asked.empty.empty)?;
    let subject = files.subject(&asked.beside);
    match files.answered(&asked.beside) {
        Ok(answered) => {
            let report = account::report(&subject, &answered).map_err(|differs| not_printed(&subject, differs))?;
            finished(&asked.beside, report, None)
        }
        Err(refused) if refused.status == Status::Refused => {
            finished(&asked.beside, account::refused(&subject, &refused.told), Some(refused))
        }
        Err(failure) => Err(failure),
    }
}

pub fn statement(asked: &Statement) -> Result<Answer, Failure> {
    let files = Files::load(&asked.account, &asked.beside, asked.empty.empty)?;
    let subject = files.subject(&asked.beside);
    match files.answered(&asked.beside) {
        Ok(answered) => finished(&asked.beside, statement::of(&subject, &answered, &asked.contact), None),
        Err(refused) if refused.status == Status::Refused => {
            let shown = (asked.refusal == Refusal::Shown).then_some(refused.told.as_str());
            let statement = statement::refused(&subject, shown, &asked.contact);
            let told = if shown.is_some() { refused } else { withheld(&subject, refused) };
            finished(&asked.beside, statement, Some(told))
        }
        Err(failure) => Err(failure),
    }
}

/// What is told at the desk of a refusal that a statement withholds: not the refusal, which might go where the statement goes.
fn withheld(subject: &Subject, refused: Failure) -> Failure {
    let told = format!("{}: refused; the statement withholds why, and felgotany report tells", subject.file);
    Failure { told, ..refused }
}

/// A sum that is not the proved figure: nothing is printed.
fn not_printed(subject: &Subject, differs: Differs) -> Failure {
    let Differs { what, worked_out, proved } = differs;
    Failure::not_read(format!("{}: no report: {what} is {worked_out} as worked out here and {proved} as proved", subject.file))
}

/// The document in the form and the place that are asked for.
fn finished(beside: &Beside, document: Document, refused: Option<Failure>) -> Result<Answer, Failure> {
    let written = if beside.html { html::html(&document) } else { text::text(&document) };
    let text = match &beside.output {
        Some(path) => output::to_file(path, written.as_bytes()).map(|()| String::new())?,
        None => written,
    };
    Ok(Answer { text, failures: refused.into_iter().collect() })
}

/// One account, or the morning's and a noon file.
struct Files {
    account: Input,
    noon: Option<Input>,
}

impl Files {
    fn load(account: &Path, beside: &Beside, empty: bool) -> Result<Files, Failure> {
        let account = Input::load(account, empty)?;
        let noon = beside.noon.as_ref().map(|noon| Input::load(noon, empty)).transpose()?;
        Ok(Files { account, noon })
    }

    fn subject<'a>(&self, beside: &'a Beside) -> Subject<'a> {
        let name = self.account.name.clone();
        let (source, file) = match &self.noon {
            Some(noon) => (
                format!("the morning's account {name} with the noon file {} joined to it", noon.name),
                format!("{name} and {}", noon.name),
            ),
            None => (name.clone(), name),
        };
        Subject { beside, source, file }
    }

    fn pair(&self) -> Option<Pair<'_>> {
        self.noon.as_ref().map(|noon| Pair { morning: &self.account.file, noon: &noon.file })
    }

    fn records(&self) -> Vec<Record<'_>> {
        self.pair().map_or_else(|| records(&self.account.file), joined)
    }

    /// The answers of the library with their working, unless the account is refused.
    fn answered(&self, beside: &Beside) -> Result<Answered, Failure> {
        let (account, call) = match &self.noon {
            Some(noon) => noon::answers(&self.account, noon, beside.call.as_deref())?,
            None => (Account::of_file(&self.account.file).map_err(|refused| self.account.refusal(refused))?, None),
        };
        let numbers = || account.contracts.iter().map(|contract| contract.figures[0]);
        if let Some((number, _)) = beside.contracts.iter().find(|(named, _)| numbers().all(|number| number != *named)) {
            return Err(Failure::called_wrongly(format!("--contract {number}: the account has no contract {number}")));
        }
        let has_rate = |number: i64| account.rates.iter().any(|rate| rate.currency == number);
        let named = beside.currencies.iter().map(|(named, _)| *named);
        if let Some(number) = named.filter(|named| *named != MARGIN_CURRENCY).find(|named| !has_rate(*named)) {
            return Err(Failure::called_wrongly(format!("--currency {number}: the account has no rate of currency {number}")));
        }
        let working = Working::of(&self.records(), &account).map_err(|differs| not_printed(&self.subject(beside), differs))?;
        let suppliers = self.pair().map(|pair| numbers().map(|number| noon::supplier(pair, number)).collect());
        Ok(Answered { account, working, suppliers, call })
    }
}
