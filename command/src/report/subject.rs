//! What is known of an account beside its records: where it comes from, and the names that are given.

use super::args::Beside;
use super::document::Document;
use super::Answered;
use account_text::wording::counted;
use independent::format::MARGIN_CURRENCY;

pub struct Subject<'a> {
    pub beside: &'a Beside,
    /// In a sentence, and by the names of its files.
    pub source: String,
    pub file: String,
}

impl Subject<'_> {
    pub fn title(&self, of: &str) -> String {
        match &self.beside.name {
            Some(name) => format!("{of} of {name}"),
            None => format!("{of} of {}", self.file),
        }
    }

    /// A contract by its number, and its name where one is given.
    pub fn contract(&self, number: i64) -> String {
        let given = self.beside.contracts.iter().rfind(|(of, _)| *of == number);
        given.map_or(format!("contract {number}"), |(_, name)| format!("contract {number}, {name}"))
    }

    pub fn heading(&self, number: i64) -> String {
        self.contract(number).replacen('c', "C", 1)
    }

    /// The name of the margin currency.
    pub fn currency(&self) -> String {
        self.currency_named(MARGIN_CURRENCY).unwrap_or("the margin currency".to_string())
    }

    /// A currency by its name, or by its number where no name is given.
    pub fn currency_of(&self, number: i64) -> String {
        self.currency_named(number).unwrap_or(number.to_string())
    }

    fn currency_named(&self, number: i64) -> Option<String> {
        self.beside.currencies.iter().rfind(|(of, _)| *of == number).map(|(_, name)| name.clone())
    }

    /// Where the account comes from, how much there is of it, and the units.
    pub fn opening(&self, document: &mut Document, answered: &Answered) {
        let Answered { account, working, .. } = answered;
        let records = counted(account.records, "record");
        let contracts = counted(account.contracts.len(), "contract");
        let rows = counted(working.rows, "row");
        document.say(format!(
            "From {}: {records}, {contracts}, {rows}. A row is one position: a forward, a call or a put of one prompt date. \
             Amounts are in {}; lots and spreads have four places, long above 0 and short below.",
            self.source,
            self.currency()
        ));
        if account.records == 0 {
            document.say("The account is empty: it has no records. Its margin is 0.00.");
        }
    }
}
