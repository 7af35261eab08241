//! A noon file joined to the morning's: which file supplied each contract, the joined account, and the call.

use crate::account::Account;
use crate::args::Form;
use crate::failure::Failure;
use crate::input::Input;
use crate::numbers::amount;
use crate::table::table;
use crate::{lines, page, sheet};
use account_text::explain::refused;
use felgotany::refusals::{rule, AMOUNT_OUTSIDE_RANGE, CONVERSION_BEYOND, NOON_INTERCONTRACT, NO_RATE};
use felgotany::{Outcome, Pair, PairOutcome, PromptPlace, MORNING, NOON};
use independent::format::*;

pub fn ask(morning: &Input, noon: &Input, amounts: Option<&[i64]>, form: Form) -> Result<String, Failure> {
    let (account, call) = answers(morning, noon, amounts)?;
    let pair = Pair { morning: &morning.file, noon: &noon.file };
    Ok(match form {
        Form { lines: true, .. } => as_lines(pair, &account, call),
        Form { csv: true, .. } => sheet::joined(&account, call.as_ref(), &|contract| supplier(pair, contract).to_string()),
        _ => as_page(pair, &account, call),
    })
}

/// The joined account, and the call on it where its amounts are given.
pub fn answers(morning: &Input, noon: &Input, amounts: Option<&[i64]>) -> Result<(Account, Option<Call>), Failure> {
    let pair = Pair { morning: &morning.file, noon: &noon.file };
    let refused = |outcome| refusal(morning, noon, amounts, outcome);
    let account = Account::of_pair(pair).map_err(refused)?;
    let call = match amounts {
        Some(&[last, threshold, collateral]) => Some(Call::of(pair, &account, [last, threshold, collateral]).map_err(refused)?),
        _ => None,
    };
    Ok((account, call))
}

/// The call, 0 where there is none, and what it goes by.
pub struct Call {
    requirement: i64,
    given: [i64; 3],
    pub call: u64,
}

/// What the call goes by, the requirement first.
pub const AMOUNTS: [&str; 4] = ["requirement", "last cover call", "threshold", "revalued collateral"];

impl Call {
    fn of(pair: Pair, account: &Account, given: [i64; 3]) -> Result<Call, PairOutcome> {
        let [last, threshold, collateral] = given;
        let called = pair.call(last, threshold, collateral);
        match called.outcome.refusal {
            0 => Ok(Call { requirement: account.total, given, call: called.call }),
            _ => Err(called.outcome),
        }
    }

    /// Each amount that it goes by, in hundredths, with its name.
    pub fn amounts(&self) -> [(&'static str, i64); 4] {
        let [last, threshold, collateral] = self.given;
        let [of_requirement, of_last, of_threshold, of_collateral] = AMOUNTS;
        [(of_requirement, self.requirement), (of_last, last), (of_threshold, threshold), (of_collateral, collateral)]
    }

    /// Why there is no call.
    pub fn why_none(&self) -> Option<&'static str> {
        let [last, threshold, _] = self.given;
        match self.call {
            0 if self.requirement <= last + threshold => {
                Some("the requirement is not above the last cover call plus the threshold")
            }
            0 => Some("the requirement is not above the revalued collateral"),
            _ => None,
        }
    }

    fn page(&self) -> String {
        let line = |label: &str, figure: String| format!("  {label:<20}{figure:>21}\n");
        let amounts = self.amounts().map(|(label, hundredths)| line(label, amount(hundredths)));
        let page = format!("\nCall\n\n{}", amounts.concat());
        match self.why_none() {
            None => page + &line("call", amount(self.call as i64)),
            Some(why) => page + &line("call", "none".to_string()) + &format!("  ({why})\n"),
        }
    }
}

/// The name of the file that supplies a contract.
pub fn supplier(pair: Pair, contract: i64) -> &'static str {
    match usize::try_from(contract).map_or(0, |contract| pair.prompts(contract).file) {
        MORNING => "morning",
        NOON => "noon",
        _ => "",
    }
}

fn as_lines(pair: Pair, account: &Account, call: Option<Call>) -> String {
    let contracts = account.contracts.iter().map(|contract| contract.figures[0]);
    let supplied = contracts.map(|contract| lines::supplied(contract, pair.prompts(contract as usize)));
    let call = call.map_or(String::new(), |call| lines::call(call.call));
    supplied.chain([lines::account(account), call]).collect()
}

fn as_page(pair: Pair, account: &Account, call: Option<Call>) -> String {
    let header = ["contract", "supplied by", "prompts"].map(str::to_string).to_vec();
    let contracts = account.contracts.iter().map(|contract| {
        let number = contract.figures[0];
        vec![number.to_string(), supplier(pair, number).to_string(), prompts(pair, number as usize)]
    });
    let rows: Vec<Vec<String>> = [header].into_iter().chain(contracts).collect();
    let call = call.map_or(String::new(), |call| call.page());
    let records = account_text::wording::counted(account.records, "record");
    format!("Joined account, {records}\n\n{}\n{}{call}", table(&rows), page::margin("the joined account", account))
}

/// The days of a contract's prompts, from the file that supplies them.
fn prompts(pair: Pair, contract: usize) -> String {
    let PromptPlace { file, first, records } = pair.prompts(contract);
    let from = if file == NOON { pair.noon } else { pair.morning };
    let part = &from[first * RECORD_BYTES..][..records * RECORD_BYTES];
    let days = part.chunks_exact(RECORD_BYTES).map(|record| Record(record).get(DAY).to_string());
    match records {
        0 => "none".to_string(),
        _ => days.collect::<Vec<_>>().join(" "),
    }
}

/// A refusal of two files in words, and as a line.
pub fn refusal(morning: &Input, noon: &Input, amounts: Option<&[i64]>, outcome: PairOutcome) -> Failure {
    let PairOutcome { file, refusal, record } = outcome;
    let line = format!("R {file} {refusal} {record}");
    let of_file = |input: &Input| {
        let told = input.refusal_in_words(Outcome { refusal, record });
        format!("{}: {told}", input.name)
    };
    let rule = rule(refusal).unwrap_or_default();
    let told = match (file, refusal) {
        (NOON, NOON_INTERCONTRACT) => {
            let advice = "intercontract spreads and currency rates always come from the morning: leave them out of the noon file";
            format!("{}: refusal {refusal}, {}: {rule}\n  {advice}", noon.name, noon.place(record))
        }
        (MORNING, _) => of_file(morning),
        (NOON, _) => of_file(noon),
        (_, AMOUNT_OUTSIDE_RANGE) => {
            let amounts: Vec<String> = amounts.unwrap_or_default().iter().map(i64::to_string).collect();
            format!("joined account: refusal {refusal}, record {record}: {rule}\n  the amounts are {}", amounts.join(", "))
        }
        (_, NO_RATE | CONVERSION_BEYOND) => refused_row(morning, noon, Outcome { refusal, record }),
        _ => format!("joined account: refusal {refusal}, record {record}: {rule}\n  {record} records are joined"),
    };
    Failure::refused(told, line)
}

/// A row of the joined account that is refused for its currency, and where it stands in the file that it comes from.
fn refused_row(morning: &Input, noon: &Input, verdict: Outcome) -> String {
    let Outcome { refusal, record } = verdict;
    let joined = joined_places(morning, noon);
    let file: Vec<u8> = joined.iter().flat_map(|(input, place)| bytes_of(input, *place)).copied().collect();
    let told = refused(&file, verdict).unwrap_or_default();
    let (input, place) = joined[record];
    let from = format!("it is {} of {}; currency rates come from the morning", input.place(place), input.name);
    format!("joined account: refusal {refusal}, record {record}{told}\n  {from}")
}

fn bytes_of(input: &Input, place: usize) -> &[u8] {
    &input.file[place * RECORD_BYTES..][..RECORD_BYTES]
}

/// Where each record of the joined account comes from, of two files whose records are accepted: the file and the place in it.
fn joined_places<'a>(morning: &'a Input, noon: &'a Input) -> Vec<(&'a Input, usize)> {
    let lists = |input: &Input, contract: i64| {
        records(&input.file).iter().any(|record| record.kind() == CONTRACT && record.get(NUMBER) == contract)
    };
    let mut joined = vec![];
    for kind in CONTRACT..=SPREAD {
        for contract in NUMBER.least..=NUMBER.most {
            let input = if lists(noon, contract) { noon } else { morning };
            let all = records(&input.file);
            let of_contract = |place: &usize| all[*place].kind() == kind && all[*place].get(NUMBER) == contract;
            joined.extend((0..all.len()).filter(of_contract).map(|place| (input, place)));
        }
    }
    let all = records(&morning.file);
    joined.extend((0..all.len()).filter(|place| all[*place].kind() > SPREAD).map(|place| (morning, place)));
    joined
}
