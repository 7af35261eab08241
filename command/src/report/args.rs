//! How a report and a statement are called.

use clap::{Args, ValueEnum};
use independent::format::MARGIN_CURRENCY;
use std::path::PathBuf;

#[derive(Args)]
pub struct Report {
    /// An account file or its text form; - is standard input
    #[arg(default_value = "-")]
    pub account: PathBuf,
    #[command(flatten)]
    pub beside: Beside,
    #[command(flatten)]
    pub empty: crate::args::Empty,
}

#[derive(Args)]
pub struct Statement {
    /// An account file or its text form; - is standard input
    #[arg(default_value = "-")]
    pub account: PathBuf,
    /// Whether a client whose account is refused is shown what is refused; no figure is worked out either way
    #[arg(long, value_enum)]
    pub refusal: Refusal,
    /// Whom the client asks
    #[arg(long, value_name = "WHOM", default_value = "your broker", value_parser = name)]
    pub contact: String,
    #[command(flatten)]
    pub beside: Beside,
    #[command(flatten)]
    pub empty: crate::args::Empty,
}

#[derive(Clone, Copy, PartialEq, Eq, ValueEnum)]
pub enum Refusal {
    Shown,
    Withheld,
}

/// What is given beside the account, and where the report goes.
#[derive(Args)]
pub struct Beside {
    /// A noon file to be joined to the account, which is then the morning's
    #[arg(long, value_name = "NOON")]
    pub noon: Option<PathBuf>,
    /// The last cover call, the threshold and the revalued collateral, in whole hundredths of the currency
    #[arg(long, num_args = 3, value_names = ["LAST", "THRESHOLD", "COLLATERAL"], allow_negative_numbers = true, requires = "noon")]
    pub call: Option<Vec<i64>>,
    /// One page in HTML in place of text
    #[arg(long)]
    pub html: bool,
    /// Where it is written, whole or not at all, in place of standard output
    #[arg(long, value_name = "FILE")]
    pub output: Option<PathBuf>,
    /// The name of the account
    #[arg(long, value_name = "NAME", value_parser = name)]
    pub name: Option<String>,
    /// The name of a contract, as in 1=Copper; once for each
    #[arg(long = "contract", value_name = "NUMBER=NAME", value_parser = named)]
    pub contracts: Vec<(i64, String)>,
    /// The name of the margin currency, as in USD, or of another, as in 1=EUR; once for each
    #[arg(long = "currency", value_name = "[NUMBER=]NAME", value_parser = currency)]
    pub currencies: Vec<(i64, String)>,
}

fn name(text: &str) -> Result<String, String> {
    match text.trim().is_empty() || text.chars().any(char::is_control) {
        true => Err("a name has something in it, and no control marks".to_string()),
        false => Ok(text.to_string()),
    }
}

fn named(text: &str) -> Result<(i64, String), String> {
    let (number, of_contract) = text.split_once('=').ok_or("a contract's number, =, and its name")?;
    let number = number.parse().map_err(|_| format!("'{number}' is no contract's number"))?;
    Ok((number, name(of_contract)?))
}

fn currency(text: &str) -> Result<(i64, String), String> {
    let numbered = text.split_once('=').and_then(|(number, rest)| Some((number.parse().ok()?, rest)));
    let (number, of_currency) = numbered.unwrap_or((MARGIN_CURRENCY, text));
    Ok((number, name(of_currency)?))
}
