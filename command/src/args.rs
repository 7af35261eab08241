//! How the command is called.

use crate::names::Part;
use clap::{Args, Parser, Subcommand};
use std::path::PathBuf;

const NOTES: &str = "\
An account is an account file or its text form, a CSV file with one record a line, as `felgotany read` prints it. A name
of - is standard input, which is also read where no account is named.

Exit status: 0 answered, 1 the account is refused or the list judged is not right, 2 called wrongly, 3 something could not be
read or written.";

const NIGHT_NOTES: &str = "\
Every name is answered in one line on standard output, in the order of the list or, of a folder, of its names: the total, or the
refusal and its record, or why it is not read. Then the counts stand on standard error. --empty takes a book without names, too.

Exit status: 0 all accepted, 1 some refused, 2 called wrongly, 3 something could not be read or written.";

/// SPAN margin for metal forwards and options
#[derive(Parser)]
#[command(name = "felgotany", version, after_help = NOTES, max_term_width = 120)]
pub struct Call {
    #[command(subcommand)]
    pub asked: Asked,
}

#[derive(Subcommand)]
pub enum Asked {
    /// Say whether accounts are accepted, or what is refused
    Check {
        /// Account files or their text form; - is standard input
        #[arg(value_name = "ACCOUNT", default_value = "-")]
        accounts: Vec<PathBuf>,
        #[command(flatten)]
        form: Form,
        #[command(flatten)]
        empty: Empty,
    },
    /// The margin of accounts: each contract's figures and the total
    Margin {
        /// Account files or their text form; - is standard input
        #[arg(value_name = "ACCOUNT", default_value = "-")]
        accounts: Vec<PathBuf>,
        #[command(flatten)]
        form: Form,
        #[command(flatten)]
        empty: Empty,
    },
    /// The report of an account: every figure with its working, who paid for which spread, what is still open and why
    Report(crate::report::args::Report),
    /// A client's statement: the report in short
    Statement(crate::report::args::Statement),
    /// The figures and the delta books as lines or CSV; for people there is the report
    Book {
        /// An account file or its text form; - is standard input
        #[arg(default_value = "-")]
        account: PathBuf,
        /// Only this delta book: 0 to 15 for that contract, 16 for the intercontract spreads
        question: Option<usize>,
        #[command(flatten)]
        form: Form,
        #[command(flatten)]
        empty: Empty,
    },
    /// The morning's account with a noon file joined to it, and the call on it
    Noon {
        /// The morning's account file or its text form
        morning: PathBuf,
        /// The noon file or its text form: the contracts that traded, without intercontract spreads
        noon: PathBuf,
        /// The last cover call, the threshold and the revalued collateral, in whole hundredths of the currency
        #[arg(long, num_args = 3, value_names = ["LAST", "THRESHOLD", "COLLATERAL"], allow_negative_numbers = true)]
        call: Option<Vec<i64>>,
        #[command(flatten)]
        form: Form,
        #[command(flatten)]
        empty: Empty,
    },
    /// The totals of a whole book, a folder or a list of accounts, one line each
    Night(Night),
    /// Figures for the risk committee: one report over a run of at most 100 accounts, with a picture of margins and refusals
    Committee {
        /// Account files or their text form, or folders of them; - is standard input
        #[arg(value_name = "ACCOUNT", required = true)]
        accounts: Vec<PathBuf>,
        #[command(flatten)]
        form: CommitteeForm,
        #[command(flatten)]
        empty: Empty,
    },
    /// Judge a list of spreads that others send: right, or its first wrong step and why
    Judge {
        /// An account file or its text form; - is standard input
        account: PathBuf,
        /// 0 to 15 for the spreads of that contract, 16 for the intercontract spreads
        question: usize,
        /// The list, as `felgotany list` prints it: CSV with one step a row; - is standard input
        list: PathBuf,
        #[command(flatten)]
        judging: Judging,
    },
    /// Print the list of spreads that the steps form, in the form that `felgotany judge` reads
    List {
        /// An account file or its text form; - is standard input
        account: PathBuf,
        /// 0 to 15 for the spreads of that contract, 16 for the intercontract spreads
        question: usize,
        #[command(flatten)]
        judging: Judging,
    },
    /// What tickets do to the margin of an account, line by line: rows in the text form, or withdraw
    Tickets(Tickets),
    /// Say in words why an account is refused, and show the record
    Explain {
        /// An account file or its text form; - is standard input
        #[arg(default_value = "-")]
        account: PathBuf,
        /// Print every refusal in words in place of explaining an account
        #[arg(long, conflicts_with_all = ["account", "empty"])]
        refusals: bool,
        #[command(flatten)]
        empty: Empty,
    },
    /// Print an account as text that can be edited and written again
    Read {
        /// An account file or its text form; - is standard input
        #[arg(default_value = "-")]
        account: PathBuf,
        /// Where the text goes, in place of standard output
        output: Option<PathBuf>,
        #[command(flatten)]
        empty: Empty,
    },
    /// Write an account file from its text form, whose lines may stand in any order
    Write {
        /// The text, or - for standard input
        text: PathBuf,
        /// The name of the account file, which is written whole or not at all
        output: PathBuf,
        /// Write the lines as they stand, and an account that is refused, too
        #[arg(long)]
        refused: bool,
        #[command(flatten)]
        empty: Empty,
    },
}

#[derive(Args)]
#[command(after_help = NIGHT_NOTES)]
pub struct Night {
    /// A folder of account files or their text form, or a list: a file with one name a line; - is a list on standard input
    #[arg(value_name = "BOOK", default_value = "-")]
    pub book: PathBuf,
    #[command(flatten)]
    pub form: Form,
    /// Say in words, too, why an account is refused
    #[arg(long, conflicts_with = "lines")]
    pub words: bool,
    /// Only this part of a list: part 1/4 is the first quarter. The parts' outputs, one after the other, are the whole's
    #[arg(long, value_name = "I/N")]
    pub part: Option<Part>,
    /// Print the names alone, as a list, and answer none
    #[arg(long, conflicts_with_all = ["lines", "csv", "words", "progress"])]
    pub names: bool,
    /// Tell each tenth of the way on standard error where that is no terminal; on a terminal a bar is shown
    #[arg(long)]
    pub progress: bool,
    #[command(flatten)]
    pub empty: Empty,
}

const TICKET_NOTES: &str = "\
Each line of standard input is a ticket, one row in the text form (felgotany read prints rows), and is answered as it comes: the
margin before, after, and the change, or the refusal in words. The ticket is put last among its contract's rows, with the tickets
before it. A line that says withdraw takes the latest ticket back, then the one before it. A refused ticket changes nothing.

Exit status: 0 all answered, 1 some refused, 2 called wrongly, 3 something could not be read or written.";

#[derive(Args)]
#[command(after_help = TICKET_NOTES)]
pub struct Tickets {
    /// An account file or its text form
    pub account: PathBuf,
    /// Print lines for other programs, in whole hundredths: A or W with the ticket, before, after and change; an R line
    #[arg(long)]
    pub lines: bool,
    #[command(flatten)]
    pub empty: Empty,
}

#[derive(Args)]
pub struct Judging {
    /// A noon file or its text form, to be joined to the account
    #[arg(long)]
    pub noon: Option<PathBuf>,
    /// Print lines for other programs; what is refused is an R line
    #[arg(long)]
    pub lines: bool,
}

/// For whom is printed: people, other programs, or a spreadsheet.
#[derive(Args, Clone, Copy)]
pub struct Form {
    /// Print lines for other programs, in whole hundredths and ten-thousandths; what is refused is an R line
    #[arg(long, conflicts_with = "csv")]
    pub lines: bool,
    /// Print CSV for a spreadsheet, with a header line
    #[arg(long)]
    pub csv: bool,
}

/// The same of the committee's report, which a browser shows, too.
#[derive(Args, Clone, Copy)]
pub struct CommitteeForm {
    /// Print an N line with the 24 numbers, amounts in whole hundredths; a run that is refused is an R line
    #[arg(long, conflicts_with_all = ["csv", "html"])]
    pub lines: bool,
    /// Print CSV for a spreadsheet, with a header line
    #[arg(long, conflicts_with = "html")]
    pub csv: bool,
    /// Print a page for a browser, which needs no other file
    #[arg(long)]
    pub html: bool,
}

impl CommitteeForm {
    /// In which form a refusal is told.
    pub fn told(self) -> Form {
        Form { lines: self.lines, csv: self.csv }
    }
}

#[derive(Args, Clone, Copy)]
pub struct Empty {
    /// Take an account without records, which is accepted and has a total of 0
    #[arg(long)]
    pub empty: bool,
}
