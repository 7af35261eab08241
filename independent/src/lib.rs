//! The second, independent program of the margin build. It is written from document 01, the LME SPAN
//! technical specification (002) and the SPAN method (000) alone, as plainly as they can be said, so
//! that the proved program can be compared with it; the joining of two files from document 02 and
//! the intra-day service description (004). Quoted sentences are document 01's.

pub mod account;
pub mod book;
pub mod check;
pub mod committee;
pub mod currency;
pub mod entered;
pub mod format;
pub mod generate;
pub mod joined;
pub mod list;
pub mod margin;
pub mod refusal;
pub mod run;
pub mod screen;
pub mod statements;
pub mod steps;
pub mod ticket;
pub mod units;

pub use account::Account;
pub use check::check;
pub use refusal::{PairRefusal, Refusal};

use refusal::{TOO_FEW_LENT, UNLISTED_QUESTION};

/// The figures of a file: "for each contract in file order eight numbers, then the total". Gives how
/// many numbers it wrote at the front of those lent; a refusal writes none.
pub fn figures(file: &[u8], lent: &mut [i64]) -> Result<usize, Refusal> {
    let account = check(file)?;
    write(&account, &held_figures(&account), lent)
}

/// The delta book of a file for a question, "0..15 (that contract)" or 16, written as the figures are.
pub fn book(file: &[u8], question: u64, lent: &mut [i64]) -> Result<usize, Refusal> {
    let account = check(file)?;
    let book = held_book(&account, question)?;
    write(&account, &book.numbers(), lent)
}

/// Who paid for what in a delta book: for each step what each prompt gave, written as the figures are.
pub fn uses(file: &[u8], question: u64, lent: &mut [i64]) -> Result<usize, Refusal> {
    let account = check(file)?;
    let book = held_book(&account, question)?;
    write(&account, &book.uses(), lent)
}

/// The numbers of a held account's figures.
pub fn held_figures(account: &Account) -> Vec<i64> {
    let figures = margin::figures_of(account);
    let mut numbers: Vec<i64> = figures.iter().flat_map(|contract| contract.numbers()).collect();
    numbers.push(margin::total(&figures).0);
    numbers
}

/// The delta book of a held account, with what each prompt gave in every step.
pub fn held_book(account: &Account, question: u64) -> Result<book::Book, Refusal> {
    let unlisted = Refusal { number: UNLISTED_QUESTION, record: account.records };
    book::book_of(account, question).ok_or(unlisted)
}

/// "Success writes the answer at the front and nothing after it."
pub fn write(account: &Account, answer: &[i64], lent: &mut [i64]) -> Result<usize, Refusal> {
    if lent.len() < answer.len() {
        return Err(Refusal { number: TOO_FEW_LENT, record: account.records });
    }
    lent[..answer.len()].copy_from_slice(answer);
    Ok(answer.len())
}
