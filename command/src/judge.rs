//! A list of spreads put to the library, for one account or for the account joined of two files.

use crate::account::Book;
use crate::args::Judging;
use crate::ask::{unlisted, Answer};
use crate::failure::Failure;
use crate::input::Input;
use crate::list::{self, Sent};
use crate::{lines, noon};
use felgotany::refusals::rule;
use felgotany::{Pair, PairListOutcome, RIGHT};
use std::path::Path;

/// The account that a list is about: one file, or two.
struct Of {
    account: Input,
    noon: Option<Input>,
}

impl Of {
    fn load(account: &Path, noon: Option<&Path>) -> Result<Of, Failure> {
        let account = Input::load(account, false)?;
        match noon {
            Some(noon) => Ok(Of { account, noon: Some(Input::load(noon, true)?) }),
            None => Ok(Of { account: account.accepted()?, noon: None }),
        }
    }

    fn book(&self, question: usize) -> Result<Book, Failure> {
        let account = &self.account;
        match &self.noon {
            Some(late) => {
                let pair = Pair { morning: &account.file, noon: &late.file };
                Book::of_pair(pair, question).map_err(|outcome| noon::refusal(account, late, None, outcome))
            }
            None => Book::of_file(&account.file, question).map_err(|refused| unlisted(account, question, refused)),
        }
    }

    fn judge(&self, question: usize, sent: &Sent) -> PairListOutcome {
        match &self.noon {
            Some(late) => Pair { morning: &self.account.file, noon: &late.file }.judge(question, sent.list()),
            None => PairListOutcome { file: 0, list: felgotany::judge(&self.account.file, question, sent.list()) },
        }
    }
}

/// The list of spreads that the steps of an account form.
pub fn list(account: &Path, question: usize, judging: &Judging) -> Result<String, Failure> {
    let book = Of::load(account, judging.noon.as_deref())?.book(question)?;
    Ok(list::of_book(&book))
}

/// What is said of a list that others send; one that is not right ends with the status of a refusal.
pub fn judge(account: &Path, question: usize, sent: &Path, judging: &Judging) -> Result<Answer, Failure> {
    let of = Of::load(account, judging.noon.as_deref())?;
    let book = of.book(question)?;
    let sent = Sent::load(sent)?;
    let PairListOutcome { file, list } = of.judge(question, &sent);
    if list.refusal != 0 {
        let rule = rule(list.refusal).unwrap_or_default();
        let told = format!("{}: refusal {}, record {}: {rule}\n  {}", sent.name, list.refusal, list.record, sent.counts(&book));
        let pair = if of.noon.is_some() { format!("{file} ") } else { String::new() };
        return Err(Failure::refused(told, format!("R {pair}{} {}", list.refusal, list.record)));
    }
    let text = match judging.lines {
        true => lines::judged(list.verdict, list.step),
        false => sent.verdict(&book, list.verdict, list.step),
    };
    let failures = if list.verdict == RIGHT { vec![] } else { vec![Failure::refused(String::new(), String::new())] };
    Ok(Answer { text, failures })
}
