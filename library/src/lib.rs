//! The proved library for Rust: the calls of include/felgotany.h, with a slice for each pointer and its length, so that every
//! call is safe. The header says what each call answers, and what is refused.

pub mod refusals;

/// The most numbers of the figures, of a delta book, and of who paid in one.
pub const MOST_FIGURES: usize = 129;
pub const MOST_BOOK: usize = 161;
pub const MOST_USES: usize = 2048;

/// The most accounts of a run for the risk committee, and the numbers of its figures.
pub const COMMITTEE_ACCOUNTS: usize = 100;
pub const COMMITTEE_NUMBERS: usize = 24;

/// The question for the book of the intercontract table.
pub const TABLE: usize = 16;

/// How many questions there are: the sixteen contracts and the table.
pub const QUESTIONS: usize = TABLE + 1;

/// The files of a pair, as outcomes and places name them.
pub const JOINED: usize = 0;
pub const MORNING: usize = 1;
pub const NOON: usize = 2;

/// A refusal's number, 0 where nothing is refused, and the record that it names.
#[repr(C)]
#[derive(Clone, Copy, Debug, PartialEq, Eq)]
pub struct Outcome {
    pub refusal: usize,
    pub record: usize,
}

/// The outcomes of the figures, of the books and of the uses, asked of a file that is checked once.
#[repr(C)]
#[derive(Clone, Copy, Debug, PartialEq, Eq)]
pub struct Outcomes {
    pub figures: Outcome,
    pub books: Outcome,
    pub uses: Outcome,
}

/// The outcome for a morning and a noon file, and the file that it is about: 0 joined, 1 the morning's, 2 noon's.
#[repr(C)]
#[derive(Clone, Copy, Debug, PartialEq, Eq)]
pub struct PairOutcome {
    pub file: usize,
    pub refusal: usize,
    pub record: usize,
}

/// The outcomes of the figures, of the books and of the uses, asked of a morning and a noon file that are checked once.
#[repr(C)]
#[derive(Clone, Copy, Debug, PartialEq, Eq)]
pub struct PairOutcomes {
    pub figures: PairOutcome,
    pub books: PairOutcome,
    pub uses: PairOutcome,
}

/// The call on a morning and a noon file, 0 where they are refused.
#[repr(C)]
#[derive(Clone, Copy, Debug, PartialEq, Eq)]
pub struct CallOutcome {
    pub outcome: PairOutcome,
    pub call: u64,
}

/// Where the prompts of a contract stand in the morning or in the noon file; file 0 where in neither.
#[repr(C)]
#[derive(Clone, Copy, Debug, PartialEq, Eq)]
pub struct PromptPlace {
    pub file: usize,
    pub first: usize,
    pub records: usize,
}

/// What is said of a list of spreads, as the header numbers it.
pub const NOT_JUDGED: usize = 0;
pub const RIGHT: usize = 1;
pub const MORE_THAN_FORMED: usize = 2;
pub const LESS_THAN_FORMED: usize = 3;
pub const WRONG_USE: usize = 4;

/// A list of spreads that others send: how many prompts it speaks of, the number of each step, and what each step used of each
/// prompt, one step after the other.
#[derive(Clone, Copy, Debug)]
pub struct List<'a> {
    pub prompts: usize,
    pub numbers: &'a [i64],
    pub uses: &'a [i64],
}

/// The refusal of a list and its record, both 0 where it is judged; what is said of it, and the step that is wrong first.
#[repr(C)]
#[derive(Clone, Copy, Debug, PartialEq, Eq)]
pub struct ListOutcome {
    pub refusal: usize,
    pub record: usize,
    pub verdict: usize,
    pub step: usize,
}

/// The same for a morning and a noon file, and the file that a refusal is about.
#[repr(C)]
#[derive(Clone, Copy, Debug, PartialEq, Eq)]
pub struct PairListOutcome {
    pub file: usize,
    pub list: ListOutcome,
}

/// What is said of a ticket that is to be added: the refusal and its record, both 0 where it is added; and how many of the lent bytes hold the
/// account file then, 0 where it is refused.
#[repr(C)]
#[derive(Clone, Copy, Debug, PartialEq, Eq)]
pub struct AddOutcome {
    pub refusal: usize,
    pub record: usize,
    pub named: usize,
}

/// The refusal and its record, both 0 where there is none; and the total in hundredths, 0 where there is one.
#[repr(C)]
#[derive(Clone, Copy, Debug, PartialEq, Eq)]
pub struct TotalOutcome {
    pub refusal: usize,
    pub record: usize,
    pub total: u64,
}

/// What is answered to the question about a limit.
pub const NOT_ASKED: usize = 0;
pub const WITHIN_LIMIT: usize = 1;
pub const ABOVE_LIMIT: usize = 2;

/// The refusal and its record, both 0 where the question is answered; the answer; and the total with the ticket in hundredths, 0 where it is
/// refused.
#[repr(C)]
#[derive(Clone, Copy, Debug, PartialEq, Eq)]
pub struct LimitOutcome {
    pub refusal: usize,
    pub record: usize,
    pub answer: usize,
    pub total: u64,
}

/// What a ticket or a withdrawal is told: the ticket that is refused or asked about, from 1, 0 where it is the file; the refusal, 0 where
/// nothing is refused, and the record that it names; and the total of the margins before and after, both 0 where something is refused.
#[repr(C)]
#[derive(Clone, Copy, Debug, PartialEq, Eq)]
pub struct Ticketed {
    pub ticket: usize,
    pub refusal: usize,
    pub record: usize,
    pub before: u64,
    pub after: u64,
}

/// Of entries that are written: the refusal, 0 where the file is written, the place of the entry at fault as entered, and how many
/// bytes are written.
#[repr(C)]
#[derive(Clone, Copy, Debug, PartialEq, Eq)]
pub struct WriteOutcome {
    pub refusal: usize,
    pub entry: usize,
    pub written: usize,
}

/// A morning and a noon file.
#[derive(Clone, Copy)]
pub struct Pair<'a> {
    pub morning: &'a [u8],
    pub noon: &'a [u8],
}

extern "C" {
    fn felgotany_check(file: *const u8, bytes: usize) -> Outcome;
    fn felgotany_figures_needed(file: *const u8, bytes: usize) -> usize;
    fn felgotany_figures(file: *const u8, bytes: usize, out: *mut i64, numbers: usize) -> Outcome;
    fn felgotany_book_needed(file: *const u8, bytes: usize, question: usize) -> usize;
    fn felgotany_book(file: *const u8, bytes: usize, question: usize, out: *mut i64, numbers: usize) -> Outcome;
    fn felgotany_uses_needed(file: *const u8, bytes: usize, question: usize) -> usize;
    fn felgotany_uses(file: *const u8, bytes: usize, question: usize, out: *mut i64, numbers: usize) -> Outcome;
    fn felgotany_all(
        file: *const u8,
        bytes: usize,
        figures: *mut i64,
        numbers: usize,
        books: *mut i64,
        book_numbers: usize,
        uses: *mut i64,
        use_numbers: usize,
    ) -> Outcomes;
    fn felgotany_joined_figures(
        morning: *const u8,
        morning_bytes: usize,
        noon: *const u8,
        noon_bytes: usize,
        out: *mut i64,
        numbers: usize,
    ) -> PairOutcome;
    fn felgotany_joined_book(
        morning: *const u8,
        morning_bytes: usize,
        noon: *const u8,
        noon_bytes: usize,
        question: usize,
        out: *mut i64,
        numbers: usize,
    ) -> PairOutcome;
    fn felgotany_joined_uses(
        morning: *const u8,
        morning_bytes: usize,
        noon: *const u8,
        noon_bytes: usize,
        question: usize,
        out: *mut i64,
        numbers: usize,
    ) -> PairOutcome;
    fn felgotany_joined_figures_needed(morning: *const u8, morning_bytes: usize, noon: *const u8, noon_bytes: usize) -> usize;
    fn felgotany_joined_book_needed(
        morning: *const u8,
        morning_bytes: usize,
        noon: *const u8,
        noon_bytes: usize,
        question: usize,
    ) -> usize;
    fn felgotany_joined_uses_needed(
        morning: *const u8,
        morning_bytes: usize,
        noon: *const u8,
        noon_bytes: usize,
        question: usize,
    ) -> usize;
    fn felgotany_joined_all(
        morning: *const u8,
        morning_bytes: usize,
        noon: *const u8,
        noon_bytes: usize,
        figures: *mut i64,
        numbers: usize,
        books: *mut i64,
        book_numbers: usize,
        uses: *mut i64,
        use_numbers: usize,
    ) -> PairOutcomes;
    fn felgotany_joined_prompts(
        morning: *const u8,
        morning_bytes: usize,
        noon: *const u8,
        noon_bytes: usize,
        contract: usize,
    ) -> PromptPlace;
    fn felgotany_call(
        morning: *const u8,
        morning_bytes: usize,
        noon: *const u8,
        noon_bytes: usize,
        last: i64,
        threshold: i64,
        collateral: i64,
    ) -> CallOutcome;
    fn felgotany_run(
        accounts: *const u8,
        bytes: usize,
        lengths: *const usize,
        count: usize,
        figures: *mut i64,
        numbers: usize,
        outcomes: *mut usize,
        outcome_numbers: usize,
    ) -> Outcome;
    fn felgotany_committee(
        accounts: *const u8,
        bytes: usize,
        lengths: *const usize,
        count: usize,
        out: *mut i64,
        numbers: usize,
    ) -> Outcome;
    fn felgotany_write(entries: *const u8, entry_bytes: usize, out: *mut u8, bytes: usize) -> WriteOutcome;
    fn felgotany_ticket(
        file: *const u8,
        bytes: usize,
        tickets: *const u8,
        ticket_bytes: usize,
        ticket: *const u8,
        bytes_of_ticket: usize,
    ) -> Ticketed;
    fn felgotany_withdraw(file: *const u8, bytes: usize, tickets: *const u8, ticket_bytes: usize) -> Ticketed;
    fn felgotany_judge(
        file: *const u8,
        bytes: usize,
        question: usize,
        prompts: usize,
        numbers: *const i64,
        number_count: usize,
        uses: *const i64,
        use_count: usize,
    ) -> ListOutcome;
    fn felgotany_screen_load(lent: *const u8, bytes: usize, named: usize) -> Outcome;
    fn felgotany_screen_add(lent: *mut u8, bytes: usize, named: usize, ticket: *const u8, ticket_bytes: usize) -> AddOutcome;
    fn felgotany_screen_total(lent: *const u8, bytes: usize, named: usize) -> TotalOutcome;
    fn felgotany_screen_limit(
        lent: *const u8,
        bytes: usize,
        named: usize,
        ticket: *const u8,
        ticket_bytes: usize,
        limit: i64,
    ) -> LimitOutcome;
    fn felgotany_joined_judge(
        morning: *const u8,
        morning_bytes: usize,
        noon: *const u8,
        noon_bytes: usize,
        question: usize,
        prompts: usize,
        numbers: *const i64,
        number_count: usize,
        uses: *const i64,
        use_count: usize,
    ) -> PairListOutcome;
}

pub fn check(file: &[u8]) -> Outcome {
    unsafe { felgotany_check(file.as_ptr(), file.len()) }
}

pub fn figures_needed(file: &[u8]) -> usize {
    unsafe { felgotany_figures_needed(file.as_ptr(), file.len()) }
}

pub fn figures(file: &[u8], lent: &mut [i64]) -> Outcome {
    unsafe { felgotany_figures(file.as_ptr(), file.len(), lent.as_mut_ptr(), lent.len()) }
}

pub fn book_needed(file: &[u8], question: usize) -> usize {
    unsafe { felgotany_book_needed(file.as_ptr(), file.len(), question) }
}

pub fn book(file: &[u8], question: usize, lent: &mut [i64]) -> Outcome {
    unsafe { felgotany_book(file.as_ptr(), file.len(), question, lent.as_mut_ptr(), lent.len()) }
}

pub fn uses_needed(file: &[u8], question: usize) -> usize {
    unsafe { felgotany_uses_needed(file.as_ptr(), file.len(), question) }
}

pub fn uses(file: &[u8], question: usize, lent: &mut [i64]) -> Outcome {
    unsafe { felgotany_uses(file.as_ptr(), file.len(), question, lent.as_mut_ptr(), lent.len()) }
}

pub fn all(file: &[u8], figures: &mut [i64], books: &mut [i64], uses: &mut [i64]) -> Outcomes {
    unsafe {
        felgotany_all(
            file.as_ptr(),
            file.len(),
            figures.as_mut_ptr(),
            figures.len(),
            books.as_mut_ptr(),
            books.len(),
            uses.as_mut_ptr(),
            uses.len(),
        )
    }
}

/// A run of accounts: its outcome; the figures of each account stand in its place, and so do its refusal and record.
pub fn run(accounts: &[u8], lengths: &[usize], figures: &mut [i64], outcomes: &mut [usize]) -> Outcome {
    unsafe {
        felgotany_run(
            accounts.as_ptr(),
            accounts.len(),
            lengths.as_ptr(),
            lengths.len(),
            figures.as_mut_ptr(),
            figures.len(),
            outcomes.as_mut_ptr(),
            outcomes.len(),
        )
    }
}

pub fn committee(accounts: &[u8], lengths: &[usize], lent: &mut [i64]) -> Outcome {
    unsafe {
        felgotany_committee(accounts.as_ptr(), accounts.len(), lengths.as_ptr(), lengths.len(), lent.as_mut_ptr(), lent.len())
    }
}

/// The account file of entries in any order, at the front of what is lent.
pub fn write(entries: &[u8], lent: &mut [u8]) -> WriteOutcome {
    unsafe { felgotany_write(entries.as_ptr(), entries.len(), lent.as_mut_ptr(), lent.len()) }
}

/// What one more ticket does to an account with the tickets put in so far.
pub fn ticket(file: &[u8], tickets: &[u8], ticket: &[u8]) -> Ticketed {
    unsafe {
        felgotany_ticket(file.as_ptr(), file.len(), tickets.as_ptr(), tickets.len(), ticket.as_ptr(), ticket.len())
    }
}

/// What it does to take the latest ticket back.
pub fn withdraw(file: &[u8], tickets: &[u8]) -> Ticketed {
    unsafe { felgotany_withdraw(file.as_ptr(), file.len(), tickets.as_ptr(), tickets.len()) }
}

/// What is said of a list of spreads that is sent for a question.
pub fn judge(file: &[u8], question: usize, List { prompts, numbers, uses }: List) -> ListOutcome {
    unsafe {
        felgotany_judge(file.as_ptr(), file.len(), question, prompts, numbers.as_ptr(), numbers.len(), uses.as_ptr(), uses.len())
    }
}

/// Whether the first `named` of the bytes that an order screen lends are an accepted account file.
pub fn screen_load(lent: &[u8], named: usize) -> Outcome {
    unsafe { felgotany_screen_load(lent.as_ptr(), lent.len(), named) }
}

/// Adds a ticket to the account that the lent bytes hold, last among its contract's rows.
pub fn screen_add(lent: &mut [u8], named: usize, ticket: &[u8]) -> AddOutcome {
    unsafe { felgotany_screen_add(lent.as_mut_ptr(), lent.len(), named, ticket.as_ptr(), ticket.len()) }
}

/// The total of the account that the lent bytes hold.
pub fn screen_total(lent: &[u8], named: usize) -> TotalOutcome {
    unsafe { felgotany_screen_total(lent.as_ptr(), lent.len(), named) }
}

/// Whether the total with a ticket stays at or below a limit.
pub fn screen_limit(lent: &[u8], named: usize, ticket: &[u8], limit: i64) -> LimitOutcome {
    unsafe { felgotany_screen_limit(lent.as_ptr(), lent.len(), named, ticket.as_ptr(), ticket.len(), limit) }
}

impl Pair<'_> {
    pub fn judge(self, question: usize, List { prompts, numbers, uses }: List) -> PairListOutcome {
        let Pair { morning, noon } = self;
        unsafe {
            felgotany_joined_judge(
                morning.as_ptr(),
                morning.len(),
                noon.as_ptr(),
                noon.len(),
                question,
                prompts,
                numbers.as_ptr(),
                numbers.len(),
                uses.as_ptr(),
                uses.len(),
            )
        }
    }

    pub fn figures(self, lent: &mut [i64]) -> PairOutcome {
        let Pair { morning, noon } = self;
        unsafe {
            felgotany_joined_figures(morning.as_ptr(), morning.len(), noon.as_ptr(), noon.len(), lent.as_mut_ptr(), lent.len())
        }
    }

    pub fn book(self, question: usize, lent: &mut [i64]) -> PairOutcome {
        let Pair { morning, noon } = self;
        unsafe {
            felgotany_joined_book(
                morning.as_ptr(),
                morning.len(),
                noon.as_ptr(),
                noon.len(),
                question,
                lent.as_mut_ptr(),
                lent.len(),
            )
        }
    }

    pub fn uses(self, question: usize, lent: &mut [i64]) -> PairOutcome {
        let Pair { morning, noon } = self;
        unsafe {
            felgotany_joined_uses(
                morning.as_ptr(),
                morning.len(),
                noon.as_ptr(),
                noon.len(),
                question,
                lent.as_mut_ptr(),
                lent.len(),
            )
        }
    }

    pub fn figures_needed(self) -> usize {
        let Pair { morning, noon } = self;
        unsafe { felgotany_joined_figures_needed(morning.as_ptr(), morning.len(), noon.as_ptr(), noon.len()) }
    }

    pub fn book_needed(self, question: usize) -> usize {
        let Pair { morning, noon } = self;
        unsafe { felgotany_joined_book_needed(morning.as_ptr(), morning.len(), noon.as_ptr(), noon.len(), question) }
    }

    pub fn uses_needed(self, question: usize) -> usize {
        let Pair { morning, noon } = self;
        unsafe { felgotany_joined_uses_needed(morning.as_ptr(), morning.len(), noon.as_ptr(), noon.len(), question) }
    }

    pub fn all(self, figures: &mut [i64], books: &mut [i64], uses: &mut [i64]) -> PairOutcomes {
        let Pair { morning, noon } = self;
        unsafe {
            felgotany_joined_all(
                morning.as_ptr(),
                morning.len(),
                noon.as_ptr(),
                noon.len(),
                figures.as_mut_ptr(),
                figures.len(),
                books.as_mut_ptr(),
                books.len(),
                uses.as_mut_ptr(),
                uses.len(),
            )
        }
    }

    pub fn prompts(self, contract: usize) -> PromptPlace {
        let Pair { morning, noon } = self;
        unsafe { felgotany_joined_prompts(morning.as_ptr(), morning.len(), noon.as_ptr(), noon.len(), contract) }
    }

    pub fn call(self, last: i64, threshold: i64, collateral: i64) -> CallOutcome {
        let Pair { morning, noon } = self;
        unsafe { felgotany_call(morning.as_ptr(), morning.len(), noon.as_ptr(), noon.len(), last, threshold, collateral) }
    }
}
