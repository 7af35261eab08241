//! The margin job written for speed: one walk checks the records and notes where their parts stand;
//! the answers are reckoned from these and written to lent memory as they come. Nothing is allocated.

mod check;
mod contract;
mod rates;
mod record;
mod steps;
mod table;

use check::{place_in, Notes, CONTRACTS};
use contract::{Book, Charges, Contract};
use independent::format::*;
use independent::refusal::*;
use record::{get, Record};
use table::{touches, used, Table};

/// The question for the intercontract table.
const TABLE: usize = CONTRACTS;
/// The numbers of a contract's figures.
const FIGURES: usize = 8;
pub const MOST_FIGURES: usize = FIGURES * CONTRACTS + 1;
pub const MOST_BOOK: usize = 3 * MOST_PROMPTS + 2 * MOST_SPREADS + 1;
/// The numbers of an account's refusal and record in a run.
pub const OUTCOME: usize = 2;
/// The books of all contracts and of the table.
pub const BOOKS: usize = CONTRACTS + 1;

pub fn check(file: &[u8]) -> Result<(), Refusal> {
    check::check(file, &mut Notes::default(), &mut ())?;
    Ok(())
}

/// The figures of a file, at the front of the numbers lent; gives how many were written.
pub fn figures(file: &[u8], lent: &mut [i64]) -> Result<usize, Refusal> {
    let (mut notes, mut places) = (Notes::default(), [0; MOST_RECORDS]);
    let records = check::check(file, &mut notes, &mut places)?;
    Held(File { records, notes: &notes, places: &places }).figures(lent)
}

/// The delta book of a question, written as the figures are.
pub fn book(file: &[u8], question: u64, lent: &mut [i64]) -> Result<usize, Refusal> {
    let (mut notes, mut places) = (Notes::default(), [0; MOST_RECORDS]);
    let records = check::check(file, &mut notes, &mut places)?;
    Held(File { records, notes: &notes, places: &places }).book(question, lent)
}

/// The figures, and the books of questions 0 to 16, each in the `MOST_BOOK` numbers that are its place.
pub fn all(file: &[u8], figures: &mut [i64], books: &mut [i64]) -> [Result<(), Refusal>; 2] {
    let (mut notes, mut places) = (Notes::default(), [0; MOST_RECORDS]);
    match check::check(file, &mut notes, &mut places) {
        Ok(records) => Held(File { records, notes: &notes, places: &places }).all(figures, books),
        Err(refusal) => [Err(refusal); 2],
    }
}

/// The figures of a morning and a noon file joined, written as those of a file are.
pub fn joined_figures(morning: &[u8], noon: &[u8], lent: &mut [i64]) -> Result<usize, PairRefusal> {
    joined(morning, noon, |held| held.figures(lent))
}

/// The delta book of a question of a morning and a noon file joined.
pub fn joined_book(
    morning: &[u8],
    noon: &[u8],
    question: u64,
    lent: &mut [i64],
) -> Result<usize, PairRefusal> {
    joined(morning, noon, |held| held.book(question, lent))
}

#[inline(always)]
fn joined<T>(
    morning: &[u8],
    noon: &[u8],
    ask: impl FnOnce(Held<Pair>) -> Result<T, Refusal>,
) -> Result<T, PairRefusal> {
    let (mut notes, mut places) = (Notes::default(), [0; MOST_RECORDS]);
    let records =
        check::records(morning, &mut notes, &mut places).map_err(|refusal| refusal.of(MORNING))?;
    let morning = File { records, notes: &notes, places: &places };
    let (mut notes, mut places) = (Notes::default(), [0; MOST_RECORDS]);
    let records =
        check::records(noon, &mut notes, &mut places).map_err(|refusal| refusal.of(NOON))?;
    let noon = File { records, notes: &notes, places: &places };
    let of_contracts = noon.records.partition_point(|record| record[0] <= SPREAD);
    if of_contracts < noon.records.len() {
        let record = of_contracts;
        return Err(PairRefusal { file: NOON, number: NOON_ENTRY, record });
    }
    let traded = noon.notes.listed();
    let replaced: usize =
        bits(morning.notes.listed() & traded).map(|number| morning.notes.records_of(number)).sum();
    let count = morning.records.len() - replaced + noon.records.len();
    if count > MOST_RECORDS {
        return Err(PairRefusal { file: JOINED, number: TOO_MANY_JOINED, record: count });
    }
    let pair = Pair { morning, noon, count };
    if pair.morning.notes.converts() || pair.noon.notes.converts() {
        pair.conversions().map_err(|refusal| refusal.of(JOINED))?;
    }
    ask(Held(pair)).map_err(|refusal| refusal.of(JOINED))
}

/// A run of accounts, one behind the other: the figures of each in the `MOST_FIGURES` numbers that are its
/// place, its refusal and record in the `OUTCOME` that are its place, both 0 if it is accepted.
pub fn run(
    accounts: &[u8],
    lengths: &[usize],
    figures: &mut [i64],
    outcomes: &mut [usize],
) -> Result<(), Refusal> {
    let sum = lengths.iter().try_fold(0, |sum: usize, length| sum.checked_add(*length));
    if sum != Some(accounts.len()) {
        return Err(Refusal { number: LENGTHS_DIFFER, record: 0 });
    }
    let (figures, _) = figures.as_chunks_mut::<MOST_FIGURES>();
    let (outcomes, _) = outcomes.as_chunks_mut::<OUTCOME>();
    if figures.len() < lengths.len() || outcomes.len() < lengths.len() {
        return Err(Refusal { number: TOO_FEW_LENT, record: 0 });
    }
    let (mut places, mut left) = ([0; MOST_RECORDS], accounts);
    for ((&length, figures), outcome) in lengths.iter().zip(figures).zip(outcomes) {
        let (file, after) = left.split_at(length);
        left = after;
        let mut notes = Notes::default();
        let answer = check::check(file, &mut notes, &mut places).and_then(|records| {
            Held(File { records, notes: &notes, places: &places }).figures(figures)
        });
        *outcome =
            answer.map_or_else(|refusal| [refusal.number.into(), refusal.record], |_| [0; 2]);
    }
    Ok(())
}

/// Where the parts of an account stand.
trait Supplies {
    /// A bit for each contract number listed.
    fn listed(&self) -> u32;
    fn count(&self) -> usize;
    fn contract(&self, number: usize) -> Contract<'_>;
    fn entries(&self) -> &[Record];

    fn contracts(&self) -> usize {
        self.listed().count_ones() as usize
    }
}

/// An accepted file with what the check noted.
struct File<'a> {
    records: &'a [Record],
    notes: &'a Notes,
    places: &'a [u8; MOST_RECORDS],
}

impl Supplies for File<'_> {
    #[inline(always)]
    fn listed(&self) -> u32 {
        self.notes.listed()
    }

    fn count(&self) -> usize {
        self.records.len()
    }

    #[inline(always)]
    fn contract(&self, number: usize) -> Contract<'_> {
        let rows = self.notes.rows[number].range();
        Contract {
            own: &self.records[self.notes.place(number)],
            prompts: &self.records[self.notes.prompts[number].range()],
            rows: &self.records[rows.clone()],
            places: &self.places[rows],
            spreads: &self.records[self.notes.spreads[number].range()],
            rates: &self.notes.rates,
        }
    }

    fn entries(&self) -> &[Record] {
        &self.records[self.notes.entries.range()]
    }
}

/// A morning and a noon file: a contract is noon's where noon lists it.
struct Pair<'a> {
    morning: File<'a>,
    noon: File<'a>,
    count: usize,
}

impl Pair<'_> {
    /// 14 and 15 of the joined rows, which stand behind all contracts and prompts.
    #[cold]
    fn conversions(&self) -> Result<(), Refusal> {
        let contracts: Vec<Contract> =
            bits(self.listed()).map(|number| self.contract(number)).collect();
        let prompts: usize = contracts.iter().map(|contract| contract.prompts.len()).sum();
        let rows = contracts.iter().flat_map(|contract| contract.rows);
        check::conversions((contracts.len() + prompts..).zip(rows), &self.morning.notes.rates)
    }
}

impl Supplies for Pair<'_> {
    #[inline(always)]
    fn listed(&self) -> u32 {
        self.morning.listed() | self.noon.listed()
    }

    fn count(&self) -> usize {
        self.count
    }

    #[inline(always)]
    fn contract(&self, number: usize) -> Contract<'_> {
        let file = if self.noon.notes.lists(number) { &self.noon } else { &self.morning };
        Contract { rates: &self.morning.notes.rates, ..file.contract(number) }
    }

    fn entries(&self) -> &[Record] {
        self.morning.entries()
    }
}

/// The places of the bits that are set, from the lowest up.
#[inline(always)]
fn bits(mut set: u32) -> impl Iterator<Item = usize> {
    std::iter::from_fn(move || {
        let lowest = set.trailing_zeros() as usize;
        (set != 0).then(|| {
            set &= set - 1;
            lowest
        })
    })
}

/// An accepted account, to be asked.
struct Held<S>(S);

impl<S: Supplies> Held<S> {
    fn figures(&self, lent: &mut [i64]) -> Result<usize, Refusal> {
        let needed = FIGURES * self.0.contracts() + 1;
        let lent = self.enough(lent, needed)?;
        let charges = |_, contract: &Contract| {
            let mut charges = Charges::of(contract);
            (contract.run(&mut charges), charges)
        };
        self.write_figures(lent, charges, |_, _| ());
        Ok(needed)
    }

    fn book(&self, question: u64, lent: &mut [i64]) -> Result<usize, Refusal> {
        let question = usize::try_from(question).unwrap_or(usize::MAX);
        if question == TABLE {
            return self.table_book(lent);
        }
        if question > TABLE || self.0.listed() >> question & 1 == 0 {
            return Err(self.refusal(UNLISTED_QUESTION));
        }
        let contract = self.0.contract(question);
        let (prompts, spreads) = (contract.prompts.len(), contract.spreads.len());
        let needed = 3 * prompts + 2 * spreads + 1;
        let lent = self.enough(lent, needed)?;
        contract.run(&mut Book::at(lent, prompts, spreads));
        Ok(needed)
    }

    fn table_book(&self, lent: &mut [i64]) -> Result<usize, Refusal> {
        let entries = self.0.entries();
        let needed = 3 * self.0.contracts() + 2 * entries.len() + 1;
        let lent = self.enough(lent, needed)?;
        let book = Book::at(lent, self.0.contracts(), entries.len());
        let mut table = Table::new();
        for (number, contract) in self.contracts() {
            table.add(number, contract.net(), contract.unit());
        }
        *book.touches = 0;
        for (numbers, entry) in book.spreads.iter_mut().zip(entries) {
            *numbers = table.steps(entry);
            *book.touches += touches(entry, *numbers);
        }
        self.write_left(&table, book.prompts);
        Ok(needed)
    }

    fn all(&self, figures: &mut [i64], books: &mut [i64]) -> [Result<(), Refusal>; 2] {
        if books.len() < BOOKS * MOST_BOOK {
            return [self.figures(figures).map(|_| ()), Err(self.refusal(TOO_FEW_LENT))];
        }
        let (books, _) = books.as_chunks_mut::<MOST_BOOK>();
        let (of_contracts, of_table) = books.split_at_mut(TABLE);
        let entries = self.0.entries().len();
        let book = Book::at(&mut of_table[0], self.0.contracts(), entries);
        let charges = |number: usize, contract: &Contract| {
            let (prompts, spreads) = (contract.prompts.len(), contract.spreads.len());
            let place = Book::at(&mut of_contracts[number], prompts, spreads);
            let mut takes = (Charges::of(contract), place);
            (contract.run(&mut takes), takes.0)
        };
        *book.touches = 0;
        let table_entries = self.0.entries();
        let steps = |place: usize, numbers| {
            book.spreads[place] = numbers;
            *book.touches += touches(&table_entries[place], numbers);
        };
        let needed = FIGURES * self.0.contracts() + 1;
        let (table, answer) = match self.enough(figures, needed) {
            Ok(lent) => (self.write_figures(lent, charges, steps), Ok(())),
            Err(refusal) => {
                (self.write_figures(&mut [0; MOST_FIGURES], charges, steps), Err(refusal))
            }
        };
        self.write_left(&table, book.prompts);
        [answer, Ok(())]
    }

    /// Writes the figures to numbers that are enough. `charges` gives a contract's net delta and its
    /// charges; `steps` is handed the numbers of each entry.
    #[inline(always)]
    fn write_figures(
        &self,
        lent: &mut [i64],
        mut charges: impl FnMut(usize, &Contract) -> (i64, Charges),
        mut steps: impl FnMut(usize, [i64; 2]),
    ) -> Table {
        let listed = self.0.listed();
        let (lines, total) = lent.split_at_mut(FIGURES * self.0.contracts());
        let (lines, _) = lines.as_chunks_mut::<FIGURES>();
        let mut table = Table::new();
        for (line, (number, contract)) in lines.iter_mut().zip(self.contracts()) {
            let risks = contract.risks();
            let (net, charges) = charges(number, &contract);
            table.add(number, net, contract.unit());
            // twice the price risk stands in the margin's place until the credits are known
            *line = [
                number as i64,
                risks.active,
                risks.scanning,
                charges.interprompt,
                charges.prompt,
                0,
                risks.minimum,
                risks.twice_price,
            ];
        }
        for (place, entry) in self.0.entries().iter().enumerate() {
            let numbers = table.steps(entry);
            steps(place, numbers);
            if numbers != [0, 0] {
                for (number, ratio) in [(NUMBER, FIRST_RATIO), (SECOND_NUMBER, SECOND_RATIO)] {
                    let contract = get(entry, number) as usize;
                    let used = used(entry, numbers, ratio);
                    let [.., credit, _, twice_price] = &mut lines[place_in(listed, contract)];
                    *credit += table.credit(contract, *twice_price, used, get(entry, PERCENT));
                }
            }
        }
        total[0] = 0;
        for [_, _, scanning, interprompt, prompt, credit, minimum, margin] in lines {
            *margin = (*scanning + *interprompt + *prompt - *credit).max(*minimum);
            total[0] += *margin;
        }
        table
    }

    fn write_left(&self, table: &Table, lines: &mut [[i64; 3]]) {
        for (line, number) in lines.iter_mut().zip(bits(self.0.listed())) {
            let (net, left) = table.left(number);
            *line = [net, net - left, left];
        }
    }

    fn contracts(&self) -> impl Iterator<Item = (usize, Contract<'_>)> {
        bits(self.0.listed()).map(|number| (number, self.0.contract(number)))
    }

    fn enough<'b>(&self, lent: &'b mut [i64], needed: usize) -> Result<&'b mut [i64], Refusal> {
        lent.get_mut(..needed).ok_or(self.refusal(TOO_FEW_LENT))
    }

    fn refusal(&self, number: u8) -> Refusal {
        Refusal { number, record: self.0.count() }
    }
}
