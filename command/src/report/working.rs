//! The working behind the figures. The figures, the delta books and who paid are the proved library's; the sixteen totals, the
//! price risk and the single charges and credits are worked out here from the same records, and must add up to what is proved.

use super::books::money_in;
use crate::account::{adjusted, of_kind, records_of, Account, Book, Contract, Leg, Prompt};
use independent::currency::Rate;
use independent::format::*;

/// "Paired scenarios (000), for 1 to 16."
const PAIRED: [usize; SCENARIOS] = [2, 1, 4, 3, 6, 5, 8, 7, 10, 9, 12, 11, 14, 13, 15, 16];

/// Ten-thousandths in a lot and in a spread.
const ONE: i128 = 10_000;

/// Something worked out here that is not what the library proves.
#[derive(Debug, PartialEq, Eq)]
pub struct Differs {
    pub what: String,
    pub worked_out: i128,
    pub proved: i128,
}

/// The working of an account, contract by contract in file order.
pub struct Working {
    pub contracts: Vec<OfContract>,
    pub rows: usize,
}

pub struct OfContract {
    pub number: i64,
    /// In hundredths.
    pub unit: i64,
    pub rows: Vec<Row>,
    pub totals: [i64; SCENARIOS],
    pub active: usize,
    pub paired: usize,
    /// Twice the price risk in hundredths, so that its halves are kept.
    pub twice_price_risk: i64,
    /// The sum of the prompts' net deltas.
    pub net: i64,
    /// In ten-thousandths of the currency for a lot; none where the net delta is 0.
    pub unit_price_risk: Option<i128>,
    pub spread_charges: Vec<i64>,
    pub prompt_charges: Vec<PromptCharge>,
    pub credits: Vec<Credit>,
    pub short_lots: i64,
    pub short_option_rate: i64,
    /// Scanning risk and charges less credits, not below 0.
    pub risk: i64,
}

/// A row by its place among its contract's, from 1; loss and amount are those of the active scenario.
pub struct Row {
    pub place: usize,
    pub class: i64,
    pub day: i64,
    pub strike: i64,
    pub lots: i64,
    pub delta: i64,
    pub value: i64,
    pub loss: i64,
    pub currency: i64,
    /// In its own currency.
    pub own: i64,
    /// What it is converted at, in hundred-millionths; none in the margin currency.
    pub rate: Option<i64>,
    pub amount: i64,
}

impl Row {
    pub fn net(&self) -> i64 {
        self.lots * self.delta
    }
}

pub struct PromptCharge {
    pub rate_in_spreads: i64,
    pub rate_outright: i64,
    pub charge: i64,
}

/// A contract's credit from one intercontract spread.
pub struct Credit {
    pub spread: usize,
    pub with: i64,
    pub percent: i64,
    pub used: i64,
    pub credit: i64,
}

/// How the products of a contract's rows become amounts: by the account's rates and the contract's unit.
struct Money<'a> {
    rates: &'a [Rate],
    unit: i64,
}

impl Money<'_> {
    /// A row's loss in a scenario in its own currency: "lots × value × loss".
    fn own(&self, row: Record, scenario: usize) -> i64 {
        row.get(LOTS) * row.get(VALUE) * row.get(loss(scenario))
    }

    /// What a row's loss or gain is converted at: "currency 0 is not converted".
    fn rate(&self, row: Record, own: i64) -> Option<i64> {
        let of = self.rates.iter().find(|rate| rate.currency == row.get(CURRENCY));
        of.filter(|_| row.get(CURRENCY) != MARGIN_CURRENCY).map(|rate| adjusted(rate, own > 0))
    }

    /// A row's loss in a scenario as it counts: converted, "rounded to a hundredth, halves away from zero", then to the unit likewise.
    fn product(&self, row: Record, scenario: usize) -> i64 {
        let own = self.own(row, scenario);
        let hundredths = match self.rate(row, own) {
            Some(rate) => halves_up(i128::from(own.abs()) * i128::from(rate), 100_000_000),
            None => own.abs().into(),
        };
        own.signum() * rounded(hundredths, 1, self.unit)
    }
}

/// A charge or a credit, from its exact value in one rounding to the contract's unit, "halves up".
fn rounded(dividend: i128, divisor: i128, unit: i64) -> i64 {
    let unit = i128::from(unit);
    i64::try_from(halves_up(dividend, divisor * unit) * unit).expect("a charge or a credit fits in 64 bits")
}

fn halves_up(dividend: i128, divisor: i128) -> i128 {
    (2 * dividend + divisor) / (2 * divisor)
}

fn equal(what: impl FnOnce() -> String, worked_out: impl Into<i128>, proved: impl Into<i128>) -> Result<(), Differs> {
    let (worked_out, proved) = (worked_out.into(), proved.into());
    match worked_out == proved {
        true => Ok(()),
        false => Err(Differs { what: what(), worked_out, proved }),
    }
}

impl Working {
    pub fn of(records: &[Record], account: &Account) -> Result<Working, Differs> {
        let contracts: Vec<OfContract> =
            account.contracts.iter().map(|contract| OfContract::of(records, contract, account)).collect::<Result<_, _>>()?;
        let rows: usize = contracts.iter().map(|contract| contract.rows.len()).sum();
        equal(|| "rows counted".to_string(), rows as i128, of_kind(records, ROW).count() as i128)?;
        let margins: i128 = account.contracts.iter().map(|contract| i128::from(contract.figures[7])).sum();
        equal(|| "total".to_string(), margins, account.total)?;
        account.table.as_ref().map_or(Ok(()), paid_for)?;
        Ok(Working { contracts, rows })
    }
}

impl OfContract {
    fn of(records: &[Record], contract: &Contract, account: &Account) -> Result<OfContract, Differs> {
        let table = account.table.as_ref();
        let number = contract.figures[0];
        let of = |kind: u8| records_of(records, kind, number as usize);
        let row_records = of(ROW);
        let unit = contract.unit;
        let money = Money { rates: &account.rates, unit };
        let totals = totals(&row_records, &money);
        let active = active_scenario(&totals);
        let paired = PAIRED[active - 1];
        let twice_price_risk = (totals[active - 1] + totals[paired - 1] - totals[0] - totals[1]).max(0);
        let net: i64 = contract.book.prompts.iter().map(|prompt| prompt.net).sum();
        let unit_price_risk = unit_price_risk(twice_price_risk, net);
        let rows = (1..).zip(&row_records).map(|(place, record)| row(place, *record, active, &money)).collect();
        let short_option_rate = of(CONTRACT).first().map_or(0, |record| record.get(SHORT_OPTION_RATE));
        let mut working = OfContract {
            number,
            unit,
            rows,
            totals,
            active,
            paired,
            twice_price_risk,
            net,
            unit_price_risk,
            spread_charges: spread_charges(&contract.book, unit),
            prompt_charges: prompt_charges(&of(PROMPT), &contract.book, unit),
            credits: table.map_or(vec![], |table| credits(number, table, unit_price_risk, unit)),
            short_lots: 0,
            short_option_rate,
            risk: 0,
        };
        working.short_lots = working.rows.iter().filter(|row| row.class != FORWARD).map(|row| (-row.lots).max(0)).sum();
        let [_, _, scanning, interprompt, prompt, credit, _, _] = contract.figures;
        working.risk = (scanning + interprompt + prompt - credit).max(0);
        working.adds_up(contract, table)?;
        Ok(working)
    }

    /// An amount of this contract, for a column of amounts.
    pub fn money(&self, hundredths: i64) -> String {
        money_in(self.unit, hundredths)
    }

    /// The same in a sentence.
    pub fn said(&self, hundredths: i64) -> String {
        self.money(hundredths).trim_end().to_string()
    }

    /// What is worked out against what is proved.
    fn adds_up(&self, contract: &Contract, table: Option<&Book>) -> Result<(), Differs> {
        let [_, active, scanning, interprompt, prompt, credit, minimum, margin] = contract.figures;
        let what = |figure: &'static str| move || format!("contract {}, {figure}", self.number);
        equal(what("active scenario"), self.active as i128, active)?;
        equal(what("scanning risk"), self.totals[self.active - 1].max(0), scanning)?;
        let amounts: i128 = self.rows.iter().map(|row| i128::from(row.amount)).sum();
        equal(what("amounts of the rows"), amounts, self.totals[self.active - 1])?;
        equal(what("interprompt charge"), sum(self.spread_charges.iter().copied()), interprompt)?;
        equal(what("prompt charge"), sum(self.prompt_charges.iter().map(|prompt| prompt.charge)), prompt)?;
        equal(what("credit"), sum(self.credits.iter().map(|credit| credit.credit)), credit)?;
        equal(what("short option minimum"), i128::from(self.short_lots) * i128::from(self.short_option_rate), minimum)?;
        equal(what("margin"), self.risk.max(minimum), margin)?;
        for listed in &contract.book.prompts {
            let of_day = self.rows.iter().filter(|row| row.day == listed.day).map(Row::net);
            equal(|| format!("contract {}, net delta of {}", self.number, listed.day), sum(of_day), listed.net)?;
        }
        let in_table = table.and_then(|table| table.prompts.iter().find(|listed| listed.tier == self.number));
        if let Some(listed) = in_table {
            equal(what("net delta"), self.net, listed.net)?;
        }
        paid_for(&contract.book)
    }
}

fn sum(numbers: impl Iterator<Item = i64>) -> i128 {
    numbers.map(i128::from).sum()
}

/// "For each scenario add lots × value × loss over the contract's rows."
fn totals(rows: &[Record], money: &Money) -> [i64; SCENARIOS] {
    std::array::from_fn(|scenario| rows.iter().map(|row| money.product(*row, scenario)).sum())
}

/// "The active scenario is the lowest number holding the largest total, even a negative one."
fn active_scenario(totals: &[i64; SCENARIOS]) -> usize {
    let largest = totals.iter().max().copied().unwrap_or_default();
    1 + totals.iter().position(|total| *total == largest).unwrap_or_default()
}

fn row(place: usize, record: Record, active: usize, money: &Money) -> Row {
    let class = record.get(CLASS);
    let own = money.own(record, active - 1);
    Row {
        place,
        class,
        day: record.get(DAY),
        strike: record.get(strike(class)),
        lots: record.get(LOTS),
        delta: record.get(delta(class)),
        value: record.get(VALUE),
        loss: record.get(loss(active - 1)),
        currency: record.get(CURRENCY),
        own,
        rate: money.rate(record, own),
        amount: money.product(record, active - 1),
    }
}

/// "The spread's charge is (first + second number) × rate / 10,000."
fn spread_charges(book: &Book, unit: i64) -> Vec<i64> {
    let charge = |formed: i64, rate: i64| rounded(i128::from(formed) * i128::from(rate), ONE, unit);
    book.spreads.iter().map(|spread| charge(spread.steps.iter().map(|step| step.formed).sum(), spread.rate)).collect()
}

/// "A prompt's charge is (|used| × first rate + |unused| × second rate) / 10,000."
fn prompt_charges(records: &[Record], book: &Book, unit: i64) -> Vec<PromptCharge> {
    let charge = |(record, prompt): (&Record, &Prompt)| {
        let (rate_in_spreads, rate_outright) = (record.get(RATE_IN_SPREADS), record.get(RATE_OUTRIGHT));
        let in_spreads = i128::from(prompt.used.abs()) * i128::from(rate_in_spreads);
        let outright = i128::from(prompt.unused.abs()) * i128::from(rate_outright);
        PromptCharge { rate_in_spreads, rate_outright, charge: rounded(in_spreads + outright, ONE, unit) }
    };
    records.iter().zip(&book.prompts).map(charge).collect()
}

/// "The unit price risk, price risk over |net delta|, is rounded to four decimals, halves up."
fn unit_price_risk(twice_price_risk: i64, net: i64) -> Option<i128> {
    let net = i128::from(net.abs());
    (net > 0).then(|| halves_up(i128::from(twice_price_risk) * 500_000, net))
}

/// The credits of a contract, one for each intercontract spread that names it: the unit price risk × used × percent.
fn credits(contract: i64, table: &Book, unit_price_risk: Option<i128>, unit: i64) -> Vec<Credit> {
    let Some(place) = table.prompts.iter().position(|prompt| prompt.tier == contract) else { return vec![] };
    let naming = table.spreads.iter().filter(|spread| spread.legs.iter().any(|leg| leg.tier == contract));
    let credit = |spread: &crate::account::Spread| {
        let used: i64 = spread.steps.iter().map(|step| step.taken[place]).sum();
        let earned = unit_price_risk.unwrap_or(0) * i128::from(used.abs()) * i128::from(spread.rate);
        let with = spread.legs.iter().map(|leg| leg.tier).find(|tier| *tier != contract).unwrap_or(contract);
        Credit { spread: spread.place, with, percent: spread.rate, used, credit: rounded(earned, ONE * ONE, unit) }
    };
    naming.map(credit).collect()
}

/// What each leg takes for so many spreads: "number × ratio", with tenths "number × ratio / 10, rounded to a ten-thousandth,
/// halves up".
pub fn taken_by(leg: &Leg, formed: i64) -> i128 {
    halves_up(i128::from(formed) * i128::from(leg.ratio), leg.parts())
}

/// What was paid at the prompts against the numbers that were formed, and against what each prompt has used.
fn paid_for(book: &Book) -> Result<(), Differs> {
    let of = |rest: String| format!("book {}, {rest}", book.question);
    for spread in &book.spreads {
        for (at, step) in spread.steps.iter().enumerate() {
            for leg in &spread.legs {
                let long = leg.takes_long(at);
                let on_its_side = |prompt: &Prompt| prompt.tier == leg.tier && (prompt.net > 0) == long;
                let paid = book.prompts.iter().zip(&step.taken).filter(|(prompt, _)| on_its_side(prompt));
                let what = || of(format!("paid for step {} of spread {} in {}", at + 1, spread.place, leg.tier));
                equal(what, sum(paid.map(|(_, taken)| taken.abs())), taken_by(leg, step.formed))?;
            }
        }
    }
    for (at, prompt) in book.prompts.iter().enumerate() {
        let paid = book.spreads.iter().flat_map(|spread| &spread.steps).map(|step| step.taken[at]);
        equal(|| of(format!("used of prompt {}", prompt.place)), sum(paid), prompt.used)?;
        equal(|| of(format!("net delta of prompt {}", prompt.place)), prompt.used + prompt.unused, prompt.net)?;
    }
    Ok(())
}

#[cfg(test)]
mod tests {
    use super::*;
    use crate::report::left;

    const FILES: [&[u8]; 5] = [
        include_bytes!("../../../examples/copper-aluminium.account"),
        include_bytes!("../../../examples/case-three.account"),
        include_bytes!("../../../examples/aex-fef.account"),
        include_bytes!("../../../examples/yen.account"),
        include_bytes!("../../../examples/four-currencies.account"),
    ];

    fn account(file: &[u8]) -> Account {
        Account::of_file(file).ok().expect("an example that is accepted")
    }

    /// What differs once something proved is said otherwise.
    fn differs(file: &[u8], otherwise: impl Fn(&mut Account)) -> Option<Differs> {
        let mut account = account(file);
        otherwise(&mut account);
        Working::of(&records(file), &account).err()
    }

    #[test]
    fn the_examples_add_up() {
        for file in FILES {
            assert_eq!(differs(file, |_| ()), None);
        }
    }

    #[test]
    fn a_figure_that_is_not_the_sum_is_told_with_both_numbers() {
        let proved = account(FILES[0]).contracts[1].figures;
        for at in 1..proved.len() {
            let Differs { worked_out, proved, .. } =
                differs(FILES[0], |account| account.contracts[1].figures[at] += 1).expect("another figure is told");
            assert_eq!(proved - worked_out, 1, "figure {at}");
        }
        let total = differs(FILES[0], |account| account.total -= 1).expect("another total is told");
        assert_eq!((total.what.as_str(), total.worked_out, total.proved), ("total", 227862659, 227862658));
    }

    #[test]
    fn a_delta_or_a_payment_that_does_not_add_up_is_told() {
        let others: [fn(&mut Account); 5] = [
            |account| account.contracts[0].book.prompts[0].net += 1,
            |account| account.contracts[0].book.prompts[0].unused += 1,
            |account| account.contracts[0].book.spreads[0].steps[0].taken[0] += 1,
            |account| account.contracts[0].book.spreads[0].steps[0].formed += 1,
            |account| account.table.as_mut().expect("a table").spreads[0].steps[0].taken[1] += 1,
        ];
        for (at, other) in others.iter().enumerate() {
            assert!(differs(FILES[0], other).is_some(), "{at}");
        }
    }

    #[test]
    fn another_rate_or_another_currency_is_told() {
        let other_rate = |account: &mut Account| account.rates[0].spot += 1;
        let other_percent = |account: &mut Account| account.rates[2].adjustment_percent = 0;
        assert!(differs(FILES[4], other_rate).is_some() && differs(FILES[4], other_percent).is_some());
        let mut other_currency = FILES[4].to_vec();
        other_currency[(1 + 8 + 9) * RECORD_BYTES + CURRENCY.at] = 2;
        assert!(Working::of(&records(&other_currency), &account(FILES[4])).is_err());
    }

    #[test]
    fn a_loss_is_converted_at_the_raised_rate_and_a_gain_at_the_lowered_one() {
        let rates = [Rate { currency: 1, spot: 1_500_000, adjustment_percent: 10 }];
        let row = |lots: i32| {
            let mut row = [0; RECORD_BYTES];
            (row[0], row[CURRENCY.at], row[VALUE.at]) = (ROW, 1, 1);
            row[LOTS.at..][..4].copy_from_slice(&lots.to_le_bytes());
            row[loss(0).at..][..4].copy_from_slice(&1_000_i32.to_le_bytes());
            row
        };
        let converted = |lots, unit| Money { rates: &rates, unit }.product(Record(&row(lots)), 0);
        assert_eq!([converted(1, 1), converted(-1, 1)], [1_650, -1_350]);
        assert_eq!([converted(1, 100), converted(-1, 100)], [1_700, -1_400]);
    }

    #[test]
    fn a_row_more_or_less_is_told() {
        let account = account(FILES[1]);
        let less: Vec<Record> =
            records(FILES[1]).into_iter().enumerate().filter(|(at, _)| *at != 8).map(|(_, record)| record).collect();
        assert!(Working::of(&less, &account).is_err());
    }

    #[test]
    fn a_step_that_would_form_something_of_what_is_left_is_told() {
        let mut account = account(FILES[1]);
        assert!(left::open(&account.contracts[0].book).is_ok_and(|open| open.len() == 1));
        account.contracts[0].book.prompts[4].unused = -1;
        let told = left::open(&account.contracts[0].book).err().expect("it is proved that no step forms anything");
        assert_eq!((told.worked_out, told.proved), (1, 0));
    }

    #[test]
    fn halves_go_up_and_wide_products_stay_exact() {
        assert_eq!([14_999, 15_000].map(|formed| rounded(formed, ONE, 1)), [1, 2]);
        assert_eq!([1_499_999, 1_500_000].map(|formed| rounded(formed, ONE, 100)), [100, 200]);
        assert_eq!(unit_price_risk(2 * 510_042, -10_012), Some(50_943_068));
        assert_eq!(unit_price_risk(51_200_000_000_000_000, 1), Some(25_600_000_000_000_000_000_000));
        assert_eq!(unit_price_risk(7, 0), None);
    }
}
