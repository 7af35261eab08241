//! The accounts that are timed: accepted ones of a size, in the margin currency alone and in several, generated ones, one with a
//! full table, and accounts as a desk has them.

use independent::check;
use independent::format::*;
use independent::generate::{self, Random};

const ACCOUNTS_OF_A_SIZE: usize = 8;
const LOOKED_THROUGH: u64 = 60_000;

/// Accepted accounts of so many records in the margin currency: generated ones of just that size, or larger ones cut there,
/// since without currencies what stands before a record decides whether it is accepted.
pub fn accepted(seed: u64, records: usize) -> Vec<Vec<u8>> {
    let bytes = records * RECORD_BYTES;
    let all =
        || (0..LOOKED_THROUGH).map(|index| in_margin_currency(generate::account(seed, index)));
    let sound = |file: &Vec<u8>| file.len() >= bytes && check(file).is_ok();
    let mut files: Vec<Vec<u8>> =
        all().filter(|file| file.len() == bytes && sound(file)).take(ACCOUNTS_OF_A_SIZE).collect();
    if files.len() < ACCOUNTS_OF_A_SIZE {
        let more = ACCOUNTS_OF_A_SIZE - files.len();
        let cut = all().filter(|file| file.len() > bytes && sound(file));
        files.extend(cut.take(more).map(|file| file[..bytes].to_vec()));
    }
    assert!(!files.is_empty(), "no accepted account of {records} records was generated");
    files
}

/// The account without its currency rates, every row in the margin currency.
fn in_margin_currency(file: Vec<u8>) -> Vec<u8> {
    let mut kept = vec![];
    for record in file.chunks(RECORD_BYTES).filter(|record| record[0] != CURRENCY_RATE) {
        kept.extend(record);
        if record[0] == ROW && record.len() == RECORD_BYTES {
            let at = kept.len() - RECORD_BYTES + CURRENCY.at;
            kept[at] = 0;
        }
    }
    kept
}

/// Accepted accounts of about so many records with at least half of their rows in other currencies than the margin's.
pub fn converted(seed: u64, records: usize) -> Vec<Vec<u8>> {
    let of_size = |file: &Vec<u8>| {
        (records * 9 / 10..=records * 11 / 10).contains(&(file.len() / RECORD_BYTES))
    };
    let half = |file: &Vec<u8>| {
        let rows = || file.chunks_exact(RECORD_BYTES).filter(|record| record[0] == ROW);
        2 * rows().filter(|row| row[CURRENCY.at] != 0).count() > rows().count()
    };
    let all = (0..LOOKED_THROUGH).map(|index| generate::account(seed, index));
    let files: Vec<Vec<u8>> = all
        .filter(|file| of_size(file) && half(file) && check(file).is_ok())
        .take(ACCOUNTS_OF_A_SIZE)
        .collect();
    assert!(
        !files.is_empty(),
        "no accepted account of about {records} records in currencies was generated"
    );
    files
}

/// Generated accounts, accepted and refused.
pub fn generated(seed: u64, count: u64) -> Vec<Vec<u8>> {
    (0..count).map(|index| generate::account(seed, index)).collect()
}

/// One contract with 32 prompts in eight tiers, long and short by turns, and so many spreads of three
/// legs.
pub fn table(spreads: usize) -> Vec<u8> {
    let contract = record(CONTRACT, &[]);
    let prompts = (0..MOST_PROMPTS as i64).map(|place| {
        let rates = [(RATE_IN_SPREADS, 3), (RATE_OUTRIGHT, 1)];
        record(PROMPT, &[&[(PROMPT_TIER, place / 4 + 1), (DAY, place + 1)][..], &rates].concat())
    });
    let rows = (0..MOST_PROMPTS as i64).map(|place| {
        let lots = (1000 + place) * if place % 2 == 0 { 1 } else { -1 };
        let array = [(delta(FORWARD), 9800), (VALUE, 25), (loss(0), 100)];
        record(ROW, &[&[(DAY, place + 1), (LOTS, lots)][..], &array].concat())
    });
    let spreads = (0..spreads as i64).map(|place| {
        let leg = |leg: usize, side, ratio| {
            let tier = (place + leg as i64) % 8 + 1;
            [(leg_tier(leg), tier), (leg_side(leg), side), (leg_ratio(leg), ratio)]
        };
        let legs = [leg(0, SIDE_A, place % 3 + 1), leg(1, SIDE_B, 2), leg(2, SIDE_B, 1)];
        record(SPREAD, &[&[(LEGS, 3), (SPREAD_RATE, 100)][..], &legs.concat()].concat())
    });
    [contract].into_iter().chain(prompts).chain(rows).chain(spreads).flatten().collect()
}

/// What a desk's account has: so many contracts, each with so many prompts in up to eight tiers, rows on random ones of their
/// days and spreads of two or three legs, and so many intercontract spreads.
#[derive(Clone, Copy)]
pub struct Desk {
    pub name: &'static str,
    pub contracts: usize,
    pub prompts: usize,
    pub rows: usize,
    pub legs: usize,
    pub spreads: usize,
    pub entries: usize,
}

pub const SMALL: Desk = desk("10 records", [1, 3, 5, 2, 1, 0]);
pub const MIDDLE: Desk = desk("100 records", [2, 12, 28, 3, 8, 2]);
pub const ROWS: Desk = desk("4 contracts, 31 prompts, 128 rows", [4, 31, 128, 3, 0, 0]);
pub const SPREADS: Desk =
    desk("3 contracts, 32 prompts, 128 rows, 32 spreads", [3, 32, 128, 3, 32, 0]);
pub const CONTRACTS: Desk =
    desk("16 contracts, 8 prompts, 21 rows, 8 spreads, 32 intercontract", [16, 8, 21, 2, 8, 32]);

pub const DESKS: [Desk; 5] = [SMALL, MIDDLE, ROWS, SPREADS, CONTRACTS];

const fn desk(
    name: &'static str,
    [contracts, prompts, rows, legs, spreads, entries]: [usize; 6],
) -> Desk {
    Desk { name, contracts, prompts, rows, legs, spreads, entries }
}

impl Desk {
    /// So many different accounts, which the independent program accepts.
    pub fn accounts(self, seed: u64, count: u64) -> Vec<Vec<u8>> {
        (0..count).map(|index| self.account(&mut Random::new(seed, index))).collect()
    }

    /// Different pairs of a morning and a noon file, in which every other contract has traded.
    pub fn pairs(self, seed: u64, count: u64) -> Vec<[Vec<u8>; 2]> {
        let traded = |record: &&[u8]| record[0] != ENTRY && record[NUMBER.at] % 2 == 0;
        let mornings = self.accounts(seed, count).into_iter();
        let later = self.accounts(!seed, count).into_iter();
        mornings
            .zip(later)
            .map(|(morning, later)| {
                let noon = later.chunks(RECORD_BYTES).filter(traded).flatten().copied().collect();
                [morning, noon]
            })
            .collect()
    }

    fn account(self, random: &mut Random) -> Vec<u8> {
        let numbers = || 0..self.contracts as i64;
        let days: Vec<Vec<i64>> = numbers().map(|_| days(random, self.prompts)).collect();
        let mut records = vec![];
        for number in numbers() {
            let rate = random.between(0, 100_000);
            records.push(record(CONTRACT, &[(NUMBER, number), (SHORT_OPTION_RATE, rate)]));
        }
        for number in numbers() {
            let prompts = days[number as usize].iter().enumerate();
            records.extend(prompts.map(|(place, day)| self.prompt(random, number, place, *day)));
        }
        for number in numbers() {
            records.extend((0..self.rows).map(|_| row(random, number, &days[number as usize])));
        }
        for number in numbers() {
            records.extend((0..self.spreads).map(|_| self.spread(random, number)));
        }
        records.extend((0..self.entries).map(|_| self.entry(random)));
        let file = records.concat();
        assert!(check(&file).is_ok(), "a desk's account is refused");
        file
    }

    /// The tier of a prompt, by its place.
    fn tier(self, place: usize) -> i64 {
        (place * 8 / self.prompts.max(8)) as i64 + 1
    }

    fn prompt(self, random: &mut Random, number: i64, place: usize, day: i64) -> Bytes {
        let rates = [RATE_IN_SPREADS, RATE_OUTRIGHT].map(|rate| (rate, random.between(0, 1_000)));
        let own = [(NUMBER, number), (PROMPT_TIER, self.tier(place)), (DAY, day)];
        record(PROMPT, &[&own[..], &rates].concat())
    }

    fn spread(self, random: &mut Random, number: i64) -> Bytes {
        let mut fields = vec![
            (NUMBER, number),
            (LEGS, self.legs as i64),
            (SPREAD_RATE, random.between(0, 1_000)),
        ];
        let (tiers, first) = (self.tier(self.prompts - 1), random.between(0, 7));
        for leg in 0..self.legs {
            // the third leg is of another tier than the first, so that none clash
            let tier = (first + random.between(0, tiers - 2) * (leg as i64 % 2) + leg as i64 / 2)
                % tiers
                + 1;
            let side = if leg % 2 == 0 { SIDE_A } else { SIDE_B };
            let ratio = random.between(1, 4);
            fields.extend([(leg_tier(leg), tier), (leg_side(leg), side), (leg_ratio(leg), ratio)]);
        }
        record(SPREAD, &fields)
    }

    fn entry(self, random: &mut Random) -> Bytes {
        let first = random.place(self.contracts);
        let second = (first + 1 + random.place(self.contracts - 1)) % self.contracts;
        let numbers = [(NUMBER, first as i64), (SECOND_NUMBER, second as i64)];
        let tenths = random.between(TENTHS.least, TENTHS.most);
        let ratios = entry_ratios(tenths).map(|ratio| (ratio, random.between(1, ratio.most / 10)));
        let credit = [(PERCENT, random.between(1, 100)), (TENTHS, tenths)];
        record(ENTRY, &[numbers, ratios, credit].concat())
    }
}

/// Rising days, one to sixty apart.
fn days(random: &mut Random, count: usize) -> Vec<i64> {
    let mut day = random.between(1, 20_000_000);
    let mut next = || {
        day += random.between(1, 60);
        day
    };
    (0..count).map(|_| next()).collect()
}

fn row(random: &mut Random, number: i64, days: &[i64]) -> Bytes {
    let class = random.pick(&[FORWARD, FORWARD, CALL, PUT]);
    let (strike, delta) = (strike(class), delta(class));
    let mut fields = vec![
        (NUMBER, number),
        (CLASS, class),
        (DAY, random.pick(days)),
        (strike, random.between(strike.least, strike.most)),
        (LOTS, random.between(-500, 500)),
        (delta, random.between(delta.least, delta.most)),
        (VALUE, random.between(1, 2_500)),
    ];
    fields.extend((0..SCENARIOS).map(|scenario| (loss(scenario), random.between(-9_000, 9_000))));
    record(ROW, &fields)
}

type Bytes = [u8; RECORD_BYTES];

fn record(kind: u8, fields: &[(Field, i64)]) -> Bytes {
    let mut record = [0; RECORD_BYTES];
    record[0] = kind;
    for (field, number) in fields {
        let bytes = &mut record[field.at..field.at + field.bytes];
        bytes.copy_from_slice(&number.to_le_bytes()[..field.bytes]);
    }
    record
}
