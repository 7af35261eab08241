//! sweep: files with one fault each, or none, put to the proved library and to the independent program. Each must say of each
//! file what the paper says: an unused byte that is not zero is refusal 5, a field one past an end of its range is refusal 6, and
//! at the ends of the range the file is accepted; legs that clash are refusal 8; a row without a rate is refusal 14, a conversion
//! beyond its limit 15. The bytes and the ranges below are written out from the paper's tables of the account file, by hand, and
//! taken from nothing that is tested.
//!
//! sweep write FOLDER: the records with these faults, and with none, each as FOLDER/sweep-NUMBER.record; an unused byte once.

use felgotany::{Outcome, Pair, PairOutcome};
use std::process::ExitCode;

type Record = [u8; 96];

/// A field in the paper's words: its bytes, the first and the last, and its range.
struct Field {
    name: &'static str,
    bytes: (usize, usize),
    range: (i64, i64),
}

const fn field(name: &'static str, bytes: (usize, usize), range: (i64, i64)) -> Field {
    Field { name, bytes, range }
}

/// One sort of record: its fields, and the bytes that it does not use, each run by its first and last.
struct Sort {
    name: &'static str,
    fields: Vec<Field>,
    unused: &'static [(usize, usize)],
    /// Ends that another field has to follow are brought about in a file of their own, `turned`.
    file: Vec<Record>,
    turned: Vec<Record>,
}

/// "1: number 0..15; 4-7: short option rate"; 2026-09: "Bytes 8-9 of kind 1 hold the unit in hundredths, 0 and 1 both meaning one
/// hundredth, at most 1,000."
fn contracts() -> Sort {
    Sort {
        name: "contract",
        fields: vec![
            field("number", (1, 1), (0, 15)),
            field("short option rate", (4, 7), (0, 10_000_000)),
            field("unit", (8, 9), (0, 1_000)),
        ],
        unused: &[(2, 3), (10, 95)],
        file: vec![contract(3)],
        turned: vec![],
    }
}

/// "1: contract; 2: tier 1..8; 4-7: day 1..99,999,999; 8-11: rate per delta in spreads; 12-15: rate per outright delta"
fn prompts() -> Sort {
    Sort {
        name: "prompt",
        fields: vec![
            field("contract", (1, 1), (0, 15)),
            field("tier", (2, 2), (1, 8)),
            field("day", (4, 7), (1, 99_999_999)),
            field("rate per delta in spreads", (8, 11), (0, 10_000_000)),
            field("rate per outright delta", (12, 15), (0, 10_000_000)),
        ],
        unused: &[(3, 3), (16, 95)],
        file: [listed(), vec![prompt(3, 4, 20_260_318)]].concat(),
        turned: vec![],
    }
}

/// "1: contract; 2: 0 forward, 1 call, 2 put; 4-7: day; 8-11: strike; 12-15: lots, signed; 16-19: delta, signed; 20-23: value per
/// tick per lot; 24-87: sixteen losses, signed, scenario 1 first"; 2026-05: "Byte 3 of a row names currency 0..7"
fn rows(name: &'static str, class: u8) -> Sort {
    let strike = if class == 0 { (0, 0) } else { (1, 4_294_967_295) };
    let delta = if class == 2 { (-10_000, 0) } else { (0, 10_000) };
    let mut fields = vec![
        field("contract", (1, 1), (0, 15)),
        field("currency", (3, 3), (0, 7)),
        field("day", (4, 7), (1, 99_999_999)),
        field("strike", (8, 11), strike),
        field("lots", (12, 15), (-100_000, 100_000)),
        field("delta", (16, 19), delta),
        field("value per tick per lot", (20, 23), (1, 10_000)),
    ];
    for first in (24..=84).step_by(4) {
        fields.push(field("loss", (first, first + 3), (-100_000, 100_000)));
    }
    if class == 1 {
        // a call with delta 0 is a put but for this byte, and what is neither has no range of its own to be in
        fields.push(field("forward, call, put", (2, 2), (1, 2)));
    }
    let mut row = [0; 96];
    row[..2].copy_from_slice(&[3, 3]);
    row[2] = class;
    put(&mut row, (4, 7), 20_260_318);
    put(&mut row, (8, 11), i64::from(class != 0));
    put(&mut row, (20, 23), 25);
    let file = [listed(), days(), vec![row]].concat();
    let turned = [file.clone(), vec![rate(7, 1, 0)]].concat();
    Sort { name, fields, unused: &[(88, 95)], file, turned }
}

/// "1: contract; 2: legs, 2 or 3; 4-7: rate per spread; legs at 8, 12, 16, each tier, side (1 = A, 2 = B), two-byte ratio"
fn spreads(name: &'static str, legs: u8) -> Sort {
    let mut fields = vec![field("contract", (1, 1), (0, 15)), field("rate per spread", (4, 7), (0, 10_000_000))];
    let of_leg = |first: usize| {
        [
            field("a leg's tier", (first, first), (1, 8)),
            field("a leg's side", (first + 1, first + 1), (1, 2)),
            field("a leg's ratio", (first + 2, first + 3), (1, 100)),
        ]
    };
    fields.extend(of_leg(8));
    fields.extend(of_leg(12));
    if legs == 3 {
        fields.extend(of_leg(16));
    }
    // the sides of the legs, so that there is an A and a B whichever leg is turned
    let sides = |sides: [u8; 3]| {
        let mut spread = [0; 96];
        spread[..3].copy_from_slice(&[4, 3, legs]);
        for (leg, side) in sides.into_iter().enumerate().take(usize::from(legs)) {
            spread[8 + 4 * leg..12 + 4 * leg].copy_from_slice(&[2 + leg as u8, side, 1, 0]);
        }
        [listed(), tiers(), vec![spread]].concat()
    };
    let unused: &[(usize, usize)] = if legs == 3 { &[(3, 3), (20, 95)] } else { &[(3, 3), (16, 95)] };
    Sort { name, fields, unused, file: sides([1, 2, 1]), turned: sides([2, 1, 2]) }
}

/// "1, 2: contracts; 3: credit percent 0..100; 4-5, 6-7: their ratios"; 2026-03: "Byte 8 of kind 5 set to 1 says that its ratios
/// are tenths, 1..1000; 0 keeps whole ratios."
fn entries(name: &'static str, tenths: u8) -> Sort {
    let entry = |first, second| {
        let mut entry = [0; 96];
        entry[..9].copy_from_slice(&[5, first, second, 50, 1, 0, 1, 0, tenths]);
        [listed(), vec![entry]].concat()
    };
    let ratios = if tenths == 1 { (1, 1_000) } else { (1, 100) };
    Sort {
        name,
        fields: vec![
            field("first contract", (1, 1), (0, 15)),
            field("second contract", (2, 2), (0, 15)),
            field("credit percent", (3, 3), (0, 100)),
            field("first ratio", (4, 5), ratios),
            field("second ratio", (6, 7), ratios),
            field("tenths", (8, 8), (0, 1)),
        ],
        unused: &[(9, 95)],
        file: entry(7, 3),
        turned: entry(3, 7),
    }
}

/// "Kind 6, after kind 5: byte 1 currency 1..7, ascending; bytes 4-7 spot rate in millionths, 1..100,000,000; byte 8 adjustment
/// percent 0..50."
fn rates() -> Sort {
    Sort {
        name: "currency rate",
        fields: vec![
            field("currency", (1, 1), (1, 7)),
            field("spot rate", (4, 7), (1, 100_000_000)),
            field("adjustment percent", (8, 8), (0, 50)),
        ],
        unused: &[(2, 3), (9, 95)],
        file: [listed(), vec![rate(4, 1_000_000, 25)]].concat(),
        turned: vec![],
    }
}

fn rate(currency: u8, spot: i64, percent: u8) -> Record {
    let mut record = [0; 96];
    record[..2].copy_from_slice(&[6, currency]);
    put(&mut record, (4, 7), spot);
    record[8] = percent;
    record
}

fn contract(number: u8) -> Record {
    let mut record = [0; 96];
    record[..2].copy_from_slice(&[1, number]);
    record
}

fn prompt(contract: u8, tier: u8, day: i64) -> Record {
    let mut record = [0; 96];
    record[..3].copy_from_slice(&[2, contract, tier]);
    put(&mut record, (4, 7), day);
    record
}

/// The contracts that are named below.
fn listed() -> Vec<Record> {
    [0, 3, 7, 15].map(contract).to_vec()
}

/// The prompts of the days that rows name.
fn days() -> Vec<Record> {
    let of_contract = |contract| [1, 20_260_318, 99_999_999].map(|day| prompt(contract, 4, day));
    [0, 3, 15].map(of_contract).concat()
}

/// A prompt of each tier in the contracts that spreads name.
fn tiers() -> Vec<Record> {
    [0, 3, 15].into_iter().flat_map(|contract| (1..=8).map(move |tier| prompt(contract, tier, i64::from(tier)))).collect()
}

/// Writes a number, its lowest byte first, to some bytes.
fn put(record: &mut Record, (first, last): (usize, usize), number: i64) {
    record[first..=last].copy_from_slice(&number.to_le_bytes()[..=last - first]);
}

/// A file and what the paper says of it: 0, 3 to 6, 8, 14 or 15, and the record that has the fault.
#[derive(Clone)]
struct Case {
    what: String,
    file: Vec<u8>,
    refusal: usize,
    record: usize,
    /// The record that the case is about.
    about: usize,
}

/// The file with the record that the sort is about changed at some bytes.
fn case(what: String, sort: &Sort, file: &[Record], bytes: (usize, usize), number: i64, refusal: usize) -> Case {
    let mut file = file.to_vec();
    let record = sort.file.len() - 1;
    put(&mut file[record], bytes, number);
    refused(what, file, refusal, record)
}

/// A file that is refused for the record at this place, or accepted.
fn refused(what: String, file: Vec<Record>, refusal: usize, about: usize) -> Case {
    Case { what, file: file.concat(), refusal, record: if refusal == 0 { 0 } else { about }, about }
}

/// Every unused byte, as the only fault of a file.
fn unused_bytes(sort: &Sort) -> Vec<Case> {
    let bytes = sort.unused.iter().flat_map(|&(first, last)| first..=last);
    bytes
        .flat_map(|byte| [1, 128].map(|number| (byte, number)))
        .map(|(byte, number)| {
            case(format!("{}: byte {byte} holds {number}", sort.name), sort, &sort.file, (byte, byte), number, 5)
        })
        .collect()
}

/// Each end of each field's range, and one past it, with the other fields in theirs.
fn ends(sort: &Sort) -> Vec<Case> {
    let mut cases = vec![];
    for Field { name, bytes, range: (least, most) } in &sort.fields {
        let what = |number: i64| format!("{}: {name}, bytes {} to {}, is {number}", sort.name, bytes.0, bytes.1);
        for number in [*least, *most] {
            let turned = !sort.turned.is_empty() && accepted_turned(sort, *bytes, number);
            let file = if turned { &sort.turned } else { &sort.file };
            cases.push(case(what(number), sort, file, *bytes, number, 0));
        }
        let room = 1i64 << (8 * (bytes.1 - bytes.0 + 1));
        let mut past = vec![];
        if *least != 0 || *most < room - 1 {
            past.push(least - 1);
        }
        if *most < room - 1 {
            past.push(most + 1);
        }
        // each byte above the lowest, by itself, where that is past the range
        past.extend((1..=bytes.1 - bytes.0).map(|byte| least.max(&0) + (1i64 << (8 * byte))).filter(|number| number > most));
        for number in past {
            cases.push(case(what(number), sort, &sort.file, *bytes, number, 6));
        }
    }
    cases
}

/// Whether a side or a contract at the end of its range asks the other legs or the other contract to be turned, or a currency its rate.
fn accepted_turned(sort: &Sort, bytes: (usize, usize), number: i64) -> bool {
    let there = sort.file[sort.file.len() - 1][bytes.0];
    match sort.file[sort.file.len() - 1][0] {
        3 => bytes.0 == 3 && number != 0,
        5 => bytes.0 == 2,
        _ => [9, 13, 17].contains(&bytes.0) && bytes.0 == bytes.1 && i64::from(there) != number,
    }
}

/// The number of legs has no end that the two sorts of spread do not have; past its ends it is 0, 1, 4 and 255, with two legs
/// and with three: "Bytes 16-19 of kind 4 are unused only when byte 2 holds 2."
fn legs(sort: &Sort) -> Vec<Case> {
    [0, 1, 4, 255].map(|legs| case(format!("{}: byte 2 holds {legs}", sort.name), sort, &sort.file, (2, 2), legs, 6)).into()
}

/// "Two legs with the same tier and side; no leg A or no leg B": each two of three legs, each side. Legs of one tier whose sides
/// differ do not clash.
fn clashes() -> Vec<Case> {
    let mut cases = vec![];
    for (what, tiers_and_sides, refusal) in [
        ("legs 1 and 2 alike", [[2, 1], [2, 1], [3, 2]], 8),
        ("legs 1 and 3 alike", [[2, 1], [3, 2], [2, 1]], 8),
        ("legs 2 and 3 alike", [[3, 2], [2, 1], [2, 1]], 8),
        ("legs 2 and 3 alike, side B", [[3, 1], [2, 2], [2, 2]], 8),
        ("no leg B", [[2, 1], [3, 1], [4, 1]], 8),
        ("no leg A", [[2, 2], [3, 2], [4, 2]], 8),
        ("legs 1 and 2 of one tier", [[2, 1], [2, 2], [3, 1]], 0),
        ("legs 1 and 3 of one tier", [[2, 1], [3, 1], [2, 2]], 0),
        ("legs 2 and 3 of one tier", [[3, 1], [2, 1], [2, 2]], 0),
    ] {
        let mut file = spreads("", 3).file;
        let record = file.len() - 1;
        for (leg, tier_and_side) in tiers_and_sides.iter().enumerate() {
            file[record][8 + 4 * leg..10 + 4 * leg].copy_from_slice(tier_and_side);
        }
        cases.push(refused(what.to_string(), file, refusal, record));
    }
    let itself = entries("", 0);
    cases.push(case("a contract with itself".to_string(), &itself, &itself.file, (2, 2), 7, 8));
    cases
}

/// "Kind 6 is now allowed in 3", "its order under 8": what follows what.
fn orders() -> Vec<Case> {
    let after = |what: &str, records: &[Record], refusal: usize| {
        let file = [listed(), records.to_vec()].concat();
        let last = file.len() - 1;
        refused(what.to_string(), file, refusal, last)
    };
    let entry = |first, second| {
        let mut entry = [0; 96];
        entry[..9].copy_from_slice(&[5, first, second, 50, 1, 0, 1, 0, 0]);
        entry
    };
    let of_kind = |kind| {
        let mut record = [0; 96];
        record[0] = kind;
        record
    };
    vec![
        after("kind 0", &[of_kind(0)], 3),
        after("kind 7", &[of_kind(7)], 3),
        after("kind 255", &[of_kind(255)], 3),
        after("a rate after an intercontract spread", &[entry(3, 7), rate(1, 1, 0)], 0),
        after("an intercontract spread after a rate", &[rate(1, 1, 0), entry(3, 7)], 4),
        after("currencies that rise", &[rate(1, 5, 0), rate(2, 5, 0), rate(7, 5, 0)], 0),
        after("a currency twice", &[rate(2, 5, 0), rate(2, 6, 0)], 8),
        after("a currency below the one before", &[rate(3, 5, 0), rate(2, 5, 0)], 8),
        after("all seven currencies", &[1, 2, 3, 4, 5, 6, 7].map(|currency| rate(currency, 1, 0)), 0),
    ]
}

/// A row of contract 3 in a currency, whose lots, value and loss in one scenario, counted from 1, are these.
fn row(currency: u8, [lots, value, loss]: [i64; 3], scenario: usize) -> Record {
    let mut row = [0; 96];
    row[..4].copy_from_slice(&[3, 3, 0, currency]);
    put(&mut row, (4, 7), 20_260_318);
    put(&mut row, (12, 15), lots);
    put(&mut row, (20, 23), value);
    put(&mut row, (20 + 4 * scenario, 23 + 4 * scenario), loss);
    row
}

/// "For rows in file order, 14 for a row whose currency has no rate, else 15 for one with a rounded conversion beyond
/// ±100,000,000,000,000."
fn conversions() -> Vec<Case> {
    const ONE: i64 = 1_000_000;
    const MOST: [i64; 3] = [100_000, 10_000, 100_000];
    let first = listed().len() + days().len();
    // the place of the faulty row among the rows; none where the file is accepted
    let account = |what: String, rows: &[Record], rates: &[Record], fault: Option<(usize, usize)>| {
        let file = [listed(), days(), rows.to_vec(), rates.to_vec()].concat();
        let (refusal, place) = fault.map_or((0, 0), |(refusal, place)| (refusal, first + place));
        refused(what, file, refusal, place)
    };
    let mut cases = vec![];
    for currency in 1..=7 {
        let rows = [row(0, [1, 1, 1], 1), row(currency, [0, 1, 0], 1)];
        let others: Vec<Record> = (1..=7).filter(|other| *other != currency).map(|other| rate(other, ONE, 0)).collect();
        let what = |rates: &str| format!("a row in currency {currency}, {rates}");
        cases.push(account(what("no rates"), &rows, &[], Some((14, 1))));
        cases.push(account(what("all other rates"), &rows, &others, Some((14, 1))));
        cases.push(account(what("its rate"), &rows, &[rate(currency, ONE, 0)], None));
    }
    // 50,867 x 1,873 x 41,161 at 25.5 is 100,000,000,000,000.5
    let half = [50_867, 1_873, 41_161];
    // 80,702 x 84 x 98,353 at 99.990225 and 50 percent is 100,000,000,000,000.34, which is rounded to the limit
    let third = [80_702, 84, 98_353];
    for (what, product, spot, percent, loss, gain) in [
        ("the most at 1", MOST, ONE, 0, 0, 0),
        ("the most at 1.000001", MOST, ONE + 1, 0, 15, 15),
        ("the most at 0.999999", MOST, ONE - 1, 0, 0, 0),
        ("the most at 1, 1 percent", MOST, ONE, 1, 15, 0),
        ("the most at 0.990099, 1 percent", MOST, 990_099, 1, 0, 0),
        ("the most at 1.010101, 1 percent", MOST, 1_010_101, 1, 15, 0),
        ("the most at 1.010102, 1 percent", MOST, 1_010_102, 1, 15, 15),
        ("the most at 0.666666, 50 percent", MOST, 666_666, 50, 0, 0),
        ("the most at 0.666667, 50 percent", MOST, 666_667, 50, 15, 0),
        ("the most at 2, 50 percent", MOST, 2 * ONE, 50, 15, 0),
        ("the most at 2.000001, 50 percent", MOST, 2 * ONE + 1, 50, 15, 15),
        ("the most at 100, 50 percent", MOST, 100 * ONE, 50, 15, 15),
        ("half a hundredth beyond", half, 25_500_000, 0, 15, 15),
        ("a third of a hundredth beyond", third, 99_990_225, 50, 0, 0),
        ("below the limit by less than a rate's step", half, 25_499_999, 0, 0, 0),
    ] {
        let [lots, value, ticks] = product;
        for (scenario, sign, refusal) in [(1, 1, loss), (16, 1, loss), (1, -1, gain), (16, -1, gain)] {
            let fault = (refusal != 0).then_some((refusal, 0));
            let rates = [rate(5, spot, percent)];
            let told =
                |how: &str| format!("{what}, {how} in scenario {scenario}, {}", if sign > 0 { "a loss" } else { "a gain" });
            cases.push(account(told("long"), &[row(5, [lots, value, sign * ticks], scenario)], &rates, fault));
            cases.push(account(told("short"), &[row(5, [-lots, value, -sign * ticks], scenario)], &rates, fault));
            // "currency 0 is not converted"
            cases.push(account(told("currency 0"), &[row(0, [lots, value, sign * ticks], scenario)], &rates, None));
        }
    }
    let (large, unrated, sound) = (row(5, MOST, 1), row(6, [1, 1, 1], 1), row(0, [1, 1, 1], 1));
    let rates = [rate(5, 2 * ONE, 0)];
    cases.push(account("15 before 14".to_string(), &[sound, large, unrated], &rates, Some((15, 1))));
    cases.push(account("14 before 15".to_string(), &[sound, unrated, large], &rates, Some((14, 1))));
    cases
}

/// What is neither a forward nor a call nor a put.
fn classes(sort: &Sort) -> Vec<Case> {
    [3, 128, 255].map(|class| case(format!("{}: byte 2 holds {class}", sort.name), sort, &sort.file, (2, 2), class, 6)).into()
}

/// Every byte of a sort is the kind, a field or unused, and only one of these.
fn written_once(sort: &Sort) -> bool {
    let mut times = [0; 96];
    times[0] = 1;
    let fields = sort.fields.iter().map(|field| field.bytes);
    for (first, last) in fields.chain(sort.unused.iter().copied()) {
        times[first..=last].iter_mut().for_each(|times| *times += 1);
    }
    // byte 2 of a row and of an interprompt spread says which of the sorts it is
    let sorted_by = sort.name.ends_with("row") && times[2] == 0 || sort.name.ends_with("legs");
    times[2] += usize::from(sorted_by);
    times == [1; 96]
}

/// What the library, and the independent program, say of a file, alone and in both places of a pair.
fn differences(case: &Case) -> Vec<String> {
    let Case { what, file, refusal, record, .. } = case;
    let outcome = Outcome { refusal: *refusal, record: *record };
    let mornings = file.chunks(96).position(|record| record[0] > 4);
    let in_pair = |place: usize| match (mornings, *refusal, place) {
        (Some(first), 0 | 14 | 15, 2) => PairOutcome { file: 2, refusal: 12, record: first },
        (_, 0 | 14 | 15, _) => PairOutcome { file: 0, refusal: *refusal, record: *record },
        _ => PairOutcome { file: place, refusal: *refusal, record: *record },
    };
    let mut lent = [0; 129];
    let second = independent::check(file).map_or_else(|told| (usize::from(told.number), told.record), |_| (0, 0));
    let said = [
        ("check", felgotany::check(file) == outcome),
        ("figures", felgotany::figures(file, &mut lent) == outcome),
        ("morning", Pair { morning: file, noon: &[] }.figures(&mut lent) == in_pair(1)),
        ("noon", Pair { morning: &[], noon: file }.figures(&mut lent) == in_pair(2)),
        ("independent program", second == (*refusal, *record)),
    ];
    said.iter().filter(|(_, right)| !right).map(|(who, _)| format!("{who}: {what}: not {outcome:?}")).collect()
}

fn main() -> ExitCode {
    let sorts = [
        contracts(),
        prompts(),
        rows("forward row", 0),
        rows("call row", 1),
        rows("put row", 2),
        spreads("interprompt spread of 2 legs", 2),
        spreads("interprompt spread of 3 legs", 3),
        entries("intercontract spread", 0),
        entries("intercontract spread in tenths", 1),
        rates(),
    ];
    if let Some(sort) = sorts.iter().find(|sort| !written_once(sort)) {
        println!("{}: a byte is in no field and not unused, or in two", sort.name);
        return ExitCode::FAILURE;
    }
    // the unused bytes of a row are the same for the three, those of an intercontract spread for the two
    let again = ["call row", "put row", "intercontract spread in tenths"];
    let unused: Vec<Case> = sorts.iter().filter(|sort| !again.contains(&sort.name)).flat_map(unused_bytes).collect();
    let mut ranges: Vec<Case> = sorts.iter().flat_map(ends).collect();
    ranges.extend(sorts.iter().filter(|sort| sort.name.ends_with("legs")).flat_map(legs));
    ranges.extend(sorts.iter().filter(|sort| sort.name.ends_with("row")).flat_map(classes));
    let at_ends = ranges.iter().filter(|case| case.refusal == 0).count();
    let past_ends = ranges.len() - at_ends;
    let legs_and_contracts = clashes();
    let of_currencies = [orders(), conversions()].concat();
    let counts = [legs_and_contracts.len(), of_currencies.len()];
    ranges.extend([legs_and_contracts, of_currencies].concat());
    let words: Vec<String> = std::env::args().skip(1).collect();
    let cases = || unused.iter().chain(&ranges);
    if let [write, folder] = &words[..] {
        let of_records = &ranges[..ranges.len() - counts[1]];
        return write_records(write, folder, unused.iter().step_by(2).chain(of_records).collect());
    }
    let different: Vec<String> = cases().flat_map(differences).collect();
    different.iter().take(20).for_each(|line| println!("{line}"));
    println!(
        "{} unused bytes, each with 2 values; {at_ends} ends of ranges and {past_ends} past them; {} of legs and contracts; \
         {} of kinds, rates and conversions; {} differences",
        unused.len() / 2,
        counts[0],
        counts[1],
        different.len()
    );
    println!("cases: {}", cases().count());
    if different.is_empty() {
        ExitCode::SUCCESS
    } else {
        ExitCode::FAILURE
    }
}

fn write_records(word: &str, folder: &str, cases: Vec<&Case>) -> ExitCode {
    let write = |(number, case): (usize, &&Case)| {
        std::fs::write(format!("{folder}/sweep-{number}.record"), &case.file[96 * case.about..][..96])
    };
    match cases.iter().enumerate().try_for_each(write) {
        Ok(()) if word == "write" => ExitCode::SUCCESS,
        _ => ExitCode::FAILURE,
    }
}
