//! What generated files and pairs are worth: reproducible, of every sort, with books that add up, and
//! joined accounts that have of each file what is said to come from it.

use crate::builder::{book_of, refused, Record};
use independent::book::{intercontract, interprompt, Book};
use independent::check::fault;
use independent::format::records;
use independent::generate::{account, cover, lent, pair, question, Random};
use independent::joined::{self, cover_call, join, prompts};
use independent::margin::{figures_of, total};
use independent::refusal::every_pair_refusal;
use independent::steps::{Leg, Side};
use independent::units::{Amount, Delta};
use independent::{check, Account};
use std::collections::BTreeSet;

const SEED: u64 = 2;

fn accepted(count: u64) -> impl Iterator<Item = Account> {
    (0..count).filter_map(|index| check(&account(SEED, index)).ok())
}

#[test]
fn a_seed_and_an_index_always_give_the_same_bytes() {
    let files = |seed| (0..200).map(|index| account(seed, index)).collect::<Vec<_>>();
    assert_eq!(files(SEED), files(SEED));
    assert_ne!(files(SEED), files(SEED + 1));
}

#[test]
fn about_half_are_accepted_and_every_refusal_of_a_file_occurs() {
    let answers: Vec<Option<u8>> =
        (0..2_000).map(|index| refused(&account(SEED, index)).map(|refusal| refusal.0)).collect();
    let taken = answers.iter().filter(|answer| answer.is_none()).count();
    assert!((800..1_200).contains(&taken), "{taken} of 2,000 accepted");
    for number in 1..=9 {
        assert!(answers.contains(&Some(number)), "refusal {number} does not occur");
    }
}

#[test]
fn every_pair_of_faults_meets_in_one_record() {
    let mut met = BTreeSet::new();
    for index in 0..12_000 {
        let file = account(SEED, index);
        let Some((first, place)) = refused(&file) else { continue };
        if first < 3 {
            continue;
        }
        let records = records(&file);
        for other in first + 1..=9 {
            if fault(other, records[place], &records[..place]) {
                met.insert((first, other));
            }
        }
    }
    for lower in 4..=9 {
        for higher in lower + 1..=9 {
            assert!(met.contains(&(lower, higher)), "{lower} and {higher} never meet");
        }
    }
    assert!(met.contains(&(3, 4)) && met.contains(&(3, 5)));
}

#[test]
fn sizes_reach_from_nothing_to_640_records_and_limits_are_met() {
    let all: Vec<Account> = accepted(6_000).collect();
    assert!(all.iter().any(|account| account.records == 0));
    assert!(all.iter().any(|account| account.records == 640));
    assert!(all.iter().any(|account| account.contracts.len() == 16));
    assert!(all.iter().any(|account| account.entries.len() == 32));
    let contracts = || all.iter().flat_map(|account| &account.contracts);
    assert!(contracts().any(|contract| contract.prompts.is_empty()));
    assert!(contracts().any(|contract| {
        contract.prompts.len() == 32 && contract.rows.len() == 128 && contract.spreads.len() == 32
    }));
    let rows = |account: &Account| account.contracts.iter().map(|of| of.rows.len()).sum::<usize>();
    assert!(all.iter().any(|account| account.contracts.len() == 5 && rows(account) == 630));
}

#[test]
fn questions_and_numbers_lent_are_of_every_sort() {
    let mut random = Random::new(SEED, 0);
    let questions: Vec<u64> = (0..2_000).map(|_| question(&mut random)).collect();
    assert!((0..=17).all(|asked| questions.contains(&asked)));
    assert!(questions.iter().any(|asked| *asked > 1 << 32));
    let lent: Vec<usize> = (0..500).map(|_| lent(&mut random, 9)).collect();
    assert!([0, 8, 9, 10].iter().all(|numbers| lent.contains(numbers)));
}

/// The spreads of a book add up: each leg has taken its use from its tier on its side, no
/// prompt crossed zero, and used and unused carry the sign of the net delta.
fn adds_up(book: &Book, tiers: &[i64], spreads: &[Vec<Leg>]) {
    for (steps, legs) in book.steps.iter().zip(spreads) {
        for (step, long) in steps.iter().zip([Side::A, Side::B]) {
            for leg in legs {
                let taken: Delta = (0..tiers.len())
                    .filter(|prompt| tiers[*prompt] == leg.tier)
                    .map(|prompt| step.given[prompt])
                    .map(|given| if leg.side == long { given } else { -given })
                    .map(|given| given.max(Delta(0)))
                    .sum();
                // "Number × ratio / 10, rounded to a ten-thousandth, halves up" is within a half.
                let apart = 2 * (leg.parts * taken.0 - step.number.0 * leg.ratio);
                assert!(-leg.parts < apart && apart <= leg.parts && (leg.parts > 1 || apart == 0));
            }
        }
    }
    for line in &book.lines {
        let [net, used, unused] = [line.net, line.used, line.unused].map(|delta| delta.0);
        assert_eq!(used + unused, net);
        assert!(used.abs() <= net.abs() && used * net.signum() >= 0 && unused * net.signum() >= 0);
    }
}

#[test]
fn books_add_up() {
    let mut formed = 0;
    for account in accepted(3_000) {
        for contract in &account.contracts {
            let tiers: Vec<i64> = contract.prompts.iter().map(|prompt| prompt.tier).collect();
            let spreads: Vec<Vec<Leg>> =
                contract.spreads.iter().map(|spread| spread.legs.clone()).collect();
            let book = interprompt(contract);
            adds_up(&book, &tiers, &spreads);
            let legs: usize = spreads.iter().map(Vec::len).sum();
            assert!(book.takes() <= tiers.len() + 2 * legs);
            formed += book.steps.iter().flatten().filter(|step| step.number.0 > 0).count();
        }
        let numbers: Vec<i64> = account.contracts.iter().map(|contract| contract.number).collect();
        let entries: Vec<Vec<Leg>> = account.entries.iter().map(|entry| entry.legs()).collect();
        adds_up(&intercontract(&account), &numbers, &entries);
        let legs: usize = entries.iter().map(Vec::len).sum();
        assert!(intercontract(&account).takes() <= numbers.len() + 2 * legs);
    }
    assert!(formed > 1_000, "only {formed} steps formed spreads");
}

#[test]
fn a_step_leaves_no_spread_that_could_have_been_formed() {
    // After its two steps a spread can form nothing more in the first way, and the same spread put
    // again at the end of the second has nothing left in either.
    for account in accepted(1_500) {
        for contract in &account.contracts {
            let book = interprompt(contract);
            let mut unused: Vec<Delta> = book.lines.iter().map(|line| line.net).collect();
            for (spread, steps) in contract.spreads.iter().zip(&book.steps) {
                for (step, long) in steps.iter().zip([Side::A, Side::B]) {
                    for (left, given) in unused.iter_mut().zip(&step.given) {
                        *left -= *given;
                    }
                    let pool = |leg: &Leg| {
                        let of_tier = contract
                            .prompts
                            .iter()
                            .zip(&unused)
                            .filter(|(prompt, _)| prompt.tier == leg.tier);
                        let on_side =
                            of_tier.map(|(_, left)| if leg.side == long { *left } else { -*left });
                        on_side.map(|left| left.max(Delta(0))).sum::<Delta>()
                    };
                    assert!(spread.legs.iter().any(|leg| pool(leg).0 < leg.ratio));
                }
            }
        }
    }
}

#[test]
fn margins_are_the_larger_of_minimum_and_risk_and_add_up_to_the_total() {
    for account in accepted(2_000) {
        let figures = figures_of(&account);
        let mut sum = 0;
        for contract in &figures {
            let risk =
                contract.scanning_risk.0 + contract.interprompt_charge.0 + contract.prompt_charge.0;
            let after_credit = (risk - contract.credit.0).max(0);
            assert_eq!(contract.margin.0, after_credit.max(contract.short_option_minimum.0));
            assert!((1..=16).contains(&contract.active_scenario));
            sum += contract.margin.0;
        }
        assert_eq!(total(&figures), Amount(sum));
    }
}

#[test]
fn damage_to_the_order_of_two_records_is_seen() {
    // Exchanging two neighbours of different kinds is refused with 4 or an earlier fault at the
    // first of them.
    for index in 0..400 {
        let file = account(SEED, index);
        if refused(&file).is_some() {
            continue;
        }
        let mut records: Vec<Record> =
            file.chunks_exact(96).map(|bytes| bytes.try_into().unwrap()).collect();
        let Some(place) =
            (1..records.len()).find(|place| records[*place][0] > records[*place - 1][0])
        else {
            continue;
        };
        records.swap(place - 1, place);
        let (number, named) = refused(&records.concat()).expect("a refusal");
        assert!(
            (number, named) == (4, place) || named == place - 1 && number == 7,
            "{number} {named}"
        );
    }
}

/// The pairs that are not refused, with the file of the joined account.
fn joinable(count: u64) -> impl Iterator<Item = ([Vec<u8>; 2], Vec<u8>)> {
    (0..count).filter_map(|index| {
        let (morning, noon) = pair(SEED, index);
        let joined = join(&morning, &noon).ok()?;
        Some(([morning, noon], joined))
    })
}

#[test]
fn a_seed_and_an_index_always_give_the_same_pair() {
    let pairs = |seed| (0..100).map(|index| pair(seed, index)).collect::<Vec<_>>();
    assert_eq!(pairs(SEED), pairs(SEED));
    assert_ne!(pairs(SEED), pairs(SEED + 1));
}

#[test]
fn about_half_of_the_pairs_are_joined_and_every_refusal_of_a_pair_occurs() {
    let answers: Vec<_> = (0..2_000).map(|index| pair(SEED, index)).collect();
    let answers: Vec<_> = answers.iter().map(|(morning, noon)| join(morning, noon)).collect();
    let taken = answers.iter().filter(|answer| answer.is_ok()).count();
    assert!((900..1_300).contains(&taken), "{taken} of 2,000 joined");
    let refusals: Vec<_> = answers.iter().filter_map(|answer| answer.as_ref().err()).collect();
    for (file, number) in every_pair_refusal() {
        let times = refusals.iter().filter(|of| (of.file, of.number) == (file, number)).count();
        let asked = [21, 11, 10].contains(&number);
        assert!(asked || times >= 5, "refusal {number} of file {file}: {times} times");
    }
    let crowded = |records| refusals.iter().any(|of| (of.number, of.record) == (13, records));
    assert!(crowded(641) && crowded(1_280));
    assert!(answers.iter().flatten().any(|file| file.len() == 61_440));
    assert!(answers.iter().flatten().any(|file| file.is_empty()));
}

/// The records of a file for which this holds.
fn some(file: &[u8], wanted: impl Fn(&[u8]) -> bool) -> Vec<u8> {
    file.chunks(96).filter(|record| wanted(record)).flatten().copied().collect()
}

#[test]
fn a_joined_account_has_of_each_contract_what_its_file_has() {
    for (files, joined) in joinable(1_500) {
        let account = check(&joined).expect("an accepted account");
        let numbers: Vec<u8> = account.contracts.iter().map(|of| of.number as u8).collect();
        let lists = |file: &[u8], number| file.chunks(96).any(|record| record[..2] == [1, number]);
        let listed = |number: &u8| files.iter().any(|file| lists(file, *number));
        assert_eq!(numbers, (0..16).filter(listed).collect::<Vec<u8>>());
        for (figures, number) in figures_of(&account).iter().zip(numbers) {
            let supplier = &files[usize::from(lists(&files[1], number))];
            let own = some(supplier, |record| record[0] < 5 && record[1] == number);
            let alone = [own, some(&files[0], |record| record[0] == 6)].concat();
            let question = u64::from(number);
            assert_eq!(book_of(&joined, question), book_of(&alone, question));
            // Credit, and with it the margin, also goes by the other contracts.
            let mut of_alone = figures_of(&check(&alone).expect("an accepted account"))[0];
            of_alone.credit = figures.credit;
            of_alone.margin = figures.margin;
            assert_eq!(*figures, of_alone);
        }
        let from_morning = |file| some(file, |record| record[0] >= 5);
        assert_eq!(from_morning(&joined), from_morning(&files[0]));
    }
}

#[test]
fn the_prompts_handed_back_are_those_of_the_joined_account() {
    for (files, joined) in joinable(400) {
        for number in 0..18 {
            let part = prompts(&files[0], &files[1], u64::from(number));
            let its_prompts = |record: &&[u8]| record[..2] == [2, number];
            let wanted: Vec<u8> =
                joined.chunks(96).filter(its_prompts).flatten().copied().collect();
            let listed = joined.chunks(96).any(|record| record[..2] == [1, number]);
            assert_eq!(part.file != 0, listed);
            if listed {
                let file = &files[usize::from(part.file) - 1];
                assert_eq!(file[96 * part.first..96 * (part.first + part.records)], wanted);
            }
            assert!(part.records > 0 || part.first == 0);
        }
    }
}

#[test]
fn amounts_lie_on_both_sides_of_the_requirement_and_of_their_range() {
    let mut random = Random::new(SEED, 0);
    let requirement = Amount(1_000);
    let drawn: Vec<_> = (0..4_000).map(|_| cover(&mut random, requirement)).collect();
    let all = [-1, 0, 1_000_000_000_000_000, 1_000_000_000_000_001, i64::MIN, i64::MAX];
    for amount in all.map(Amount) {
        assert!(drawn.iter().any(|of| of.last_call == amount), "{amount:?}");
        assert!(drawn.iter().any(|of| of.threshold == amount), "{amount:?}");
        assert!(drawn.iter().any(|of| of.collateral == amount), "{amount:?}");
    }
    let inside: Vec<_> =
        drawn.into_iter().filter(|of| joined::call(&[], &[], *of).is_ok()).collect();
    for apart in [-1, 0, 1] {
        let near = Amount(1_000 + apart);
        assert!(inside.iter().any(|of| of.last_call + of.threshold == near));
        assert!(inside.iter().any(|of| of.collateral == near));
    }
    let calls = inside.iter().filter(|of| cover_call(requirement, **of) > Amount(0)).count();
    assert!((300..3_000).contains(&calls), "{calls} calls");
}
