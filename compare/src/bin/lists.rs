//! lists SEED COUNT [FIRST]: puts lists of spreads for COUNT generated accounts and pairs, from index FIRST on, to the proved library
//! and to the independent program: right lists, lists wrong in one place by one, lists that others could form but that are not the
//! greatest, uses moved between prompts of one tier, other counts, and lists with faults of every sort. What is said, and of which
//! step, must agree; the book and the uses that the library gives are judged right.

use compare::asking::{same, Run};
use compare::numbered;
use felgotany::{ListOutcome, Pair, PairListOutcome};
use independent::generate::{self, Random};
use independent::list::{judge, judge_joined, List, Verdict};
use independent::{check, held_book, joined, Account, PairRefusal};
use std::collections::BTreeMap;
use std::process::ExitCode;

/// From so many accounts on, each sort of list with each answer named below is expected to occur.
const ALL_OCCUR: u64 = 2_000;
const TABLE: u64 = 16;
/// Each sort of list, and what is said of some list of it.
const EXPECTED: [(&str, &[&str]); 7] = [
    ("right", &["yes", "refusal 11"]),
    ("number by one", &["more", "less"]),
    ("use by one", &["another use"]),
    ("not the greatest", &["less"]),
    ("moved in a tier", &["another use"]),
    ("other counts", &["refusal 18", "refusal 11"]),
    ("any faults", &["yes", "more", "less", "another use", "refusal 18"]),
];

fn main() -> ExitCode {
    let Some(run) = Run::of_arguments() else {
        eprintln!("usage: lists SEED COUNT [FIRST]");
        return ExitCode::from(2);
    };
    let mut tally = Tally::default();
    let differences = run.differences(|index| compare_lists(run.seed, index, &mut tally));
    println!("seed {}, {} accounts and pairs from index {}", run.seed, run.count, run.first);
    for ((sort, said), count) in &tally.0 {
        println!("{sort}: {said}: {count}");
    }
    println!("{differences} differences");
    if differences == 0 && (run.count < ALL_OCCUR || tally.nothing_missing()) {
        ExitCode::SUCCESS
    } else {
        ExitCode::FAILURE
    }
}

/// How often each sort of list got each answer.
#[derive(Default)]
struct Tally(BTreeMap<(String, String), u64>);

impl Tally {
    fn see(&mut self, sort: &str, said: &Result<Verdict, PairRefusal>) {
        let said = match said {
            Ok(Verdict::Yes) => "yes".to_string(),
            Ok(Verdict::More { .. }) => "more".to_string(),
            Ok(Verdict::Less { .. }) => "less".to_string(),
            Ok(Verdict::OtherUse { .. }) => "another use".to_string(),
            Err(refusal) => format!("refusal {}", refusal.number),
        };
        *self.0.entry((sort.to_string(), said)).or_default() += 1;
    }

    fn nothing_missing(&self) -> bool {
        let mut missing = false;
        for (sort, answers) in EXPECTED {
            for said in answers {
                if !self.0.contains_key(&(sort.to_string(), said.to_string())) {
                    println!("never occurred: {sort}: {said}");
                    missing = true;
                }
            }
        }
        !missing
    }
}

fn compare_lists(seed: u64, index: u64, tally: &mut Tally) -> Result<(), String> {
    let mut random = Random::new(!seed, index);
    let file = generate::account(seed, index);
    let (morning, noon) = generate::pair(seed, index);
    let alone = check(&file).ok();
    let together = joined::account(&morning, &noon).ok();
    for (account, of) in [(&alone, Of::File(&file)), (&together, Of::Pair(&morning, &noon))] {
        for question in questions(account.as_ref(), &mut random) {
            let right = account.as_ref().and_then(|account| held_book(account, question).ok()).map(|book| List::of(&book));
            own_is_right(of, question, right.as_ref())?;
            let right = right.unwrap_or(List { prompts: 0, numbers: vec![], uses: vec![] });
            let tiers = tiers_of(account.as_ref(), question);
            for (sort, list) in lists(&right, &tiers, &mut random) {
                let said = of.independent(question, &list);
                tally.see(sort, &said);
                same(&format!("question {question}, {sort} {list:?}"), of.proved(question, &list), told(&said))?;
            }
        }
    }
    Ok(())
}

/// A file, or a morning and a noon file.
#[derive(Clone, Copy)]
enum Of<'a> {
    File(&'a [u8]),
    Pair(&'a [u8], &'a [u8]),
}

impl Of<'_> {
    fn proved(self, question: u64, List { prompts, numbers, uses }: &List) -> PairListOutcome {
        let list = felgotany::List { prompts: *prompts, numbers, uses };
        match self {
            Of::File(file) => PairListOutcome { file: 0, list: felgotany::judge(file, question as usize, list) },
            Of::Pair(morning, noon) => Pair { morning, noon }.judge(question as usize, list),
        }
    }

    fn independent(self, question: u64, list: &List) -> Result<Verdict, PairRefusal> {
        match self {
            Of::File(file) => judge(file, question, list).map_err(|refusal| refusal.of(0)),
            Of::Pair(morning, noon) => judge_joined(morning, noon, question, list),
        }
    }
}

fn told(said: &Result<Verdict, PairRefusal>) -> PairListOutcome {
    match said {
        Ok(verdict) => {
            let [verdict, step] = numbered(*verdict);
            PairListOutcome { file: 0, list: ListOutcome { refusal: 0, record: 0, verdict, step } }
        }
        Err(PairRefusal { file, number, record }) => {
            let list = ListOutcome { refusal: usize::from(*number), record: *record, verdict: 0, step: 0 };
            PairListOutcome { file: usize::from(*file), list }
        }
    }
}

/// Any question, the table, and two contracts of the account.
fn questions(account: Option<&Account>, random: &mut Random) -> Vec<u64> {
    let mut questions = vec![generate::question(random), TABLE];
    let contracts = account.iter().flat_map(|account| &account.contracts);
    questions.extend(contracts.take(2).map(|contract| contract.number as u64));
    questions
}

/// The tiers of the prompts that a question is about.
fn tiers_of(account: Option<&Account>, question: u64) -> Vec<i64> {
    let Some(account) = account else { return vec![] };
    match i64::try_from(question).ok().and_then(|number| account.contract(number)) {
        Some(contract) if question != TABLE => contract.prompts.iter().map(|prompt| prompt.tier).collect(),
        _ => account.contracts.iter().map(|contract| contract.number).collect(),
    }
}

/// What the library writes for a question is what it judges right.
fn own_is_right(of: Of, question: u64, right: Option<&List>) -> Result<(), String> {
    let Some(List { prompts, numbers, uses }) = right else { return Ok(()) };
    let (mut book, mut used) = ([0; felgotany::MOST_BOOK], vec![0; felgotany::MOST_USES]);
    match of {
        Of::File(file) => {
            felgotany::book(file, question as usize, &mut book);
            felgotany::uses(file, question as usize, &mut used);
        }
        Of::Pair(morning, noon) => {
            Pair { morning, noon }.book(question as usize, &mut book);
            Pair { morning, noon }.uses(question as usize, &mut used);
        }
    }
    let own =
        List { prompts: *prompts, numbers: book[3 * prompts..][..numbers.len()].to_vec(), uses: used[..uses.len()].to_vec() };
    same(&format!("question {question}, the library's own list"), of.proved(question, &own), told(&Ok(Verdict::Yes)))
}

/// The sorts of lists that are put to both.
fn lists(right: &List, tiers: &[i64], random: &mut Random) -> Vec<(&'static str, List)> {
    let mut lists = vec![("right", right.clone()), ("any faults", generate::list(random, right))];
    let steps = right.numbers.len();
    let mut changed = |sort, change: &mut dyn FnMut(&mut List)| {
        let mut list = right.clone();
        change(&mut list);
        lists.push((sort, list));
    };
    if steps > 0 {
        let (step, by) = (random.place(steps), random.pick(&[1, -1]));
        changed("number by one", &mut |list| list.numbers[step] += by);
    }
    if !right.uses.is_empty() {
        let (place, by) = (random.place(right.uses.len()), random.pick(&[1, -1]));
        changed("use by one", &mut |list| list.uses[place] += by);
    }
    // Right up to a step that forms something; after it nothing is formed, which every pool has room for.
    let forms: Vec<usize> = (0..steps).filter(|step| right.numbers[*step] > 0).collect();
    if !forms.is_empty() {
        let from = random.pick(&forms);
        changed("not the greatest", &mut |list| {
            list.numbers[from..].fill(0);
            list.uses[from * list.prompts..].fill(0);
        });
    }
    if let Some((place, next)) = used_with_another_of_its_tier(right, tiers, random) {
        changed("moved in a tier", &mut |list| {
            let moved = list.uses[place].signum();
            list.uses[place] -= moved;
            list.uses[next] += moved;
        });
    }
    let (more, fewer) = (random.one_in(2), random.below(4));
    changed("other counts", &mut |list| match (fewer, more) {
        (0, true) => list.prompts += 1,
        (0, false) => list.prompts = list.prompts.wrapping_sub(1),
        (1, true) => list.numbers.push(0),
        (1, false) => list.numbers = list.numbers.iter().skip(1).copied().chain([0; 3]).collect(),
        (2, true) => list.uses.push(0),
        (2, false) => list.uses = list.uses.iter().skip(1).copied().chain([0; 2]).collect(),
        (_, true) => list.prompts = usize::MAX,
        (_, false) => list.prompts += 1 << 40,
    });
    lists
}

/// A use that is not 0, and the place of another prompt of the same tier in the same step.
fn used_with_another_of_its_tier(right: &List, tiers: &[i64], random: &mut Random) -> Option<(usize, usize)> {
    let prompts = right.prompts;
    let mut found = vec![];
    for place in (0..right.uses.len()).filter(|place| right.uses[*place] != 0) {
        let (step, prompt) = (place / prompts, place % prompts);
        let others = (0..prompts).filter(|other| *other != prompt && tiers[*other] == tiers[prompt]);
        found.extend(others.map(|other| (place, step * prompts + other)));
    }
    if found.is_empty() {
        None
    } else {
        Some(random.pick(&found))
    }
}
