//! Rounds of the proved library and of the tuned program alternate on the same accounts, and the quickest of seven counts. A
//! round's time is the processor's for this thread, to which other work on the machine does not add.

use crate::answers::{Asked, Lent, Places, Plain, Proved, Run, Tuned};
use std::hint::black_box;
use std::time::{Duration, Instant};

const ROUNDS: usize = 7;
const ROUND: Duration = Duration::from_millis(100);

/// Seconds for each account.
#[derive(Clone, Copy)]
pub struct Times {
    pub proved: f64,
    pub tuned: f64,
    pub plain: f64,
}

/// What is asked of a file.
#[derive(Clone, Copy)]
pub enum Question {
    Check,
    Figures,
    Book(usize),
    All,
    Each,
}

impl Question {
    fn put<A: Asked>(self, file: &[u8], lent: &mut Lent) {
        match self {
            Question::Check => _ = black_box(A::check(file)),
            Question::Figures => A::figures(file, lent),
            Question::Book(question) => A::book(file, question, lent),
            Question::All => A::all(file, lent),
            Question::Each => A::each(file, lent),
        }
    }
}

/// Times a question after the three have given the same answers to it.
pub fn times(files: &[Vec<u8>], question: Question) -> Times {
    files.iter().for_each(|file| same_answers(file, question));
    quickest(
        || round(files, |file, lent| question.put::<Proved>(file, lent)),
        || round(files, |file, lent| question.put::<Tuned>(file, lent)),
        || round(files, |file, lent| question.put::<Plain>(file, lent)),
    )
}

/// Times the figures of pairs, or the book of a question, in the same way.
pub fn joined_times(pairs: &[[Vec<u8>; 2]], book: Option<usize>) -> Times {
    fn put<A: Asked>(pair: &[Vec<u8>; 2], book: Option<usize>, lent: &mut Lent) {
        match book {
            Some(question) => A::joined_book(pair, question, lent),
            None => A::joined_figures(pair, lent),
        }
    }
    for pair in pairs {
        let [mut by_proved, mut by_tuned, mut by_plain] = [(); 3].map(|()| Lent::new());
        put::<Proved>(pair, book, &mut by_proved);
        put::<Tuned>(pair, book, &mut by_tuned);
        put::<Plain>(pair, book, &mut by_plain);
        assert!(by_proved == by_tuned && by_proved == by_plain && by_proved != Lent::new());
    }
    quickest(
        || round(pairs, |pair, lent| put::<Proved>(pair, book, lent)),
        || round(pairs, |pair, lent| put::<Tuned>(pair, book, lent)),
        || round(pairs, |pair, lent| put::<Plain>(pair, book, lent)),
    )
}

/// The quickest round of each, by turns; one of the plain program, which takes longest.
fn quickest(
    mut proved: impl FnMut() -> f64,
    mut tuned: impl FnMut() -> f64,
    mut plain: impl FnMut() -> f64,
) -> Times {
    let mut least = Times { proved: f64::MAX, tuned: f64::MAX, plain: plain() };
    for _ in 0..ROUNDS {
        least.proved = least.proved.min(proved());
        least.tuned = least.tuned.min(tuned());
    }
    least
}

/// Times one call for all the files, after the three have left the same numbers in its places.
pub fn run_times(files: &[Vec<u8>]) -> Times {
    let run = Run::of(files);
    let [mut by_proved, mut by_tuned, mut by_plain] = [(); 3].map(|()| Places::of(&run));
    Proved::run(&run, &mut by_proved);
    Tuned::run(&run, &mut by_tuned);
    Plain::run(&run, &mut by_plain);
    assert!(by_proved == by_tuned && by_proved == by_plain);
    quickest(
        || run_round::<Proved>(&run, files.len(), &mut by_proved),
        || run_round::<Tuned>(&run, files.len(), &mut by_tuned),
        || run_round::<Plain>(&run, files.len(), &mut by_plain),
    )
}

/// The run, as often as a round lasts.
fn run_round<A: Asked>(run: &Run, accounts: usize, lent: &mut Places) -> f64 {
    let each = each_time(|| {
        A::run(black_box(run), lent);
        black_box(&mut *lent);
    });
    each / accounts as f64
}

fn same_answers(file: &[u8], question: Question) {
    let lent = answer::<Proved>(file, question);
    assert!(lent == answer::<Tuned>(file, question) && lent == answer::<Plain>(file, question));
    assert_eq!([Proved::check(file); 2], [Tuned::check(file), Plain::check(file)]);
}

fn answer<A: Asked>(file: &[u8], question: Question) -> Lent {
    let mut lent = Lent::new();
    question.put::<A>(file, &mut lent);
    lent
}

/// All the accounts, as often as a round lasts.
fn round<T>(accounts: &[T], put: impl Fn(&T, &mut Lent)) -> f64 {
    let mut lent = Lent::new();
    let each = each_time(|| {
        for account in accounts {
            put(black_box(account), &mut lent);
            black_box(&mut lent);
        }
    });
    each / accounts.len() as f64
}

/// Processor time for one of many times, in seconds.
fn each_time(mut ask: impl FnMut()) -> f64 {
    let (began, used) = (Instant::now(), processor_time());
    let mut times = 0;
    while times == 0 || began.elapsed() < ROUND {
        ask();
        times += 1;
    }
    (processor_time() - used).as_secs_f64() / f64::from(times)
}

/// What this thread has had of a processor.
fn processor_time() -> Duration {
    #[repr(C)]
    struct Time {
        seconds: i64,
        nanoseconds: i64,
    }
    extern "C" {
        fn clock_gettime(clock: i32, time: *mut Time) -> i32;
    }
    const THREAD: i32 = 3;
    let mut time = Time { seconds: 0, nanoseconds: 0 };
    assert_eq!(unsafe { clock_gettime(THREAD, &mut time) }, 0);
    Duration::new(time.seconds as u64, time.nanoseconds as u32)
}
