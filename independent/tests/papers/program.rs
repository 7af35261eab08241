//! The program's lines, as it prints them.

use crate::builder::*;
use crate::reckoned::printed;
use independent::generate;
use independent::refusal::every_pair_refusal;
use std::fs;
use std::io::Write;
use std::process::{Command, Output, Stdio};

/// Runs the program with these arguments and this standard input.
fn run(arguments: &[&str], input: &[u8]) -> Output {
    let mut child = Command::new(env!("CARGO_BIN_EXE_independent"))
        .args(arguments)
        .stdin(Stdio::piped())
        .stdout(Stdio::piped())
        .stderr(Stdio::piped())
        .spawn()
        .expect("the program starts");
    child.stdin.take().unwrap().write_all(input).expect("the program reads its input");
    child.wait_with_output().expect("the program ends")
}

fn lines(arguments: &[&str], input: &[u8]) -> String {
    let output = run(arguments, input);
    assert!(output.status.success());
    String::from_utf8(output.stdout).unwrap()
}

#[test]
fn the_figures_are_printed_as_document_01_prints_them() {
    assert_eq!(lines(&[], &printed()), "C 3 13 383250 0 400 0 1500 383650\nT 383650\n");
    assert_eq!(lines(&[], &[]), "T 0\n");
}

#[test]
fn a_refusal_is_the_only_line() {
    assert_eq!(lines(&[], &[0; 95]), "R 2 0\n");
    assert_eq!(lines(&[], &[0; 61_441]), "R 1 0\n");
    let account = file(&[&[contract(1, 0), prompt(1, 1, 10), with(contract(2, 0), 0, 9)]]);
    for arguments in [&[][..], &["check"], &["book", "1"], &["book", "16"]] {
        assert_eq!(lines(arguments, &account), "R 3 2\n");
    }
}

#[test]
fn check_prints_a_for_an_accepted_account() {
    assert_eq!(lines(&["check"], &printed()), "A\n");
}

#[test]
fn a_book_is_printed_by_prompts_and_spreads() {
    let account = file(&[
        &[contract(1, 0), contract(2, 0), prompt(1, 1, 1), prompt(1, 1, 2), prompt(2, 1, 1)],
        &net(1, 1, 30_001),
        &net(1, 2, -50_000),
        &net(2, 1, 10_000),
        &[spread(1, 0, &[(1, 'A', 2), (1, 'B', 1)])],
        &[entry(50, (2, 1), (1, 1))],
    ]);
    assert_eq!(
        lines(&["book", "1"], &account),
        "P 30001 30001 0\nP -50000 -15002 -34998\nS 15000 1\nN 4\n"
    );
    assert_eq!(
        lines(&["book", "16"], &account),
        "P -19999 -10000 -9999\nP 10000 10000 0\nS 10000 0\nN 2\n"
    );
    assert_eq!(lines(&["book", "3"], &account), "R 11 13\n");
}

#[test]
fn write_gives_the_generated_bytes() {
    for index in 0..40 {
        let output = run(&["write", "9", &index.to_string()], &[]);
        assert_eq!(output.stdout, generate::account(9, index));
    }
}

#[test]
fn a_survey_counts_every_refusal() {
    let survey = lines(&["survey", "5", "2000"], &[]);
    assert!(survey.starts_with("files 2000\naccepted "));
    for number in 1..=11 {
        assert!(
            survey.contains(&format!("\nrefusal {number}: ")),
            "refusal {number} is not counted"
        );
    }
    assert!(survey.contains("\nrefusal 1 while 2 holds elsewhere: "));
    assert!(survey.contains("\nrefusal 11 while 10 holds elsewhere: "));
}

/// The path of a file that a test writes, with these bytes.
fn written(name: &str, bytes: &[u8]) -> String {
    let path = format!("{}/{name}", env!("CARGO_TARGET_TMPDIR"));
    fs::write(&path, bytes).expect("the file is written");
    path
}

#[test]
fn a_pair_is_printed_as_its_joined_account() {
    let morning = written("pair-morning", &printed());
    let noon = written("pair-noon", &file(&[&[contract(5, 0)]]));
    assert_eq!(
        lines(&["pair", &morning, &noon], &[]),
        "C 3 13 383250 0 400 0 1500 383650\nC 5 1 0 0 0 0 0 0\nT 383650\n"
    );
    let closed = written("pair-closed", &file(&[&[contract(3, 0)]]));
    assert_eq!(lines(&["pair", &morning, &closed], &[]), "C 3 1 0 0 0 0 0 0\nT 0\n");
}

#[test]
fn a_refused_pair_says_which_file() {
    let sound = written("refused-sound", &printed());
    let short = written("refused-short", &[0; 95]);
    let entries = [contract(1, 0), contract(2, 0), entry(1, (1, 1), (2, 1))];
    let with_entry = written("refused-entry", &file(&[&entries]));
    for (morning, noon, line) in [
        (&short, &sound, "R 1 2 0\n"),
        (&sound, &short, "R 2 2 0\n"),
        (&sound, &with_entry, "R 2 12 2\n"),
    ] {
        assert_eq!(lines(&["pair", morning, noon], &[]), line);
        assert_eq!(lines(&["call", morning, noon, "-1", "0", "0"], &[]), line);
    }
    assert_eq!(lines(&["call", &sound, &sound, "0", "-1", "0"], &[]), "R 0 21 4\n");
}

#[test]
fn a_call_is_printed_with_its_amount() {
    let morning = written("call-morning", &printed());
    let noon = written("call-noon", &[]);
    let called = |amounts: [&str; 3]| {
        let [last, threshold, collateral] = amounts;
        lines(&["call", &morning, &noon, last, threshold, collateral], &[])
    };
    assert_eq!(called(["300000", "83649", "383600"]), "L 50\n");
    assert_eq!(called(["300000", "83650", "383600"]), "L 0\n");
    assert_eq!(called(["0", "0", "1000000000000000"]), "L 0\n");
    assert_eq!(called(["0", "0", "1000000000000001"]), "R 0 21 4\n");
}

#[test]
fn write_pair_writes_the_generated_files() {
    for index in 0..20 {
        let [morning, noon] =
            ["morning", "noon"].map(|name| written(&format!("write-{name}"), b"before"));
        let output = run(&["write-pair", "9", &index.to_string(), &morning, &noon], &[]);
        assert!(output.status.success() && output.stdout.is_empty());
        let files = [morning, noon].map(|path| fs::read(path).expect("the file is there"));
        assert_eq!(files, <[Vec<u8>; 2]>::from(generate::pair(9, index)));
    }
}

#[test]
fn a_survey_of_pairs_counts_every_refusal() {
    let survey = lines(&["survey-pairs", "5", "2000"], &[]);
    assert!(survey.starts_with("pairs 2000\njoined "));
    for (file, number) in every_pair_refusal() {
        let counted = format!("\nrefusal {number} of file {file}: ");
        assert!(survey.contains(&counted), "refusal {number} of file {file} is not counted");
    }
    assert!(!survey.contains(": 0\n"), "{survey}");
}

#[test]
fn the_other_surveys_count_all_that_they_look_for() {
    for survey in [
        "survey-runs",
        "survey-lists",
        "survey-committee",
        "survey-tickets",
        "survey-screen",
        "survey-entries",
        "survey-statements",
    ] {
        let told = lines(&[survey, "5", "2000"], &[]);
        assert!(!told.contains(": 0\n"), "{told}");
    }
}

#[test]
fn a_file_that_is_not_there_is_told() {
    let there = written("there", &[]);
    let missing = format!("{there}/missing");
    for arguments in [&["pair", &there, &missing][..], &["call", &missing, &there, "0", "0", "0"]] {
        let output = run(arguments, &[]);
        assert_eq!(output.status.code(), Some(1));
        assert!(output.stdout.is_empty());
        assert!(String::from_utf8(output.stderr).unwrap().starts_with("independent: "));
    }
}

#[test]
fn wrong_usage_is_told() {
    for arguments in [
        &["books"][..],
        &["book"],
        &["book", "x"],
        &["book", "-1"],
        &["survey", "1"],
        &["write", "1", "x"],
        &["pair", "morning"],
        &["call", "morning", "noon", "0", "0"],
        &["call", "morning", "noon", "0", "0", "0.5"],
        &["survey-pairs", "1"],
        &["survey-runs", "1", "x"],
        &["surveys", "1", "1"],
        &["write-pair", "1", "x", "morning", "noon"],
    ] {
        let output = run(arguments, &[]);
        assert_eq!(output.status.code(), Some(2), "{arguments:?}");
        assert!(output.stdout.is_empty());
        assert!(String::from_utf8(output.stderr).unwrap().starts_with("usage: independent"));
    }
}
