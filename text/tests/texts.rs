//! Texts that are written, and what is said of those that cannot be.

use account_text::read::read;
use account_text::write::write;

const FORWARD_ROW: &str =
    "row,3,forward,20260318,0,2,9800,25,0,0,-4900,-4900,4900,4900,-9800,-9800,9800,9800,\
     -14700,-14700,14700,14700,-10300,10300,0";

/// What is said of the only line that cannot be written.
fn message(text: &str) -> String {
    let [misread] = &messages(text)[..] else { panic!("not one line") };
    misread.clone()
}

fn messages(text: &str) -> Vec<String> {
    let misread = write(text.as_bytes()).expect_err("a text that cannot be written");
    misread.iter().map(ToString::to_string).collect()
}

/// The bytes that a text writes.
fn bytes(text: &[u8]) -> Vec<u8> {
    write(text).unwrap_or_else(|misread| panic!("{misread:?}")).file
}

/// The text form of what a text writes, without the lines of columns.
fn lines(text: &str) -> Vec<String> {
    read(&bytes(text.as_bytes()))
        .lines()
        .filter(|line| !line.starts_with('#'))
        .map(str::to_string)
        .collect()
}

#[test]
fn every_kind_is_read_as_it_was_written() {
    let text = [
        "contract,3,500,0",
        "contract,4,0,100",
        "prompt,3,1,20260318,0,1000",
        FORWARD_ROW,
        "interprompt spread,3,2,700,1,A,1,2,B,3",
        "interprompt spread,3,3,700,1,A,1,2,B,2,3,A,1",
        "intercontract spread,3,4,85,48,5,whole",
        "intercontract spread,3,4,85,96,10,tenths",
        "currency rate,1,1082500,3",
        "currency rate,7,6514,50",
    ];
    assert_eq!(lines(&text.join("\n")), text);
}

#[test]
fn comments_and_empty_lines_say_nothing() {
    assert_eq!(bytes(b"# all,of,\"this\n\n  # and this\n,,,\n\"# quoted\",\n"), []);
}

#[test]
fn a_line_ends_with_cr_lf_or_both() {
    let lines = ["# columns", "contract,3,500", "", "prompt,3,1,20260318,0,1000"];
    for end in ["\r", "\n", "\r\n"] {
        let written = write(lines.join(end).as_bytes()).expect("a text");
        assert_eq!(written.file, bytes(b"contract,3,500\nprompt,3,1,20260318,0,1000"));
        assert_eq!([written.line_of(0), written.line_of(1)], [Some(2), Some(4)]);
    }
}

#[test]
fn what_a_spreadsheet_saves_is_the_same() {
    let saved = "\u{feff}\"# contract\",number,,\r\n\"contract\", 3 ,500,,,\r\n";
    assert_eq!(bytes(saved.as_bytes()), bytes(b"contract,3,500"));
}

#[test]
fn a_quotation_mark_that_is_not_closed_hides_no_other_line() {
    assert_eq!(bytes(b"\"# note\ncontract,3,500\n"), bytes(b"contract,3,500"));
    assert_eq!(
        message("contract,\"3,500\nprompt,3,1,20260318,0,1000\n"),
        "line 1, number: found '3,500', expected a whole number 0..15; '3500' was probably meant, \
         with no mark between the digits"
    );
}

#[test]
fn every_line_with_a_fault_is_told() {
    let told = messages("contract,x,0\nprompt,3,1,20260318,0,0\nRow,3\n");
    assert_eq!(told.len(), 2);
    assert!(told[0].starts_with("line 1, number: ") && told[1].starts_with("line 3, kind: "));
}

#[test]
fn numbers_outside_their_range_are_written_as_far_as_the_bytes_hold_them() {
    let text = ["contract,255,4294967295,65535", "prompt,16,0,0,4294967295,10000001"];
    assert_eq!(lines(&text.join("\n")), text);
    let row = FORWARD_ROW.replace("9800,25", "-2147483648,0").replace("forward", "7");
    assert_eq!(lines(&row), [row]);
    let spread = "interprompt spread,3,4,700,1,A,1,2,3,65535,0,0,0";
    assert_eq!(lines(spread), [spread]);
    let rate = "currency rate,0,4294967295,255";
    assert_eq!(lines(rate), [rate]);
}

#[test]
fn numbers_that_the_bytes_do_not_hold_are_not_written() {
    let cases = [
        ("contract,256,0", "line 1, number: found '256', expected a whole number 0..15"),
        (
            "# contract\n\ncontract,1,4294967296",
            "line 3, short option rate: found '4294967296', expected a whole number 0..10000000, in \
             hundredths",
        ),
        (
            "intercontract spread,1,2,85,65536,1",
            "line 1, first ratio: found '65536', expected a whole number 1..100",
        ),
        (
            "intercontract spread,1,2,85,10,65536,tenths",
            "line 1, second ratio: found '65536', expected a whole number 1..1000 in tenths",
        ),
        (
            "contract,1,0,65536",
            "line 1, unit: found '65536', expected a whole number 0..1000, in hundredths",
        ),
        (
            "currency rate,256,1,0",
            "line 1, currency: found '256', expected a whole number 1..7",
        ),
        (
            "currency rate,1,4294967296,0",
            "line 1, spot rate: found '4294967296', expected a whole number 1..100000000, in millionths",
        ),
        ("contract,-1,0", "line 1, number: found '-1', expected a whole number 0..15"),
        (
            "contract,99999999999999999999,0",
            "line 1, number: found '99999999999999999999', expected a whole number 0..15",
        ),
    ];
    for (text, told) in cases {
        assert_eq!(message(text), told);
    }
    assert_eq!(
        message(&FORWARD_ROW.replace("10300,0", "2147483648,0")),
        "line 1, loss 16: found '2147483648', expected a whole number -100000..100000, in ticks"
    );
}

#[test]
fn what_is_no_number_is_not_written() {
    for cell in ["x", "0x10", "--1", "1.505", "1.2.3"] {
        assert_eq!(
            message(&format!("contract,1,{cell}")),
            format!(
                "line 1, short option rate: found '{cell}', expected a whole number 0..10000000, in \
                 hundredths"
            )
        );
    }
}

/// The end of what is said of a text, after what is expected.
fn meant(text: &str) -> String {
    let told = message(text);
    told.split_once("; ").map_or("", |(_, meant)| meant).to_string()
}

#[test]
fn what_was_probably_meant_is_told() {
    let row = |old: &str, new: &str| meant(&FORWARD_ROW.replace(old, new));
    let cases = [
        (row("forward", "Forward"), "'forward' was probably meant"),
        (row("forward", "F"), "'forward' was probably meant"),
        (row("forward", "0"), "'forward' was probably meant"),
        (row("20260318", "2026-03-18"), "'20260318' was probably meant"),
        (row("20260318", "2026/3/8"), "'20260308' was probably meant"),
        (row("9800,25", "0.98,25"), "0.98 is 9800 in ten-thousandths"),
        (row(",2,", ",2.0,"), "'2' was probably meant"),
        (meant("contract,1,250.00"), "250.00 is 25000 in hundredths"),
        (meant("contract,1,0,1.00"), "1.00 is 100 in hundredths"),
        (meant("contract,1,-2.5"), "-2.5 is -250 in hundredths"),
        (
            meant("contract,1,\"25,000\""),
            "'25000' was probably meant, with no mark between the digits",
        ),
        (meant("contract,1,25,000"), "numbers are written without commas"),
        (meant("contract,1,4.29E+09"), "a spreadsheet has shortened this number"),
        (meant("contract;1;0"), "columns are separated by commas, and this line has semicolons"),
        (meant("contract\t1\t0"), "columns are separated by commas, and this line has tabs"),
        (meant("Contract,1,0"), "'contract' was probably meant"),
        (meant("rows,1"), "'row' was probably meant"),
        (meant("rate,1,1082500,3"), "'currency rate' was probably meant"),
        (meant("currency rate,1,1.0825,3"), "1.0825 is 1082500 in millionths"),
        (
            meant(&format!("{}EUR", FORWARD_ROW.trim_end_matches('0'))),
            "a currency is a number: 0 is the margin currency, each other has its line 'currency rate'",
        ),
        (meant("entry,1,2,50,1,1"), "'intercontract spread' was probably meant"),
        (meant("spread,3,2,700,1,A,1,2,B,3"), "'interprompt spread' was probably meant"),
        (
            meant("contract,number,short option rate"),
            "a line with the names of the columns begins with #",
        ),
        (meant("interprompt spread,3,2,700,1,a,1,2,B,3"), "'A' was probably meant"),
        (meant("intercontract spread,2,1,85,9.6,1,tenths"), "9.6 is 96 in tenths"),
        (meant("intercontract spread,2,1,85,1.0,1,whole"), "'1' was probably meant"),
        (meant("intercontract spread,2,1,85,96,10,Tenths"), "'tenths' was probably meant"),
        (meant("interprompt spread,3,2,700,1,A,1,2,2,3"), "'B' was probably meant"),
    ];
    for (told, expected) in cases {
        assert_eq!(told, expected);
    }
}

#[test]
fn an_unknown_word_is_not_written() {
    let kinds =
        "contract, prompt, row, interprompt spread, intercontract spread, currency rate or bytes";
    assert_eq!(message("leg,3"), format!("line 1, kind: found 'leg', expected {kinds}"));
    assert_eq!(message(",3"), format!("line 1, kind: found nothing, expected {kinds}"));
    assert_eq!(
        message(&FORWARD_ROW.replace("forward", "future")),
        "line 1, class: found 'future', expected forward, call or put"
    );
    assert_eq!(
        message("interprompt spread,3,2,700,1,C,1,2,B,3"),
        "line 1, leg 1 side: found 'C', expected A or B"
    );
}

#[test]
fn a_line_with_too_few_columns_is_not_written() {
    assert_eq!(
        message("contract,3"),
        "line 1, short option rate: found nothing, expected a whole number 0..10000000, in hundredths"
    );
    assert_eq!(
        message("prompt,3,,20260318,0,0"),
        "line 1, tier: found nothing, expected a whole number 1..8"
    );
    assert_eq!(
        message("interprompt spread,3,3,700,1,A,1,2,B,3"),
        "line 1, leg 3 tier: found nothing, expected a whole number 1..8"
    );
}

#[test]
fn a_contract_whose_unit_is_left_out_has_hundredths() {
    assert_eq!(bytes(b"contract,3,500"), bytes(b"contract,3,500,0"));
    assert_ne!(bytes(b"contract,3,500"), bytes(b"contract,3,500,1"));
}

#[test]
fn a_row_whose_currency_is_left_out_is_in_the_margin_currency() {
    let row = FORWARD_ROW.strip_suffix(",0").expect("currency 0");
    assert_eq!(bytes(row.as_bytes()), bytes(FORWARD_ROW.as_bytes()));
    assert_ne!(bytes(row.as_bytes()), bytes(format!("{row},1").as_bytes()));
    assert_eq!(bytes(format!("{row},7").as_bytes())[3], 7);
    assert_eq!(
        message("currency rate,,1,0"),
        "line 1, currency: found nothing, expected a whole number 1..7"
    );
}

#[test]
fn a_line_with_too_many_columns_is_not_written() {
    assert_eq!(
        message("contract,3,500,0,7"),
        "line 1, column 5: found '7', expected the line to end after 4 columns"
    );
    assert_eq!(
        message("interprompt spread,3,2,700,1,A,1,2,B,3,3,A,1"),
        "line 1, column 11: found '3', expected the line to end after 10 columns"
    );
    assert_eq!(
        message("bytes,0x00,0x00"),
        "line 1, column 3: found '0x00', expected the line to end after 2 columns"
    );
}

#[test]
fn bytes_are_written_as_they_stand() {
    assert_eq!(bytes(b"bytes,0x00fF7\x61\nbytes,0x01"), [0, 255, 0x7a, 1]);
    for cell in ["", "0x", "00", "0x0", "0x0g", "0x+1", "0X00"] {
        let found = if cell.is_empty() { "nothing".to_string() } else { format!("'{cell}'") };
        assert_eq!(
            message(&format!("bytes,{cell}")),
            format!(
                "line 1, hex: found {found}, expected 0x and two hexadecimal digits for each \
                 byte"
            )
        );
    }
}

#[test]
fn a_long_or_unprintable_cell_is_shown_in_part() {
    let cell = "7".repeat(100);
    let shown = "7".repeat(40);
    assert_eq!(
        message(&format!("contract,{cell},0")),
        format!("line 1, number: found '{shown}..', expected a whole number 0..15")
    );
    assert!(message("contract,\u{1b}[2J,0").contains("'\\u{1b}[2J'"));
    assert!(write(b"contract,\xff,0").is_err());
}
