//! What is said of each fault, with the record that has it standing last in a text.

use account_text::fault::fault;
use account_text::write::write;
use independent::format::RECORD_BYTES;

const ACCOUNT: &str =
    "contract,3,0\ncontract,5,0\nprompt,3,2,20260318,0,0\nprompt,5,1,20260318,0,0\n";
const NO_LOSS: &str = "0,0,0,0,0,0,0,0,0,0,0,0,0,0,0,0";

/// The fault of the last record of these lines, for which they are refused.
fn said(number: usize, lines: &str) -> String {
    let file = write(lines.as_bytes()).unwrap_or_else(|misread| panic!("{misread:?}")).file;
    let last = file.len() / RECORD_BYTES - 1;
    let independent = independent::check(&file).err().expect("a refused account");
    assert_eq!((usize::from(independent.number), independent.record), (number, last));
    fault(number, last, &file).expect("a fault")
}

fn after_account(number: usize, line: &str) -> String {
    said(number, &format!("{ACCOUNT}{line}"))
}

#[test]
fn an_unknown_kind() {
    let zeros = "0".repeat(190);
    assert_eq!(
        after_account(3, &format!("bytes,0x00{zeros}")),
        "kind (byte 0) is 0; the kinds are 1 contract, 2 prompt, 3 row, 4 interprompt spread, \
         5 intercontract spread, 6 currency rate"
    );
}

#[test]
fn a_kind_below() {
    assert_eq!(
        after_account(4, "intercontract spread,3,5,1,1,1,whole\ncontract,6,0"),
        "kind (byte 0) is 1; the record before is an intercontract spread, kind 5"
    );
}

#[test]
fn the_first_unused_byte() {
    let third_leg = format!("bytes,0x0403020000000000020101000202010000000201{}", "0".repeat(152));
    assert_eq!(
        after_account(5, &third_leg),
        "byte 18 is 2; an interprompt spread of 2 legs does not use it"
    );
    let end = format!("bytes,0x0106{}09", "0".repeat(186));
    assert_eq!(said(5, &end), "byte 95 is 9; a contract does not use it");
}

#[test]
fn the_first_field_outside_its_range() {
    let row = |cells: &str| after_account(6, &format!("row,3,{cells},{NO_LOSS}"));
    let cases = [
        (said(6, "contract,16,10000001"), "number (byte 1) is 16; its range is 0..15"),
        (
            said(6, "contract,1,10000001"),
            "short option rate (bytes 4-7) is 10000001; its range is 0..10000000, in hundredths",
        ),
        (
            said(6, "contract,1,0,1001"),
            "unit (bytes 8-9) is 1001; its range is 0..1000, in hundredths",
        ),
        (
            after_account(6, &format!("row,3,forward,20260318,0,0,0,1,{NO_LOSS},8")),
            "currency (byte 3) is 8; its range is 0..7",
        ),
        (said(6, "currency rate,0,0,51"), "currency (byte 1) is 0; its range is 1..7"),
        (
            said(6, "currency rate,7,100000001,51"),
            "spot rate (bytes 4-7) is 100000001; its range is 1..100000000, in millionths",
        ),
        (
            said(6, "currency rate,7,1,51"),
            "adjustment percent (byte 8) is 51; its range is 0..50, in percent",
        ),
        (row("7,0,0,0,0,0"), "class (byte 2) is 7; its range is 0..2 (forward, call, put)"),
        (row("forward,20260318,9,0,0,1"), "strike (bytes 8-11) is 9; its range is 0 for a forward"),
        (
            row("call,20260318,0,0,0,1"),
            "strike (bytes 8-11) is 0; its range is 1..4294967295 for a call",
        ),
        (
            row("put,20260318,9,0,1,1"),
            "delta (bytes 16-19) is 1; its range is -10000..0 for a put, in ten-thousandths",
        ),
        (
            row("put,20260318,9,-100001,1,1"),
            "lots (bytes 12-15) is -100001; its range is -100000..100000, in lots",
        ),
        (
            after_account(6, "interprompt spread,3,2,0,2,A,1,2,0,1"),
            "leg 2 side (byte 13) is 0; its range is 1..2 (A, B)",
        ),
        (
            after_account(6, "interprompt spread,3,3,0,2,A,1,2,B,1,0,0,0"),
            "leg 3 tier (byte 16) is 0; its range is 1..8",
        ),
        (
            after_account(6, "interprompt spread,3,4,0,0,0,0,0,0,0,0,0,0"),
            "legs (byte 2) is 4; its range is 2..3",
        ),
        (
            after_account(6, "intercontract spread,3,5,0,101,1,whole"),
            "first ratio (bytes 4-5) is 101; its range is 1..100",
        ),
        (
            after_account(6, "intercontract spread,3,5,0,1000,1001,tenths"),
            "second ratio (bytes 6-7) is 1001; its range is 1..1000 in tenths",
        ),
        (
            after_account(6, "intercontract spread,3,5,0,1,1,2"),
            "ratios (byte 8) is 2; its range is 0..1 (whole, tenths)",
        ),
    ];
    for (said, expected) in cases {
        assert_eq!(said, expected);
    }
}

#[test]
fn what_no_earlier_record_lists() {
    assert_eq!(
        after_account(7, &format!("row,4,forward,20260318,0,0,0,1,{NO_LOSS}")),
        "contract (byte 1) is 4; no earlier record lists that contract"
    );
    assert_eq!(
        after_account(7, "intercontract spread,3,4,0,1,1,whole"),
        "second contract (byte 2) is 4; no earlier record lists that contract"
    );
    assert_eq!(
        after_account(7, &format!("row,3,forward,20260319,0,0,0,1,{NO_LOSS}")),
        "day (bytes 4-7) is 20260319; no earlier record lists a prompt of contract 3 on that day"
    );
    assert_eq!(
        after_account(7, "interprompt spread,3,2,0,2,A,1,1,B,1"),
        "leg 2 tier (byte 12) is 1; no earlier record lists a prompt of contract 3 in that tier"
    );
}

#[test]
fn what_is_out_of_order() {
    assert_eq!(
        said(8, "contract,3,0\ncontract,3,0"),
        "number (byte 1) is 3; the contract before has 3, and a higher number must follow"
    );
    assert_eq!(
        after_account(8, "prompt,3,2,20260319,0,0"),
        "contract (byte 1) is 3; the prompt before has contract 5, and none below it may follow"
    );
    assert_eq!(
        after_account(8, "prompt,5,1,20260318,0,0"),
        "day (bytes 4-7) is 20260318; the prompt before in contract 5 has 20260318, and a later day \
         must follow"
    );
    assert_eq!(
        after_account(8, "prompt,5,3,20260319,0,0\nprompt,5,2,20260320,0,0"),
        "tier (byte 2) is 2; the prompt before in contract 5 has tier 3, and none below it may follow"
    );
    assert_eq!(
        after_account(8, "interprompt spread,5,2,0,1,A,1,1,B,1\ninterprompt spread,3,2,0,2,A,1,2,B,1"),
        "contract (byte 1) is 3; the interprompt spread before has contract 5, and none below it may follow"
    );
}

#[test]
fn rates_rise_in_currency() {
    assert_eq!(
        said(8, "currency rate,3,1,0\ncurrency rate,3,2,0"),
        "currency (byte 1) is 3; the currency rate before has 3, and a higher currency must follow"
    );
}

/// The fault of the row after the account, for which it is refused with these rates.
fn said_of_row(number: usize, row: &str, rates: &str) -> String {
    let text = format!("{ACCOUNT}row,3,forward,20260318,0,{row}\n{rates}");
    let file = write(text.as_bytes()).unwrap_or_else(|misread| panic!("{misread:?}")).file;
    let independent = independent::check(&file).err().expect("a refused account");
    assert_eq!((usize::from(independent.number), independent.record), (number, 4));
    fault(number, 4, &file).expect("a fault")
}

#[test]
fn a_currency_without_a_rate() {
    let row = format!("1,0,1,{NO_LOSS},2");
    assert_eq!(
        said_of_row(14, &row, "currency rate,1,1000000,0\ncurrency rate,3,1000000,0"),
        "currency (byte 3) is 2; the account has no currency rate, kind 6, of that currency"
    );
}

#[test]
fn a_conversion_beyond_its_limit() {
    let losses = "1,-1,2,0,0,0,0,0,0,0,0,0,0,0,0,0";
    let row = |losses: &str| format!("100000,0,10000,{losses},2");
    assert_eq!(
        said_of_row(15, &row(&losses.replace("2,", "100000,")), "currency rate,2,1000000,1"),
        "currency (byte 3) is 2; its loss of 100000000000000 in scenario 3 is 101000000000000 in the margin \
         currency, at 1000000 millionths raised by 1 percent; the most is 100000000000000, in hundredths"
    );
    assert_eq!(
        said_of_row(15, &row(&losses.replace("-1,", "-100000,")), "currency rate,2,1020409,2"),
        "currency (byte 3) is 2; its gain of 100000000000000 in scenario 2 is 100000082000000 in the margin \
         currency, at 1020409 millionths lowered by 2 percent; the most is 100000000000000, in hundredths"
    );
}

#[test]
fn what_clashes() {
    let spread = |legs: &str| {
        let prompts = "prompt,5,2,20260319,0,0\nprompt,5,3,20260320,0,0";
        after_account(8, &format!("{prompts}\ninterprompt spread,5,{legs}"))
    };
    assert_eq!(spread("3,0,1,A,1,2,B,1,1,A,2"), "legs 1 and 3 both have tier 1 and side A");
    assert_eq!(spread("2,0,1,B,1,2,B,1"), "every leg has side B, and none has side A");
    assert_eq!(spread("3,0,1,A,1,2,A,1,3,A,1"), "every leg has side A, and none has side B");
    assert_eq!(
        after_account(8, "intercontract spread,3,3,0,1,1,whole"),
        "first contract (byte 1) and second contract (byte 2) are both 3"
    );
}

#[test]
fn what_is_over_a_limit() {
    let many = |line: String, times: usize| vec![line; times].join("\n");
    assert_eq!(
        after_account(9, &many(format!("row,5,forward,20260318,0,0,0,1,{NO_LOSS}"), 129)),
        "contract (byte 1) is 5; that contract has 128 rows before this one, which is the most"
    );
    assert_eq!(
        after_account(9, &many("interprompt spread,5,2,0,1,A,1,1,B,1".to_string(), 33)),
        "contract (byte 1) is 5; that contract has 32 interprompt spreads before this one, which is the most"
    );
    assert_eq!(
        after_account(9, &many("intercontract spread,3,5,0,1,1,whole".to_string(), 33)),
        "32 intercontract spreads come before this one, which is the most"
    );
}

#[test]
fn the_length() {
    assert_eq!(
        fault(2, 0, &[0]).as_deref(),
        Some("the file has 1 byte: 0 records and 1 byte more")
    );
    assert_eq!(fault(2, 0, &[0; 96]), None);
    assert_eq!(
        fault(1, 0, &[0; 61_441]).as_deref(),
        Some("the file has more than 61440 bytes, which are 640 records")
    );
    assert_eq!(fault(1, 0, &[0; 61_440]), None);
}
