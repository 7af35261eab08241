//! The worked examples of 000, the SPAN method 2.1, as far as document 01 allows them. Its euros are
//! written in hundredths. Where a loss in hundredths passes 01's range of 100,000, the array is split
//! over several rows; where 000 has a delta scaling factor, which 01 has not, further lots without
//! losses carry the rest of the delta.

use crate::builder::*;
use independent::margin::margin;
use independent::units::Amount;

/// The array of one long position in hundredths, split into arrays within 01's range of a loss.
fn split(array: [i64; 16]) -> Vec<[i32; 16]> {
    let largest = array.iter().map(|loss| loss.abs()).max().unwrap_or(0);
    let parts = (largest / 100_000 + 1) as usize;
    let share = |loss: i64, part: usize| {
        let up_to = |part: usize| loss * part as i64 / parts as i64;
        (up_to(part + 1) - up_to(part)) as i32
    };
    (0..parts).map(|part| array.map(|loss| share(loss, part))).collect()
}

fn forward_rows(contract: u8, day: u32, lots: i32, array: [i64; 16]) -> Vec<Record> {
    split(array).iter().map(|losses| forward(contract, day, (lots, 0, 1, losses))).collect()
}

fn put_rows(contract: u8, day: u32, lots: i32, array: [i64; 16]) -> Vec<Record> {
    split(array).iter().map(|losses| put_option(contract, day, 500, (lots, 0, 1, losses))).collect()
}

/// The AEX index future FTI and the AEX put at 500.
const FTI: [i64; 16] = [
    0, 0, -160_000, -160_000, 160_000, 160_000, -320_000, -320_000, 320_000, 320_000, -480_000,
    -480_000, 480_000, 480_000, -336_000, 336_000,
];
const AEX_PUT: [i64; 16] = [
    6_361, 6_417, 84_209, 86_292, -73_575, -73_574, 144_748, 154_501, -153_566, -153_566, 168_941,
    172_169, -233_558, -233_558, 60_375, -165_736,
];
/// The FEF future.
const FEF: [i64; 16] = [
    0, 0, -121_667, -121_667, 121_667, 121_667, -243_333, -243_333, 243_333, 243_333, -365_000,
    -365_000, 365_000, 365_000, -255_500, 255_500,
];

/// AEX as contract 1: -2 FTI and -3 puts, net delta -4.0000 + 2.9988; its net delta at prompts 200712
/// and 206412.
fn aex_rows() -> Vec<Record> {
    [
        forward_rows(1, 200712, -2, FTI),
        net(1, 200712, -40_000),
        put_rows(1, 206412, -3, AEX_PUT),
        vec![put_option(1, 206412, 500, (-3, -9_996, 1, &NO_LOSS))],
    ]
    .concat()
}

#[test]
fn scanning_case_1_has_active_scenario_14() {
    // 000 prints both -2215.06 and -2215.60 for scenario 11, a gain that decides nothing.
    let array = [
        -23_194, 36_439, -82_585, -28_402, 28_493, 89_649, -149_002, -102_897, 72_106, 130_294,
        -221_506, -184_618, 107_637, 158_830, -159_939, 64_526,
    ];
    let account =
        file(&[&[contract(1, 0), prompt(1, 1, 206412)], &forward_rows(1, 206412, 4, array)]);
    assert_eq!(figures_of(&account)[1..3], [14, 635_320]);
}

#[test]
fn scanning_case_2_has_active_scenario_15() {
    let account =
        file(&[&[contract(1, 0), prompt(1, 1, 200712), prompt(1, 2, 206412)], &aex_rows()]);
    assert_eq!(figures_of(&account)[1..3], [15, 490_875]);
}

#[test]
fn cross_margining_has_scanning_risk_578_47_and_net_delta_minus_0_0130() {
    let equity =
        [0, 0, -255, -255, 255, 255, -511, -511, 511, 511, -766, -766, 766, 766, -536, 536];
    let bn1 = [
        -932, 906, -23_659, -23_413, 13_350, 15_685, -48_940, -48_940, 17_740, 18_100, -74_474,
        -74_474, 18_100, 18_100, -52_876, 6_335,
    ];
    let bn3_call = [
        -100, 85, -2_378, -2_352, 1_331, 1_563, -4_905, -4_904, 1_766, 1_800, -7_457, -7_457,
        1_800, 1_800, -5_291, 630,
    ];
    let bn3_put = [
        -766, 858, 677, 2_432, -2_394, -994, 1_930, 3_755, -4_211, -3_058, 3_003, 4_795, -6_189,
        -5_323, 2_104, -4_477,
    ];
    let account = file(&[
        &[contract(1, 0), prompt(1, 1, 206412)],
        &[
            forward(1, 206412, (-1872, 10_000, 1, &equity)),
            call(1, 206412, 75, (27, 0, 1, &bn1)),
            call(1, 206412, 75, (-11, 0, 1, &bn3_call)),
            put_option(1, 206412, 80, (40, 0, 1, &bn3_put)),
            // The deltas with scaling factors 100, 10 and 10.
            call(1, 206412, 75, (2700, 8_189, 1, &NO_LOSS)),
            call(1, 206412, 75, (-110, 7_993, 1, &NO_LOSS)),
            put_option(1, 206412, 80, (400, -6_278, 1, &NO_LOSS)),
        ],
    ]);
    assert_eq!(figures_of(&account)[1..3], [2, 57_847]);
    assert_eq!(book_of(&account, 1), [-130, 0, -130]);
}

#[test]
fn net_delta_case_2_nets_options_with_futures_of_their_month() {
    let account = file(&[
        &[contract(1, 0), prompt(1, 1, 200705), prompt(1, 1, 200711), prompt(1, 1, 200803)],
        &[
            put_option(1, 200705, 150, (5, -3_714, 1, &NO_LOSS)),
            forward(1, 200711, (-5, 10_000, 1, &NO_LOSS)),
            call(1, 200711, 137, (14, 5_000, 1, &NO_LOSS)),
            forward(1, 200803, (5, 10_000, 1, &NO_LOSS)),
            call(1, 200803, 139, (-14, 5_159, 1, &NO_LOSS)),
        ],
    ]);
    assert_eq!(book_of(&account, 1), [-18_570, 0, -18_570, 20_000, 0, 20_000, -22_226, 0, -22_226]);
}

#[test]
fn inter_month_and_spot_month_charges_of_aex() {
    // 000 charges 25 and 345 per delta (50 and 690 per future of two deltas), and 200 and 300 per
    // delta of the spot month.
    let account = file(&[
        &[contract(1, 0)],
        &[prompt_at(1, 1, 200703, 20_000, 30_000), prompt(1, 1, 200704)],
        &[prompt(1, 2, 200712), prompt(1, 3, 206412)],
        &net(1, 200703, 180_000),
        &net(1, 200704, -60_000),
        &net(1, 200712, -40_000),
        &[
            put_option(1, 206412, 500, (-3, -9_996, 1, &NO_LOSS)),
            put_option(1, 206412, 530, (4, -9_338, 1, &NO_LOSS)),
            call(1, 206412, 360, (5, 9_093, 1, &NO_LOSS)),
        ],
        &[
            pair(1, 2_500, 1, 1),
            pair(1, 34_500, 2, 2),
            pair(1, 34_500, 1, 2),
            pair(1, 25_000, 1, 3),
        ],
    ]);
    let book = book_of(&account, 1);
    assert_eq!(book[9..12], [38_101, 0, 38_101]);
    assert_eq!(book[12..], [60_000, 0, 0, 0, 40_000, 0, 0, 0]);
    assert_eq!(figures_of(&account)[3..5], [153_000, 440_000]);
}

/// AEX as contract 1 against FEF, contract 2 with net delta 120, with ratios FEF to AEX.
fn aex_and_fef(ratio_fef: u16, ratio_aex: u16) -> Vec<u8> {
    file(&[
        &[contract(1, 0), contract(2, 0)],
        &[prompt(1, 1, 200712), prompt(1, 2, 206412), prompt(2, 1, 200706)],
        &aex_rows(),
        &forward_rows(2, 200706, 12, FEF),
        &net(2, 200706, 1_200_000),
        &[entry(85, (2, ratio_fef), (1, ratio_aex))],
    ])
}

#[test]
fn in_tenths_aex_and_fef_have_their_credits_of_000() {
    // 000's ratio of 9.6 FEF to 1 AEX, by 2026-03: credits 4,335.36 and 2,981.97.
    let whole = aex_and_fef(96, 10);
    let place = whole.len() - 96;
    let account = [&whole[..place], &with(whole[place..].try_into().unwrap(), 8, 1)].concat();
    assert_eq!(
        book_of(&account, 16),
        [-10_012, -10_012, 0, 1_200_000, 96_115, 1_103_885, 10_012, 0]
    );
    let figures = figures_of(&account);
    assert_eq!([figures[5], figures[13]], [433_536, 298_197]);
}

#[test]
fn aex_credit_is_4_335_36() {
    // AEX's credit does not depend on FEF's ratio as long as all of AEX's 1.0012 is used: here with a
    // ratio of 10. The scanning risk is 000's first 4,908.75.
    let account = aex_and_fef(10, 1);
    assert_eq!(
        book_of(&account, 16),
        [-10_012, -10_012, 0, 1_200_000, 100_120, 1_099_880, 10_012, 0]
    );
    let figures = figures_of(&account);
    assert_eq!([figures[1], figures[2], figures[5]], [15, 490_875, 433_536]);
    assert_eq!(figures[7], 490_875 - 433_536);
    // FEF: 43,800.00 × 10.0120 × 85% / 120.
    assert_eq!([figures[9], figures[10], figures[13]], [13, 4_380_000, 310_622]);
}

#[test]
fn ratios_of_48_to_5_in_place_of_9_6_leave_a_remainder() {
    // 1.0012 / 5 = 0.20024 spreads, which 01 rounds down to 0.2002: 1.0010 of AEX is used, 9.6096 of
    // FEF. 000 has 1.0012 and 9.61152 and credits 4,335.36 and 2,981.97.
    let account = aex_and_fef(48, 5);
    assert_eq!(
        book_of(&account, 16),
        [-10_012, -10_010, -2, 1_200_000, 96_096, 1_103_904, 2_002, 0]
    );
    let figures = figures_of(&account);
    assert_eq!([figures[5], figures[13]], [433_449, 298_138]);
}

#[test]
fn fef_credit_is_2_981_97() {
    // 000 uses 1.0012 × 9.6 = 9.61152 of FEF's 120. 01 counts whole ten-thousandths: 9.6115, here
    // taken by a contract 3 that is short as much.
    let account = file(&[
        &[contract(2, 0), contract(3, 0), prompt(2, 1, 200706), prompt(3, 1, 200706)],
        &forward_rows(2, 200706, 12, FEF),
        &net(2, 200706, 1_200_000),
        &net(3, 200706, -96_115),
        &[entry(85, (2, 1), (3, 1))],
    ]);
    assert_eq!(
        figures_of(&account)[..8],
        [2, 13, 4_380_000, 0, 0, 298_197, 0, 4_380_000 - 298_197]
    );
}

#[test]
fn short_option_minimum_counts_11_short_lots() {
    // 0.2 a lot by a delta scaling factor of 10, which here stands in the rate.
    let account = file(&[
        &[contract(1, 200), prompt(1, 1, 206412)],
        &[
            forward(1, 206412, (-1800, 10_000, 1, &NO_LOSS)),
            call(1, 206412, 75, (27, 8_189, 1, &NO_LOSS)),
            call(1, 206412, 75, (-11, 7_993, 1, &NO_LOSS)),
            put_option(1, 206412, 80, (40, -6_278, 1, &NO_LOSS)),
        ],
    ]);
    assert_eq!(figures_of(&account)[6..8], [2_200, 2_200]);
}

#[test]
fn final_risks_of_the_performance_bond_table() {
    // Scanning risk, charges, credit, short option minimum and final risk; net option values, which
    // 01 leaves to others, come after.
    let table = [
        (12_985, 0, 0, 0, 136_310, 136_310),
        (34_154_173, 268_922, 0, 453_955, 483_030, 33_969_140),
        (4_855_254, 707_250, 0, 0, 1_640_850, 5_562_504),
        (18_358_994, 9_166_646, 861_250, 389_724, 4_228_380, 27_997_166),
    ];
    for (scanning, inter_month, spot, credit, minimum, final_risk) in table {
        let risk = Amount(scanning + inter_month + spot);
        assert_eq!(margin(risk, Amount(credit), Amount(minimum)), Amount(final_risk));
    }
}
