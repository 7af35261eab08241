//! The account file: "Records of 96 bytes, no header, little-endian, two's complement where signed.
//! Byte 0 is the kind. Bytes not named are zero." Every offset, range and limit is said here, once.

pub const RECORD_BYTES: usize = 96;
pub const MOST_RECORDS: usize = 640;
pub const MOST_BYTES: usize = MOST_RECORDS * RECORD_BYTES;

/// "Per contract 32 prompts, 128 rows, 32 interprompt spreads; 32 intercontract spreads."
pub const MOST_PROMPTS: usize = 32;
pub const MOST_ROWS: usize = 128;
pub const MOST_SPREADS: usize = 32;
pub const MOST_ENTRIES: usize = 32;

/// The kinds of record.
pub const CONTRACT: u8 = 1;
pub const PROMPT: u8 = 2;
pub const ROW: u8 = 3;
pub const SPREAD: u8 = 4;
pub const ENTRY: u8 = 5;
/// 2026-05: "Kind 6, after kind 5".
pub const CURRENCY_RATE: u8 = 6;

/// What byte 2 of a row says.
pub const FORWARD: i64 = 0;
pub const CALL: i64 = 1;
pub const PUT: i64 = 2;

/// What byte 3 of a row says: "currency 0..7, 0 being the margin currency".
pub const MARGIN_CURRENCY: i64 = 0;

/// What a leg's second byte says.
pub const SIDE_A: i64 = 1;
pub const SIDE_B: i64 = 2;

pub const SCENARIOS: usize = 16;
const MOST_RATE: i64 = 10_000_000;
const MOST_RATIO: i64 = 100;
const MOST_TENTHS: i64 = 1_000;
const MOST_LOTS: i64 = 100_000;
const MOST_LOSS: i64 = 100_000;
const MOST_DELTA: i64 = 10_000;
const MOST_STRIKE: i64 = 4_294_967_295;

/// One named field of a record: where it stands, whether it is signed, and its range.
#[derive(Clone, Copy, Debug, PartialEq, Eq)]
pub struct Field {
    pub at: usize,
    pub bytes: usize,
    pub signed: bool,
    pub least: i64,
    pub most: i64,
}

const fn unsigned(at: usize, bytes: usize, least: i64, most: i64) -> Field {
    Field { at, bytes, signed: false, least, most }
}

const fn signed(at: usize, least: i64, most: i64) -> Field {
    Field { at, bytes: 4, signed: true, least, most }
}

/// Byte 1 of kinds 1 to 5: a contract number.
pub const NUMBER: Field = unsigned(1, 1, 0, 15);

pub const SHORT_OPTION_RATE: Field = unsigned(4, 4, 0, MOST_RATE);

/// 2026-09: "Bytes 8-9 of kind 1 hold the unit in hundredths, 0 and 1 both meaning one hundredth, at most
/// 1,000."
pub const UNIT: Field = unsigned(8, 2, 0, 1_000);

pub const PROMPT_TIER: Field = unsigned(2, 1, 1, 8);
/// The day of a prompt and of a row.
pub const DAY: Field = unsigned(4, 4, 1, 99_999_999);
pub const RATE_IN_SPREADS: Field = unsigned(8, 4, 0, MOST_RATE);
pub const RATE_OUTRIGHT: Field = unsigned(12, 4, 0, MOST_RATE);

pub const CLASS: Field = unsigned(2, 1, FORWARD, PUT);
const FORWARD_STRIKE: Field = unsigned(8, 4, 0, 0);
const OPTION_STRIKE: Field = unsigned(8, 4, 1, MOST_STRIKE);
pub const LOTS: Field = signed(12, -MOST_LOTS, MOST_LOTS);
const DELTA: Field = signed(16, 0, MOST_DELTA);
const PUT_DELTA: Field = signed(16, -MOST_DELTA, 0);
pub const VALUE: Field = unsigned(20, 4, 1, 10_000);

pub const CURRENCY: Field = unsigned(3, 1, MARGIN_CURRENCY, 7);

pub const LEGS: Field = unsigned(2, 1, 2, 3);
pub const SPREAD_RATE: Field = unsigned(4, 4, 0, MOST_RATE);

pub const SECOND_NUMBER: Field = unsigned(2, 1, 0, 15);
pub const PERCENT: Field = unsigned(3, 1, 0, 100);
pub const FIRST_RATIO: Field = unsigned(4, 2, 1, MOST_RATIO);
pub const SECOND_RATIO: Field = unsigned(6, 2, 1, MOST_RATIO);
/// 2026-03: "Byte 8 of kind 5 set to 1 says that its ratios are tenths, 1..1000; 0 keeps whole ratios."
pub const TENTHS: Field = unsigned(8, 1, 0, 1);

/// "Byte 1 currency 1..7, ascending; bytes 4-7 spot rate in millionths, 1..100,000,000; byte 8 adjustment
/// percent 0..50."
pub const RATE_CURRENCY: Field = unsigned(1, 1, 1, 7);
pub const SPOT_RATE: Field = unsigned(4, 4, 1, 100_000_000);
pub const ADJUSTMENT: Field = unsigned(8, 1, 0, 50);

/// "Strike 0 for a forward, 1..4,294,967,295 otherwise."
pub fn strike(class: i64) -> Field {
    if class == FORWARD {
        FORWARD_STRIKE
    } else {
        OPTION_STRIKE
    }
}

/// "Delta 0..10,000 for forwards and calls, -10,000..0 for puts."
pub fn delta(class: i64) -> Field {
    if class == PUT {
        PUT_DELTA
    } else {
        DELTA
    }
}

/// The ratios of an entry whose byte 8 holds this.
pub fn entry_ratios(tenths: i64) -> [Field; 2] {
    if tenths == TENTHS.most {
        [FIRST_RATIO, SECOND_RATIO].map(|ratio| Field { most: MOST_TENTHS, ..ratio })
    } else {
        [FIRST_RATIO, SECOND_RATIO]
    }
}

/// "24-87: sixteen losses, signed, scenario 1 first", counted here from 0.
pub fn loss(scenario: usize) -> Field {
    signed(24 + 4 * scenario, -MOST_LOSS, MOST_LOSS)
}

/// "Legs at 8, 12, 16, each tier, side (1 = A, 2 = B), two-byte ratio", counted here from 0.
pub fn leg_tier(leg: usize) -> Field {
    unsigned(8 + 4 * leg, 1, 1, 8)
}

pub fn leg_side(leg: usize) -> Field {
    unsigned(9 + 4 * leg, 1, SIDE_A, SIDE_B)
}

pub fn leg_ratio(leg: usize) -> Field {
    unsigned(10 + 4 * leg, 2, 1, MOST_RATIO)
}

/// How many legs have bytes in use: "Bytes 16-19 of kind 4 are unused only when byte 2 holds 2."
pub fn legs_in_use(legs: i64) -> usize {
    if legs == 2 {
        2
    } else {
        3
    }
}

/// The 96 bytes of one record.
#[derive(Clone, Copy)]
pub struct Record<'a>(pub &'a [u8]);

impl Record<'_> {
    pub fn kind(&self) -> u8 {
        self.0[0]
    }

    /// The number that stands in a field.
    pub fn get(&self, field: Field) -> i64 {
        let mut word = [0; 4];
        word[..field.bytes].copy_from_slice(&self.0[field.at..field.at + field.bytes]);
        if field.signed {
            i64::from(i32::from_le_bytes(word))
        } else {
            i64::from(u32::from_le_bytes(word))
        }
    }

    /// The fields of this record, byte 0 aside; none for a kind that is not listed.
    pub fn fields(&self) -> Vec<Field> {
        match self.kind() {
            CONTRACT => vec![NUMBER, SHORT_OPTION_RATE, UNIT],
            PROMPT => vec![NUMBER, PROMPT_TIER, DAY, RATE_IN_SPREADS, RATE_OUTRIGHT],
            ROW => {
                let class = self.get(CLASS);
                let mut fields = vec![NUMBER, CLASS, CURRENCY, DAY, strike(class)];
                fields.extend([LOTS, delta(class), VALUE]);
                fields.extend((0..SCENARIOS).map(loss));
                fields
            }
            SPREAD => {
                let mut fields = vec![NUMBER, LEGS, SPREAD_RATE];
                for leg in 0..legs_in_use(self.get(LEGS)) {
                    fields.extend([leg_tier(leg), leg_side(leg), leg_ratio(leg)]);
                }
                fields
            }
            ENTRY => {
                let [first, second] = entry_ratios(self.get(TENTHS));
                vec![NUMBER, SECOND_NUMBER, PERCENT, first, second, TENTHS]
            }
            CURRENCY_RATE => vec![RATE_CURRENCY, SPOT_RATE, ADJUSTMENT],
            _ => vec![],
        }
    }
}

/// The records of a file whose length is a multiple of 96.
pub fn records(file: &[u8]) -> Vec<Record<'_>> {
    file.chunks_exact(RECORD_BYTES).map(Record).collect()
}
