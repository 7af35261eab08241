//! Write the file too, request 2026-06 of document 02: "From entered contracts, prompts, rows, spreads and
//! currency rates, write the account file". Quoted sentences are that request's.

use crate::check::check;
use crate::format::*;
use crate::refusal::*;

/// One entry, "fields of the file's widths".
#[derive(Clone, Copy, Debug, PartialEq, Eq)]
pub enum Entered {
    Contract {
        number: u8,
        short_option_rate: u32,
        unit: u16,
    },
    Prompt {
        contract: u8,
        tier: u8,
        day: u32,
        rate_in_spreads: u32,
        rate_outright: u32,
    },
    Row {
        contract: u8,
        class: u8,
        currency: u8,
        day: u32,
        strike: u32,
        lots: i32,
        delta: i32,
        value: u32,
        losses: [i32; SCENARIOS],
    },
    /// The third leg stands in the file also where there are two.
    Spread {
        contract: u8,
        legs: u8,
        rate: u32,
        leg: [EnteredLeg; 3],
    },
    Intercontract {
        first: u8,
        second: u8,
        percent: u8,
        ratios: [u16; 2],
        tenths: u8,
    },
    Rate {
        currency: u8,
        spot: u32,
        adjustment: u8,
    },
}

#[derive(Clone, Copy, Debug, PartialEq, Eq)]
pub struct EnteredLeg {
    pub tier: u8,
    pub side: u8,
    pub ratio: u16,
}

type Bytes = [u8; RECORD_BYTES];

/// The record of an entry, by the byte positions of the account file.
pub fn record(entered: &Entered) -> Bytes {
    let mut bytes = [0; RECORD_BYTES];
    let mut put = |at: usize, field: &[u8]| bytes[at..at + field.len()].copy_from_slice(field);
    match *entered {
        Entered::Contract { number, short_option_rate, unit } => {
            put(0, &[CONTRACT, number]);
            put(4, &short_option_rate.to_le_bytes());
            put(8, &unit.to_le_bytes());
        }
        Entered::Prompt { contract, tier, day, rate_in_spreads, rate_outright } => {
            put(0, &[PROMPT, contract, tier]);
            put(4, &day.to_le_bytes());
            put(8, &rate_in_spreads.to_le_bytes());
            put(12, &rate_outright.to_le_bytes());
        }
        Entered::Row { contract, class, currency, day, strike, lots, delta, value, losses } => {
            put(0, &[ROW, contract, class, currency]);
            put(4, &day.to_le_bytes());
            put(8, &strike.to_le_bytes());
            put(12, &lots.to_le_bytes());
            put(16, &delta.to_le_bytes());
            put(20, &value.to_le_bytes());
            for (scenario, ticks) in losses.iter().enumerate() {
                put(24 + 4 * scenario, &ticks.to_le_bytes());
            }
        }
        Entered::Spread { contract, legs, rate, leg } => {
            put(0, &[SPREAD, contract, legs]);
            put(4, &rate.to_le_bytes());
            for (place, leg) in leg.iter().enumerate() {
                put(8 + 4 * place, &[leg.tier, leg.side]);
                put(10 + 4 * place, &leg.ratio.to_le_bytes());
            }
        }
        Entered::Intercontract { first, second, percent, ratios, tenths } => {
            put(0, &[ENTRY, first, second, percent]);
            put(4, &ratios[0].to_le_bytes());
            put(6, &ratios[1].to_le_bytes());
            put(8, &[tenths]);
        }
        Entered::Rate { currency, spot, adjustment } => {
            put(0, &[CURRENCY_RATE, currency]);
            put(4, &spot.to_le_bytes());
            put(8, &[adjustment]);
        }
    }
    bytes
}

/// The entry of a record of one of the six kinds.
pub fn entered(bytes: &Bytes) -> Entered {
    let half = |at: usize| u16::from_le_bytes([bytes[at], bytes[at + 1]]);
    let word = |at: usize| u32::from(half(at)) | u32::from(half(at + 2)) << 16;
    let [kind, byte_1, byte_2, byte_3, ..] = *bytes;
    let leg = |at: usize| EnteredLeg { tier: bytes[at], side: bytes[at + 1], ratio: half(at + 2) };
    match kind {
        CONTRACT => Entered::Contract { number: byte_1, short_option_rate: word(4), unit: half(8) },
        PROMPT => Entered::Prompt {
            contract: byte_1,
            tier: byte_2,
            day: word(4),
            rate_in_spreads: word(8),
            rate_outright: word(12),
        },
        ROW => Entered::Row {
            contract: byte_1,
            class: byte_2,
            currency: byte_3,
            day: word(4),
            strike: word(8),
            lots: word(12) as i32,
            delta: word(16) as i32,
            value: word(20),
            losses: std::array::from_fn(|scenario| word(24 + 4 * scenario) as i32),
        },
        SPREAD => Entered::Spread {
            contract: byte_1,
            legs: byte_2,
            rate: word(4),
            leg: [leg(8), leg(12), leg(16)],
        },
        ENTRY => Entered::Intercontract {
            first: byte_1,
            second: byte_2,
            percent: byte_3,
            ratios: [half(4), half(6)],
            tenths: bytes[8],
        },
        _ => Entered::Rate { currency: byte_1, spot: word(4), adjustment: bytes[8] },
    }
}

/// What entries are ordered by: "kinds and required orders are the writer's work, while rows and
/// interprompt spreads of one contract, intercontract spreads and clashing entries keep the order of
/// entry".
fn key(entered: &Entered) -> (u8, u8, u32) {
    match *entered {
        Entered::Contract { number, .. } => (CONTRACT, number, 0),
        Entered::Prompt { contract, day, .. } => (PROMPT, contract, day),
        Entered::Row { contract, .. } => (ROW, contract, 0),
        Entered::Spread { contract, .. } => (SPREAD, contract, 0),
        Entered::Intercontract { .. } => (ENTRY, 0, 0),
        Entered::Rate { currency, .. } => (CURRENCY_RATE, currency, 0),
    }
}

/// Writes the account file at the front of the bytes lent; gives how many. "Refusals: what the written
/// file would get by 01 and its amendments, naming the entry's place as entered (0 for a 1) [..]; 16, too
/// few bytes lent, last."
pub fn write(entries: &[Entered], lent: &mut [u8]) -> Result<usize, Refusal> {
    let mut order: Vec<usize> = (0..entries.len()).collect();
    order.sort_by_key(|place| key(&entries[*place]));
    let file: Vec<u8> = order.iter().flat_map(|place| record(&entries[*place])).collect();
    check(&file).map_err(|refusal| Refusal {
        record: if refusal.number == TOO_LONG { 0 } else { order[refusal.record] },
        ..refusal
    })?;
    if lent.len() < file.len() {
        return Err(Refusal { number: TOO_FEW_BYTES, record: 0 });
    }
    lent[..file.len()].copy_from_slice(&file);
    Ok(file.len())
}

/// "Reading gives back what was entered, in the file's order".
pub fn read(file: &[u8]) -> Result<Vec<Entered>, Refusal> {
    check(file)?;
    let records = file.chunks_exact(RECORD_BYTES);
    Ok(records.map(|bytes| entered(bytes.try_into().expect("96 bytes"))).collect())
}
