//! The rows of an account in another order, and parted in two, for the statements of request 2026-13.

use super::entered::shuffle;
use super::random::Random;
use crate::format::*;

/// The file with the rows of each contract in another order.
pub fn reordered(random: &mut Random, file: &[u8]) -> Vec<u8> {
    let mut all = records(file);
    let mut start = 0;
    while start < all.len() {
        let same = |record: &Record| {
            record.kind() == ROW && all[start].kind() == ROW && record.0[1] == all[start].0[1]
        };
        let length = all[start..].iter().take_while(|record| same(record)).count().max(1);
        shuffle(random, &mut all[start..start + length]);
        start += length;
    }
    all.iter().flat_map(|record| record.0).copied().collect()
}

/// Two files with the same records but rows, of which each has some: by chance, by turns, or one has all.
pub fn parted(random: &mut Random, file: &[u8]) -> [Vec<u8>; 2] {
    let way = random.below(4);
    let mut parts = [vec![], vec![]];
    for (place, record) in records(file).iter().enumerate() {
        let first = match way {
            0 => place.is_multiple_of(2),
            1 => true,
            _ => random.one_in(2),
        };
        for (part, own) in parts.iter_mut().zip([first, !first]) {
            if record.kind() != ROW || own {
                part.extend_from_slice(record.0);
            }
        }
    }
    parts
}
