//! Whole numbers of a unit, as people write them.

/// Hundredths of the currency, with two places.
pub fn amount(hundredths: i64) -> String {
    decimal(hundredths.into(), 2)
}

/// What stands under a point and two places, where an amount has none.
pub const PLACES: &str = "   ";

/// Hundredths of the currency, where the unit is so many of them: without places where neither has any.
pub fn amount_in(unit: i64, hundredths: i64) -> String {
    match unit % 100 == 0 && hundredths % 100 == 0 {
        true => format!("{}{PLACES}", hundredths / 100),
        false => amount(hundredths),
    }
}

/// Ten-thousandths of lots or spreads, with four places.
pub fn lots(ten_thousandths: i64) -> String {
    decimal(ten_thousandths.into(), 4)
}

/// A currency's rate in hundred-millionths, with eight places.
pub fn rate(hundred_millionths: i64) -> String {
    decimal(hundred_millionths.into(), 8)
}

/// Tenths, with one place.
pub fn tenths(tenths: i64) -> String {
    decimal(tenths.into(), 1)
}

/// The digits of a number in groups of three, as in 1,357,531.09.
pub fn grouped(number: &str) -> String {
    let digits = number.trim_start_matches('-');
    let (sign, whole) = (&number[..number.len() - digits.len()], digits.find(['.', ' ']).unwrap_or(digits.len()));
    let mut grouped = sign.to_string();
    for (at, digit) in digits[..whole].char_indices() {
        if at > 0 && (whole - at) % 3 == 0 {
            grouped.push(',');
        }
        grouped.push(digit);
    }
    grouped + &digits[whole..]
}

/// A whole number of parts, with as many places.
pub fn decimal(number: i128, places: usize) -> String {
    let sign = if number < 0 { "-" } else { "" };
    let digits = format!("{:0>width$}", number.unsigned_abs(), width = places + 1);
    let (whole, decimals) = digits.split_at(digits.len() - places);
    format!("{sign}{whole}.{decimals}")
}

#[cfg(test)]
mod tests {
    use super::*;

    #[test]
    fn the_point_stands_before_the_places() {
        let amounts = [(0, "0.00"), (7, "0.07"), (-7, "-0.07"), (100, "1.00"), (-383650, "-3836.50")];
        for (number, written) in amounts {
            assert_eq!(amount(number), written);
        }
        // whole amounts stand under the whole part of others
        assert_eq!([amount_in(1, 5_400), amount_in(10, 5_400), amount_in(100, 549)], ["54.00", "54.00", "5.49"]);
        assert_eq!([amount_in(100, 5_400), amount_in(1_000, 0)], ["54   ", "0   "]);
        assert_eq!([tenths(1), tenths(96), tenths(1000)], ["0.1", "9.6", "100.0"]);
        assert_eq!(lots(-300_000), "-30.0000");
        assert_eq!(lots(i64::MIN), "-922337203685477.5808");
    }

    #[test]
    fn digits_stand_in_groups_of_three() {
        let numbers =
            [("0.00", "0.00"), ("999", "999"), ("1000", "1,000"), ("-100.00", "-100.00"), ("-135753109.5", "-135,753,109.5")];
        assert_eq!(grouped(&amount_in(100, -286_112_700)), "-2,861,127   ");
        for (number, written) in numbers {
            assert_eq!(grouped(number), written);
        }
    }
}
