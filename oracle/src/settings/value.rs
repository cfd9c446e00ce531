//! A number for a person: six decimals, cut and never rounded, and said where
//! something is cut off.

/// 2 to the 43rd: from here on the size alone is told.
pub const LARGE: f64 = 8_796_093_022_208.0;

/// No binary64 number has more decimals than 1,074, so with these nothing is
/// rounded.
const ALL_DECIMALS: usize = 1080;

pub fn with_unit(value: f64, unit: &str) -> String {
    if value >= LARGE {
        return format!("at least {:.0} {} (cut off: what is above)", LARGE, unit);
    }
    let exact = format!("{:.*}", ALL_DECIMALS, value);
    // What is not a number has no point, and comes only from a wrong reader.
    let six_decimals = exact.find('.').map_or(exact.len(), |point| point + 1 + 6);
    let (shown, cut_off) = exact.split_at(six_decimals);
    if cut_off.bytes().all(|digit| digit == b'0') {
        return format!("{} {}", shown, unit);
    }
    format!("{} {} (cut off: less than 0.000001 {})", shown, unit, unit)
}
