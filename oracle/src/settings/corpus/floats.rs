//! Floats on both sides of every line: zero, the smallest, a millionth, six
//! decimals, 2 to the 43rd, the largest, infinity, and what is not a number.

use super::ask;
use crate::prng::Prng;
use crate::settings::frame::Frame;
use crate::settings::value::LARGE;
use crate::settings::writing::list;
use crate::settings::{Setting, MOST_SETTINGS};

/// Infinity, and what is not a number: signalling and quiet, with little and
/// much in it.
const NO_NUMBERS: [u64; 8] = [
    0x7ff0_0000_0000_0000,
    0x7ff0_0000_0000_0001,
    0x7ff4_0000_0000_0000,
    0x7ff7_ffff_ffff_ffff,
    0x7ff8_0000_0000_0000,
    0x7ff8_0000_0000_0001,
    0x7ffa_5a5a_5a5a_5a5a,
    0x7fff_ffff_ffff_ffff,
];

/// Numbers whose neighbours are tried too.
const EDGES: [f64; 36] = [
    5e-324,                       // the smallest
    2.225_073_858_507_201e-308,   // the largest that is subnormal
    1.112_536_929_253_600_7e-308, // half of the smallest that is not
    2.225_073_858_507_201_4e-308, // the smallest that is not
    f64::MIN_POSITIVE * 2.0,
    1e-300,
    4.999_999e-7,
    5e-7, // half a millionth, which rounding would show as a whole one
    9.999_995e-7,
    9.999_999e-7,
    1.5e-6,
    1.999_999_9e-6,
    0.007_812_5, // 2 to the -7th: seven decimals
    0.015_625,   // 2 to the -6th: six decimals, and nothing cut
    0.25,
    0.3,
    0.999_999_5, // rounding would show 1
    0.999_999_9,
    1.000_000_5,
    1.5,
    2.0,
    9.999_999_5,
    123_456.789_012,
    999_999.999_999_5,
    4_294_967_295.999_999_5,
    4_294_967_296.0,
    LARGE / 2.0,
    LARGE - 1.0,
    LARGE - 1.0 / 64.0, // six decimals, and nothing cut
    LARGE - 1.0 / 128.0,
    LARGE,
    LARGE + 1.0,
    LARGE * 2.0,
    9_007_199_254_740_992.0,
    18_446_744_073_709_551_616.0,
    f64::MAX,
];

/// The bits of all of them, with neighbours and without the sign.
fn patterns() -> Vec<u64> {
    let powers = (-8..=16).map(|power| format!("1e{}", power)).filter_map(|text| text.parse::<f64>().ok());
    let edges = EDGES.into_iter().chain(powers).map(f64::to_bits);
    let near = edges.flat_map(|bits| [bits - 1, bits, bits + 1]);
    near.chain(NO_NUMBERS).collect()
}

/// Each of them, with either sign, as a margin and as a feed rate: alone in a
/// list, before an entry with a fault of its own, and among right ones.
pub fn nasty(prng: &mut Prng) -> Vec<Frame> {
    let signed = patterns().into_iter().flat_map(|bits| [bits, bits | 1 << 63]);
    signed.flat_map(|bits| in_lists(prng, f64::from_bits(bits))).collect()
}

fn in_lists(prng: &mut Prng, value: f64) -> Vec<Frame> {
    let lists = [
        list(&[Setting::Margin(value)]),
        list(&[Setting::Feed(value)]),
        list(&[Setting::Count(7), Setting::Margin(value), Setting::Feed(0.0)]),
        list(&[Setting::Margin(0.5), Setting::Feed(value), Setting::Count(value.to_bits())]),
    ];
    lists.into_iter().map(|bytes| ask::one(prng, bytes.clone(), usize::from(bytes[0]))).collect()
}

/// Lists of 64 settings, of these floats in turn as margins and feed rates.
fn in_full_lists(prng: &mut Prng, floats: &[f64]) -> Vec<Frame> {
    let setting = |(entry, value): (usize, &f64)| [Setting::Margin, Setting::Feed][entry % 2](*value);
    let settings: Vec<Setting> = floats.iter().enumerate().map(setting).collect();
    settings.chunks(MOST_SETTINGS).map(|full| ask::one(prng, list(full), full.len())).collect()
}

/// Each exponent that a float above zero has, with four fractions.
pub fn every_exponent(prng: &mut Prng) -> Vec<Frame> {
    let fractions = [1, 0x000a_aaaa_aaaa_aaaa, 0x0008_0000_0000_0000, 0x000f_ffff_ffff_ffff];
    let all = (0..2047).flat_map(|exponent| fractions.map(|fraction| f64::from_bits(exponent << 52 | fraction)));
    in_full_lists(prng, &all.collect::<Vec<f64>>())
}

/// Whole millionths as near as a float comes to them, and their neighbours:
/// half of these are cut just below the decimal that rounding would show.
pub fn millionths(prng: &mut Prng) -> Vec<Frame> {
    let near = (0..2_000).flat_map(|_| {
        let bits = some_millionths(prng).to_bits();
        [bits - 1, bits, bits + 1].map(f64::from_bits)
    });
    let all: Vec<f64> = near.collect();
    in_full_lists(prng, &all)
}

fn some_millionths(prng: &mut Prng) -> f64 {
    ((prng.draw() >> prng.between(11, 60)) + 1) as f64 / 1e6
}

/// A float of any kind; most are above zero.
pub fn any(prng: &mut Prng) -> f64 {
    let fraction = prng.draw() >> 12;
    let exponent = prng.between(1023 - 24, 1023 + 44) as u64;
    match prng.below(8) {
        0..=2 => f64::from_bits(exponent << 52 | fraction),
        // Few bits, so that there are few decimals.
        3..=4 => f64::from_bits(exponent << 52 | fraction >> 42 << 42),
        5 => some_millionths(prng),
        6 => f64::from_bits(prng.pick(&patterns())),
        _ => f64::from_bits(prng.draw()),
    }
}
