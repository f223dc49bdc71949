//! Limits and factors that tie: over such links a limit ends so near to half a cent that a ten-thousandth of a cent more or less on
//! the way, or another way to round a half, publishes another cent (request 2026-04 of document 02).

use crate::random::Random;

/// A limit, above 0 a cap and below 0 a floor, and the factors of a route's links, the source's first.
type Tie = (i32, &'static [u32]);

/// Caps. Those of one link end less than half a ten-thousandth below half a cent, so that carried they are exactly half.
const CAPS: [Tie; 18] = [
    (3_751, &[15_001]),
    (37, &[10_137]),
    (148, &[11_341]),
    (1, &[10_001, 20_000]),
    (1, &[20_000, 10_001]),
    (4, &[13_334, 20_000]),
    (12, &[17_143, 20_000]),
    (35, &[12_963, 20_000]),
    (188, &[10_240, 15_236]),
    (8, &[16_308, 14_016]),
    (5, &[12_836, 15_581]),
    (2, &[20_000, 10_001, 20_000]),
    (25, &[16_000, 11_489, 16_000]),
    (47, &[12_800, 15_289, 10_674]),
    (71, &[12_800, 15_969, 14_781]),
    (58, &[15_936, 12_792, 11_613]),
    (14, &[18_000, 11_416, 15_140]),
    (60_000, &[10_800, 10_300, 10_300]),
];

/// Floors. Over one link the ten-thousandths are whole; over two, most of these come to half of one.
const FLOORS: [Tie; 14] = [
    (-1, &[15_000]),
    (-2, &[16_250, 13_846]),
    (-4, &[18_125, 15_862]),
    (-7, &[17_500, 15_102]),
    (-11, &[13_750, 14_876]),
    (-19, &[11_250, 17_076]),
    (-26, &[18_125, 14_748]),
    (-77, &[15_000, 14_329]),
    (-12, &[18_000, 12_000, 17_554]),
    (-16, &[15_854, 14_893, 19_191]),
    (-22, &[18_541, 19_919, 12_000]),
    (-52, &[15_984, 12_800, 16_308]),
    (-8_161, &[15_000, 15_625, 19_200]),
    (-60_001, &[10_507, 10_507, 10_507]),
];

/// Factors with which many a limit comes to half a cent, or to half a ten-thousandth.
const HALVING: [u32; 8] = [
    20_000, 20_000, 15_000, 12_500, 12_800, 16_000, 10_001, 10_000,
];

/// A cap: a small one, an odd one, or one that ties.
pub fn cap(random: &mut Random) -> i32 {
    match random.below(6) {
        0 => random.between(1, 20) as i32,
        1 => 2 * random.between(0, 10_000) as i32 + 1,
        _ => random.pick(&CAPS).0,
    }
}

/// A floor, likewise.
pub fn floor(random: &mut Random) -> i32 {
    match random.below(6) {
        0 => random.between(-20, -1) as i32,
        1 => 2 * random.between(-10_000, 0) as i32 - 1,
        _ => random.pick(&FLOORS).0,
    }
}

/// The factors of a route, to be gone through again where it has more links: mostly those that tie with one of the limits, where there
/// are any; else up to three that often halve.
pub fn factors(random: &mut Random, limits: &[i32]) -> Vec<u32> {
    let all = CAPS.iter().chain(&FLOORS);
    let tying: Vec<&Tie> = all.filter(|(limit, _)| limits.contains(limit)).collect();
    if !tying.is_empty() && random.chance(80) {
        return random.pick(&tying).1.to_vec();
    }
    let links = random.between(1, 3);
    (0..links).map(|_| random.pick(&HALVING)).collect()
}
