//! Rate sets and tender lines to try implementations of Paper 9 on: random ones, those
//! that come to halves, and those at the limits.

use crate::pricing::{RateSet, HIGHEST_COST, MOST_LINES};
use crate::rng::Rng;

/// Rate sets at which implementations are likely to differ.
pub const RATE_SETS: [u32; 10] = [
    0x03E8_01F4, // 10 % and 5 %
    0x05DC_03E8, // 15 % and 10 %
    0xFFFF_FFFF, // the largest
    0x1388_0032, // 50 % and 0.5 %
    0x0000_000A, // no overhead and 0.1 %
    0x0032_1388, // 0.5 % and 50 %
    0xFFFF_0000,
    0x0001_2710, // 0.01 % and 100 %
    0x0000_FFFF,
    0x2710_0001, // 100 % and 0.01 %
];

/// One of these, one with both percentages below 40, or any.
pub fn rate_set(rng: &mut Rng) -> u32 {
    let known = rng.pick(&RATE_SETS);
    let usual = (rng.below(4000) << 16 | rng.below(4000)) as u32;
    let any = rng.next_u64() as u32;
    rng.pick(&[known, usual, any])
}

/// The pence on which a percentage of `rate` hundredths first comes to half a penny beside
/// whole ones; none if it never does. On every odd multiple it comes to a half as well.
pub fn first_half(rate: u16) -> Option<u64> {
    let rate = u64::from(rate);
    let first = 5000 / greatest_common_divisor(rate, 5000);
    (rate * first % 10_000 == 5000).then_some(first)
}

fn greatest_common_divisor(a: u64, b: u64) -> u64 {
    if b == 0 {
        a
    } else {
        greatest_common_divisor(b, a % b)
    }
}

/// Pence on which a percentage comes to a half: an odd multiple of the first.
fn some_half(rng: &mut Rng, rate: u16) -> Option<u64> {
    let most = rng.pick(&[1, 10, 1000, 90_000]);
    let odd = 2 * rng.below(most) as u64 + 1;
    first_half(rate).map(|first| odd * first)
}

/// Direct costs on which the overhead of a rate set comes to a half, and such that the
/// markup does on their sum with overhead; none where there is none, or is none nearby.
pub fn on_halves(rng: &mut Rng, value: u32) -> Vec<u64> {
    let [overhead, markup] = [(value >> 16) as u16, value as u16];
    let by_overhead = some_half(rng, overhead);
    let by_markup = (0..20).find_map(|_| cost_with_overhead(some_half(rng, markup)?, overhead));
    by_overhead.into_iter().chain(by_markup).collect()
}

/// The direct cost that with its overhead is `sum`, if there is one.
fn cost_with_overhead(sum: u64, overhead: u16) -> Option<u64> {
    let without_markup = RateSet::of(u32::from(overhead) << 16);
    let near = sum * 10_000 / (10_000 + u64::from(overhead));
    (near.saturating_sub(1)..=near + 1).find(|&cost| without_markup.price(cost) == sum)
}

/// A direct cost within its limit.
fn cost(rng: &mut Rng) -> u64 {
    let below = rng.pick(&[20, 10_000, 1_000_000, HIGHEST_COST as usize + 1]);
    let any = rng.below(below) as u64;
    rng.pick(&[any, any, any, any, any, any, 0, HIGHEST_COST])
}

/// A direct cost above it, some of which would be within it if they were cut.
fn too_high(rng: &mut Rng) -> u64 {
    let low = rng.below(100) as u64;
    rng.pick(&[HIGHEST_COST + 1, HIGHEST_COST + low + 1, 1 << 32 | low, 1 << 63 | low, u64::MAX])
}

/// Tender lines that are quoted, with halves by the rate set that `value` is: mostly a
/// few, at times 199 or 200.
pub fn quoted(rng: &mut Rng, value: u32) -> Vec<u64> {
    let mut costs = on_halves(rng, value);
    let few = rng.below(4);
    let length = if rng.one_in(16) { MOST_LINES - rng.below(2) } else { costs.len() + few };
    while costs.len() < length.max(1) {
        costs.push(cost(rng));
    }
    let first = rng.below(costs.len());
    costs.rotate_left(first);
    costs
}

/// Tender lines that are refused, whoever quotes them: none, or too many, at times with
/// one too high (14); or a few or as many as may be, with one too high (15).
pub fn refused(rng: &mut Rng) -> Vec<u64> {
    let length = match rng.below(3) {
        0 => return Vec::new(),
        1 => MOST_LINES + rng.pick(&[1, 2, 56, 57, 256]),
        _ => rng.pick(&[1, 2, 3, MOST_LINES]),
    };
    let mut costs: Vec<u64> = (0..length).map(|_| cost(rng)).collect();
    if length <= MOST_LINES || rng.one_in(2) {
        let place = rng.below(length);
        costs[place] = too_high(rng);
    }
    costs
}

/// Tender lines at the limits: of lengths around them, and of lengths that would be
/// within them if they were cut; with one direct cost at its limit, above it or far above
/// it, as the first line, in the middle and as the last; and with all at the limit.
pub fn at_limits() -> Vec<Vec<u64>> {
    let lengths = [0, 1, 2, 199, 200, 201, 202, 256, 257, 456, 65_536, 65_537];
    let mut lists: Vec<Vec<u64>> = lengths.map(|length| vec![5; length]).into();
    let high = [HIGHEST_COST, HIGHEST_COST + 1, 1 << 32, 1 << 32 | 5, 1 << 63 | 5, u64::MAX];
    for (length, places) in [(1, &[0][..]), (3, &[0, 1, 2]), (200, &[0, 99, 199]), (201, &[200])] {
        for &place in places {
            lists.extend(high.map(|cost| {
                let mut costs = vec![5; length];
                costs[place] = cost;
                costs
            }));
        }
    }
    lists.extend([HIGHEST_COST, HIGHEST_COST + 1, u64::MAX].map(|cost| vec![cost; MOST_LINES]));
    lists
}

#[cfg(test)]
mod tests {
    use super::*;
    use crate::pricing::quote;
    use crate::Reason;

    #[test]
    fn halves_are_found_where_there_are_any() {
        assert_eq!([1000, 500, 50, 1, 6].map(first_half), [5, 10, 100, 5000, 2500].map(Some));
        for rate in 0..=u16::MAX {
            assert_eq!(first_half(rate).is_some(), rate % 16 != 0, "{rate}");
        }
    }

    /// Whether a half is rounded in a price: by the overhead, and by the markup.
    fn rounds_halves(value: u32, cost: u64) -> [bool; 2] {
        let [overhead, markup] = [value >> 16, value & 0xFFFF].map(u64::from);
        let sum = RateSet::of(value & 0xFFFF_0000).price(cost);
        [cost * overhead % 10_000 == 5000, sum * markup % 10_000 == 5000]
    }

    #[test]
    fn lines_that_are_quoted_often_have_halves_of_both_kinds() {
        let mut rng = Rng::new(1);
        let (mut halves, mut most) = ([0; 2], 0);
        for _ in 0..2000 {
            let value = rate_set(&mut rng);
            let costs = quoted(&mut rng, value);
            assert!(quote(Some(value), &costs).is_ok(), "{value:08X} {costs:?}");
            for (kind, count) in halves.iter_mut().enumerate() {
                let has = costs.iter().any(|&cost| rounds_halves(value, cost)[kind]);
                *count += usize::from(has);
            }
            most += usize::from(costs.len() == MOST_LINES);
        }
        assert!(halves[0] > 1000 && halves[1] > 700 && most > 20, "{halves:?} {most}");
    }

    #[test]
    fn lines_that_are_refused_are_so_in_every_way() {
        let mut rng = Rng::new(2);
        let (mut counts, mut also_15) = ([0; 3], 0);
        for _ in 0..2000 {
            let costs = refused(&mut rng);
            let too_high = costs.iter().any(|&cost| cost > HIGHEST_COST);
            let kind = match quote(None, &costs) {
                Err(Reason::LinesOutsideLimits) if costs.is_empty() => 0,
                Err(Reason::LinesOutsideLimits) => 1,
                Err(Reason::CostOutsideLimits) => 2,
                other => panic!("{other:?} {costs:?}"),
            };
            counts[kind] += 1;
            also_15 += usize::from(kind == 1 && too_high);
        }
        assert!(counts.iter().all(|&count| count > 500) && also_15 > 200, "{counts:?} {also_15}");
    }

    #[test]
    fn lines_at_the_limits_are_quoted_and_refused_with_14_and_15() {
        let lists = at_limits();
        let answers: Vec<_> = lists.iter().map(|costs| quote(Some(u32::MAX), costs)).collect();
        let count = |reason| answers.iter().filter(|answer| answer.err() == Some(reason)).count();
        let quoted = answers.iter().filter(|answer| answer.is_ok()).count();
        assert_eq!(count(Reason::LinesOutsideLimits), 8 + 6);
        assert_eq!(count(Reason::CostOutsideLimits), 5 * 7 + 2);
        assert_eq!(quoted, 4 + 7 + 1);
        assert!(answers.contains(&Ok(11_411_072_450_000)));
    }
}
