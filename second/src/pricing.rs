//! Pricing from the agreed set (02, Paper 9). It stands above the agreement: of a process
//! it knows the decision alone, and nothing of tickets, rounds and states.
//!
//! A percentage is worked as by hand. On each whole hundred pounds it is exact; on what
//! is left over it lies between two pennies, and the nearer one is taken.

use crate::refusal::Reason;

/// The most tender lines of a quote.
pub const MOST_LINES: usize = 200;

/// The highest direct cost of a line, in pence.
pub const HIGHEST_COST: u64 = 1_000_000_000;

/// The hundredths of a percent that are the whole: the pence on which a percentage comes
/// to as many pence as it has hundredths.
const WHOLE: u64 = 10_000;

/// A percentage, in hundredths of a percent.
#[derive(Clone, Copy, Debug, PartialEq, Eq)]
struct Percentage(u16);

impl Percentage {
    /// What it comes to on `amount` pence, to the nearest penny, halves up.
    fn on(self, amount: u64) -> u64 {
        let rate = u64::from(self.0);
        let (wholes, left_over) = (amount / WHOLE, amount % WHOLE);
        wholes * rate + nearest_penny(left_over * rate)
    }
}

/// The penny that is nearest to so many parts of a penny, of which [`WHOLE`] are one; the
/// upper one if two are equally near.
fn nearest_penny(parts: u64) -> u64 {
    let below = parts / WHOLE;
    let above = below + 1;
    let [down, up] = [parts - WHOLE * below, WHOLE * above - parts];
    if up <= down {
        above
    } else {
        below
    }
}

/// What is agreed on: two percentages.
#[derive(Clone, Copy, Debug, PartialEq, Eq)]
pub struct RateSet {
    overhead: Percentage,
    markup: Percentage,
}

impl RateSet {
    /// The rate set that `value` is: its upper two bytes are the overhead and its lower
    /// two the markup.
    pub fn of(value: u32) -> RateSet {
        let [a, b, c, d] = value.to_be_bytes();
        let [overhead, markup] =
            [[a, b], [c, d]].map(|bytes| Percentage(u16::from_be_bytes(bytes)));
        RateSet { overhead, markup }
    }

    /// A tender line's price in pence, from its direct cost, which is within its limit:
    /// with overhead, and then with markup on the sum.
    pub fn price(self, cost: u64) -> u64 {
        let sum = cost + self.overhead.on(cost);
        sum + self.markup.on(sum)
    }
}

/// The quote for tender lines of these direct costs, by what a process has decided, in
/// pence: the sum of the lines' prices. Refusals 14, 15 and 16, in this order.
pub fn quote(decision: Option<u32>, costs: &[u64]) -> Result<u64, Reason> {
    if costs.is_empty() || costs.len() > MOST_LINES {
        return Err(Reason::LinesOutsideLimits);
    }
    if costs.iter().any(|&cost| cost > HIGHEST_COST) {
        return Err(Reason::CostOutsideLimits);
    }
    let rates = RateSet::of(decision.ok_or(Reason::NoDecision)?);
    Ok(costs.iter().map(|&cost| rates.price(cost)).sum())
}

#[cfg(test)]
mod tests {
    use super::*;

    /// Rates at which something may go wrong: none, the least, some of which most amounts
    /// come to a half or none does, around the whole, and the largest.
    const RATES: [u16; 14] =
        [0, 1, 2, 16, 50, 333, 500, 1000, 5000, 9999, 10_000, 10_001, 65_520, u16::MAX];

    /// Holds a percentage to the plain formula.
    fn is_by_formula(rate: u16, amount: u64) {
        let right = (amount * u64::from(rate) + WHOLE / 2) / WHOLE;
        assert_eq!(Percentage(rate).on(amount), right, "{rate} on {amount}");
    }

    /// All amounts up to 20,000 pence, and some around every power of two up to the last
    /// below the highest sum on which markup is worked.
    fn amounts() -> impl Iterator<Item = u64> {
        let powers = (14..33).map(|power| 1u64 << power);
        (0..=2 * WHOLE).chain(powers.flat_map(|power| power - 60..=power + 60))
    }

    #[test]
    fn percentages_are_those_of_the_formula() {
        for rate in RATES {
            amounts().for_each(|amount| is_by_formula(rate, amount));
        }
        for rate in 0..=u16::MAX {
            let amounts = [1, 5, 4999, 5000, 9999, 12_345, HIGHEST_COST, 7_553_500_000];
            amounts.into_iter().for_each(|amount| is_by_formula(rate, amount));
        }
    }

    /// Twice the distance from what a percentage comes to exactly is at most a penny; and
    /// if it is one, the penny taken is the upper one.
    #[test]
    fn no_penny_is_nearer_and_halves_go_up() {
        let mut halves = 0;
        for rate in RATES {
            for amount in amounts() {
                let exact = i128::from(amount) * i128::from(rate);
                let taken = i128::from(Percentage(rate).on(amount)) * i128::from(WHOLE);
                let twice = 2 * (taken - exact);
                let penny = i128::from(WHOLE);
                assert!(-penny < twice && twice <= penny, "{rate} on {amount}");
                halves += usize::from(twice == penny);
            }
        }
        assert!(halves > 10_000, "{halves}");
    }

    #[test]
    fn the_figures() {
        let figures = [
            (0x03E8_01F4, 12_345, 14_259),
            (0x03E8_01F4, 5, 6),
            (0x0000_000A, 100_000, 100_100),
            (0, 12_345, 12_345),
            (0xFFFF_FFFF, 0, 0),
        ];
        for (value, cost, price) in figures {
            assert_eq!(RateSet::of(value).price(cost), price, "{value:08X} on {cost}");
            assert_eq!(quote(Some(value), &[cost]), Ok(price), "{value:08X} on {cost}");
        }
    }

    /// With the overhead on the price after markup it is another penny.
    #[test]
    fn overhead_comes_first() {
        assert_eq!(RateSet::of(0x03E8_01F4).price(12_345), 14_259);
        assert_eq!(RateSet::of(0x01F4_03E8).price(12_345), 14_258);
    }

    #[test]
    fn a_quote_is_the_sum_of_its_lines() {
        let costs = [10_000, 333, 1];
        assert_eq!(costs.map(|cost| RateSet::of(0x05DC_03E8).price(cost)), [12_650, 421, 1]);
        assert_eq!(quote(Some(0x05DC_03E8), &costs), Ok(13_072));
        let largest = quote(Some(u32::MAX), &[HIGHEST_COST; MOST_LINES]);
        assert_eq!(largest, Ok(11_411_072_450_000));
    }

    #[test]
    fn refusals_come_in_the_papers_order() {
        let over = HIGHEST_COST + 1;
        let of = |length: usize, last: u64| {
            let mut costs = vec![1; length];
            costs[length - 1] = last;
            costs
        };
        let tried = [
            (vec![], Some(0), Err(Reason::LinesOutsideLimits)),
            (vec![], None, Err(Reason::LinesOutsideLimits)),
            (of(201, 1), Some(0), Err(Reason::LinesOutsideLimits)),
            (of(201, over), None, Err(Reason::LinesOutsideLimits)),
            (of(200, over), Some(0), Err(Reason::CostOutsideLimits)),
            (of(1, u64::MAX), None, Err(Reason::CostOutsideLimits)),
            (of(200, HIGHEST_COST), None, Err(Reason::NoDecision)),
            (of(200, HIGHEST_COST), Some(0), Ok(HIGHEST_COST + 199)),
            (of(1, HIGHEST_COST), Some(0), Ok(HIGHEST_COST)),
        ];
        for (costs, decision, right) in tried {
            assert_eq!(quote(decision, &costs), right, "{decision:?} {costs:?}");
        }
    }
}
