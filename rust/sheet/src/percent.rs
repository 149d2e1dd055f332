//! Exact shares as percentages: hundredths of a percent, and three parts of one whole so that they add up.

use copperhook::Share;

/// One whole, in hundredths of a percent.
const WHOLE: u64 = 10_000;

/// What a share is in hundredths of a percent, rounded down, and what that leaves over the share's bottom.
fn down(share: Share) -> (u64, u128) {
    let (parts, bottom) = (u128::from(share.top) * u128::from(WHOLE), u128::from(share.bottom));
    ((parts / bottom) as u64, parts % bottom)
}

/// Three shares that add to one, in hundredths of a percent that add up to 100 percent: each is rounded down, and the hundredths that are
/// missing go to those that lost most by it, the first of equals.
pub fn adding_up(shares: [Share; 3]) -> [u64; 3] {
    let rounded = shares.map(down);
    let mut order = [0, 1, 2];
    // the larger loss first; a stable sort keeps equals in their order
    order.sort_by(|&i, &j| {
        let [loss, other] = [(i, j), (j, i)].map(|(i, j)| rounded[i].1 * u128::from(shares[j].bottom));
        other.cmp(&loss)
    });
    let mut parts = rounded.map(|part| part.0);
    let missing = WHOLE - parts.iter().sum::<u64>();
    for &i in order.iter().take(missing as usize) {
        parts[i] += 1;
    }
    parts
}

/// A share in hundredths of a percent, to the nearest; of two as near the larger.
pub fn nearest(share: Share) -> u64 {
    let (parts, left) = down(share);
    parts + u64::from(2 * left >= u128::from(share.bottom))
}

/// With its two decimals.
pub fn spelled(hundredths: u64) -> String {
    format!("{}.{:02}", hundredths / 100, hundredths % 100)
}

#[cfg(test)]
mod tests {
    use super::{adding_up, nearest, spelled, WHOLE};
    use copperhook::Share;

    fn share(top: u64, bottom: u64) -> Share {
        Share { top, bottom }
    }

    #[test]
    fn three_add_up() {
        let spell = |shares: [(u64, u64); 3]| adding_up(shares.map(|(top, bottom)| share(top, bottom))).map(spelled);
        assert_eq!(spell([(1, 3), (1, 3), (1, 3)]), ["33.34", "33.33", "33.33"]);
        assert_eq!(spell([(1, 6), (1, 6), (2, 3)]), ["16.67", "16.67", "66.66"]);
        assert_eq!(spell([(1, 1), (0, 1), (0, 1)]), ["100.00", "0.00", "0.00"]);
        assert_eq!(spell([(1, 1 << 24), (0, 1), ((1 << 24) - 1, 1 << 24)]), ["0.00", "0.00", "100.00"]);
        for all in 1..60u64 {
            for above in 0..=all {
                for below in 0..=all - above {
                    let parts = adding_up([share(above, all), share(all - above - below, all), share(below, all)]);
                    assert_eq!(parts.iter().sum::<u64>(), WHOLE);
                    let off = |part: u64, many: u64| (part * all).abs_diff(many * WHOLE) < all;
                    assert!(off(parts[0], above) && off(parts[1], all - above - below) && off(parts[2], below));
                }
            }
        }
    }

    #[test]
    fn one_alone_is_the_nearest() {
        assert_eq!([share(2, 3), share(1, 3), share(1, 20_000), share(0, 1)].map(nearest).map(spelled), ["66.67", "33.33", "0.01", "0.00"]);
    }
}
