//! Shares of stored correlations: exact parts of all entries.

use crate::call::call;
use crate::refusal::Refusal;
use std::fmt;

/// A part of a whole, in lowest terms: none is 0/1, all is 1/1.
#[derive(Clone, Copy, Debug, PartialEq, Eq)]
pub struct Share {
    /// The top of the fraction, at most the bottom.
    pub top: u64,
    /// The bottom of the fraction, at least 1.
    pub bottom: u64,
}

impl fmt::Display for Share {
    fn fmt(&self, f: &mut fmt::Formatter<'_>) -> fmt::Result {
        write!(f, "{}/{}", self.top, self.bottom)
    }
}

/// What part of the entries of all lists is of each kind. The first three add to one exactly.
#[derive(Clone, Copy, Debug, PartialEq, Eq)]
pub struct Shares {
    /// Those above zero.
    pub above: Share,
    /// Zeros of either sign.
    pub zero: Share,
    /// Those below zero.
    pub below: Share,
    /// Those that are 1/2 or more in size, of either sign.
    pub half: Share,
}

/// Returns the shares of stored correlations, as [`Job::exhaustive_c`](crate::Job::exhaustive_c) stores them: from 1 to 256 lists, end to end
/// in `stored`, with the length of each in `lengths`, from 1 to 2^24. They are parts of all entries, not means of the lists' own.
///
/// ```
/// use copperhook::{shares, Refusal};
///
/// let pooled = shares(&[1.0, 0.0, -0.0, -0.5], &[1, 3])?;
/// assert_eq!([pooled.above, pooled.zero, pooled.below, pooled.half].map(|share| share.to_string()), ["1/4", "1/2", "1/4", "1/2"]);
/// assert_eq!(shares(&[1.0, 0.0, -0.0, -0.5], &[1, 2]), Err(Refusal::Shares));
/// # Ok::<(), Refusal>(())
/// ```
pub fn shares(stored: &[f64], lengths: &[usize]) -> Result<Shares, Refusal> {
    let mut words = [0; 8];
    Refusal::told(call!(copperhook_shares(; read stored, lengths; with words.as_mut_ptr())))?;
    let share = |i: usize| Share { top: words[2 * i], bottom: words[2 * i + 1] };
    Ok(Shares { above: share(0), zero: share(1), below: share(2), half: share(3) })
}

#[cfg(test)]
mod tests {
    use super::{shares, Share, Shares};
    use crate::limits::{SHARE_ENTRIES, SHARE_LISTS};
    use crate::Refusal;

    fn share(top: u64, bottom: u64) -> Share {
        Share { top, bottom }
    }

    #[test]
    fn they_are_of_all_entries() {
        let pooled = shares(&[1.0, 0.0, 0.0], &[1, 2]).unwrap();
        assert_eq!(pooled, Shares { above: share(1, 3), zero: share(2, 3), below: share(0, 1), half: share(1, 3) });
        assert_eq!(shares(&[1.0, 0.0, 0.0], &[3]), Ok(pooled));
    }

    #[test]
    fn zeros_have_no_sign_and_halves_count() {
        let pooled = shares(&[-0.0, 0.5, -0.5, 0.5f64.next_down(), -1.0, 0.0], &[6]).unwrap();
        assert_eq!(pooled, Shares { above: share(1, 3), zero: share(1, 3), below: share(1, 3), half: share(1, 2) });
        assert_eq!(shares(&[-5e-324], &[1]).unwrap().below, share(1, 1));
    }

    #[test]
    fn bad_lists_are_refused() {
        let ones = vec![1.0; SHARE_LISTS + 1];
        assert_eq!(shares(&ones[..256], &[1; 256]).map(|pooled| pooled.above), Ok(share(1, 1)));
        for (stored, lengths) in [
            (&ones[..0], &[][..]),
            (&ones[..257], &[1; 257]),
            (&ones[..0], &[0]),
            (&ones[..1], &[0, 1]),
            (&ones[..2], &[1]),
            (&ones[..1], &[2]),
            (&ones[..0], &[1 << 63, 1 << 63]),
            (&[f64::NAN], &[1]),
            (&[f64::NEG_INFINITY], &[1]),
            (&[1f64.next_up()], &[1]),
        ] {
            assert_eq!(shares(stored, lengths), Err(Refusal::Shares), "{stored:?} {lengths:?}");
        }
    }

    #[test]
    fn a_list_has_at_most_two_to_the_24_entries() {
        let mut stored = vec![0.25; SHARE_ENTRIES + 1];
        stored[77] = -0.75;
        assert_eq!(shares(&stored, &[SHARE_ENTRIES + 1]), Err(Refusal::Shares));
        let pooled = shares(&stored[..1 << 24], &[1 << 24]).unwrap();
        assert_eq!((pooled.below, pooled.half), (share(1, 1 << 24), share(1, 1 << 24)));
        assert_eq!(pooled.above, share((1 << 24) - 1, 1 << 24));
    }
}
