//! The four calls for house factors, against document 02's table and refusals, and against the original, which is fed the same couplings:
//! where this host's exponentials are the table's it works with the same factors.

use crate::draw::Draw;
use crate::{correlations, totals};

pub fn try_one(draw: &mut Draw) -> Result<usize, String> {
    if draw.once_in(2) {
        correlations::try_house(draw)
    } else {
        totals::try_house(draw)
    }
}
