//! Betas in rising order, and what spoils it.

use crate::draw::Draw;

/// Returns the betas in rising order, each once: +0.0 and -0.0 are equal.
pub fn risen(mut betas: Vec<f64>) -> Vec<f64> {
    betas.sort_by(f64::total_cmp);
    betas.dedup();
    betas
}

/// Two betas change places, one is there twice, or a zero follows one of the other sign; where there are none, two equal ones come.
pub fn disorder(draw: &mut Draw, betas: &mut Vec<f64>) {
    let any = draw.between(-1.0, 1.0);
    let Some(last) = betas.len().checked_sub(1) else {
        betas.extend([any, any]);
        return;
    };
    let (i, j) = (draw.within(0, last), draw.within(0, last));
    match draw.below(4) {
        0 => betas.swap(i, j),
        1 => betas.insert(i, betas[i]),
        2 => betas.splice(i..=i, draw.of(&[[0.0, -0.0], [-0.0, 0.0]])).for_each(drop),
        _ => betas.push(any),
    }
}
