//! How far values are from the exact ones, as a sheet's text tells it: a line at its foot, and no digit that the bound does not leave true.

use crate::sheet::Sheet;

/// Where no bound is proved, no digit below 10^-15 is printed.
const UNPROVED_DECIMALS: i32 = 15;

/// What is proved of the first column, and what of none.
pub fn foot(sheet: &Sheet) -> String {
    let named = |known: bool| -> Vec<&str> {
        let betas = sheet.betas.iter().zip(&sheet.bounds);
        betas.filter(|(_, bound)| bound.is_some() == known).map(|(beta, _)| beta.as_str()).collect()
    };
    let (known, unknown) = (named(true), named(false));
    let mut foot = "\n".to_string();
    if let Some(most) = sheet.bounds.iter().flatten().copied().reduce(f64::max) {
        let at = if unknown.is_empty() { String::new() } else { format!(" at beta {}", known.join(", ")) };
        let (what, within) = (sheet.columns[0].replace('_', " "), above(most));
        foot +=
            &format!("each {what}{at} is within {within} of the exact value for these factors, proved; no digit below that is printed\n");
    }
    let second = if sheet.spread() { "spreads" } else { "standard errors" };
    let unproved = match (known.is_empty(), unknown.is_empty()) {
        (_, true) if sheet.columns.len() == 1 => return foot,
        (_, true) => format!("of the {second}"),
        (true, _) => "for couplings this strong".to_string(),
        (false, _) if sheet.columns.len() == 1 => format!("for couplings as strong as at beta {}", unknown.join(", ")),
        (false, _) => format!("for couplings as strong as at beta {}, and of the {second}", unknown.join(", ")),
    };
    foot + &format!("no bound is proved {unproved}; no digit below 1e-15 is printed there\n")
}

/// Two digits, rounded up.
pub fn above(bound: f64) -> String {
    let nearest = format!("{bound:.1e}");
    if nearest.parse::<f64>().is_ok_and(|x| x >= bound) {
        return nearest;
    }
    let (digits, exponent) = nearest.split_once('e').unwrap_or((&nearest, "0"));
    let tenths = digits.replace('.', "").parse::<u32>().unwrap_or(0) + 1;
    // 9.9 and a tenth are ten
    let more = f64::from(tenths) / 10.0 * 10f64.powi(exponent.parse().unwrap_or(0));
    format!("{more:.1e}")
}

/// How many decimals may be printed: half a unit of the last is not below the bound, so that the last is off by one at most.
fn true_decimals(bound: Option<f64>) -> i32 {
    bound.map_or(UNPROVED_DECIMALS, |bound| (0..=17).rev().find(|&d| 2.0 * bound * 10f64.powi(d) <= 1.0).unwrap_or(0))
}

/// Twelve decimals, or twelve digits of what is too small for them; fewer where the bound is wider.
pub fn value(x: f64, bound: Option<f64>) -> String {
    let decimals = true_decimals(bound);
    if x != 0.0 && x.abs() < 1e-6 {
        let digits = decimals.saturating_sub(places_before(x));
        if digits >= 0 {
            return format!("{x:.*e}", digits.min(11) as usize);
        }
    }
    let text = format!("{x:.*}", decimals.clamp(0, 12) as usize);
    // of a zero that is left the sign is not known
    match text.strip_prefix('-') {
        Some(size) if size.bytes().all(|c| b"0.".contains(&c)) => size.to_string(),
        _ => text,
    }
}

/// The decimal place of a small number's first digit.
fn places_before(x: f64) -> i32 {
    format!("{x:e}").split_once("e-").and_then(|(_, place)| place.parse().ok()).unwrap_or(0)
}

#[cfg(test)]
mod tests {
    use super::*;

    #[test]
    fn small_values_keep_their_digits() {
        assert_eq!(value(0.6, None), "0.600000000000");
        assert_eq!(value(-1.5e-9, Some(1e-25)), "-1.50000000e-9");
        assert_eq!(value(0.0, None), "0.000000000000");
    }

    #[test]
    fn no_digit_past_the_bound() {
        assert_eq!(value(2.0 / 3.0, Some(4e-13)), "0.666666666667");
        assert_eq!(value(2.0 / 3.0, Some(2.3e-12)), "0.66666666667");
        assert_eq!(value(2.0 / 3.0, Some(3.7e-9)), "0.66666667");
        assert_eq!(value(-1.2345678e-9, Some(7e-15)), "-1.2346e-9");
        assert_eq!(value(-1.2345678e-9, Some(2e-10)), "-1e-9");
        assert_eq!(
            (value(-1.2345678e-9, Some(2.3e-9)), value(-4e-14, Some(1e-13))),
            ("0.00000000".to_string(), "0.000000000000".to_string())
        );
        assert_eq!(value(1.0, Some(0.7)), "1");
    }

    #[test]
    fn no_digit_below_an_absolute_one_without_a_bound() {
        assert_eq!(
            [-1.5e-9, 1.00561741367e-14, 1e-15, 4e-16].map(|x| value(x, None)),
            ["-1.500000e-9", "1.0e-14", "1e-15", "0.000000000000"]
        );
    }

    #[test]
    fn a_bound_is_rounded_up() {
        assert_eq!(
            (above(2.0e-12), above(2.27e-12), above(2.21e-12)),
            ("2.0e-12".to_string(), "2.3e-12".to_string(), "2.3e-12".to_string())
        );
        assert_eq!((above(9.91e-12), above(9.99e-12)), ("1.0e-11".to_string(), "1.0e-11".to_string()));
    }
}
