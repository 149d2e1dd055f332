//! How the value of an option is read, and how it is spelled again.

use crate::options::{Dilution, Dropped, Format, Wanted};

/// The names that the library takes for a kind.
const KINDS: [&str; 8] = ["square", "sq", "tri", "triangular", "honey", "honeycomb", "hex", "eight"];

pub fn kind(text: &str) -> Result<String, String> {
    match KINDS.contains(&text) {
        true => Ok(text.to_string()),
        false => Err("there is no such kind; use square, tri, honey or eight".to_string()),
    }
}

pub fn number<T: std::str::FromStr>(text: &str) -> Result<T, String>
where
    T::Err: std::fmt::Display,
{
    text.trim().parse().map_err(|e| format!("'{text}' is no number that fits here ({e})"))
}

/// A count, from 1 on.
pub fn count(text: &str) -> Result<usize, String> {
    number(text).and_then(|n: usize| if n > 0 { Ok(n) } else { Err("it must be at least 1".to_string()) })
}

pub fn list<T>(text: &str, read: impl Fn(&str) -> Result<T, String>) -> Result<Vec<T>, String> {
    text.split(',').map(read).collect()
}

pub fn pair(text: &str) -> Result<(usize, usize), String> {
    let (u, v) = text.split_once('-').ok_or_else(|| format!("'{text}' is no pair; write it as 0-5"))?;
    Ok((number(u)?, number(v)?))
}

pub fn dilution(text: &str) -> Result<Dilution, String> {
    match text.split(',').collect::<Vec<_>>()[..] {
        [keep, low, high, seed] => Ok(Dilution { keep: number(keep)?, low: number(low)?, high: number(high)?, seed: number(seed)? }),
        _ => Err("it takes four numbers, as 0.9,0.5,1.5,11".to_string()),
    }
}

/// A count, or from where up to, and without, what.
pub fn chunks(text: &str) -> Result<(u64, u64), String> {
    match text.split_once("..") {
        None => Ok((0, count(text)? as u64)),
        Some((from, to)) => match (number(from)?, number(to)?) {
            (from, to) if from < to => Ok((from, to)),
            _ => Err("it has no chunk; the second number must be above the first".to_string()),
        },
    }
}

pub fn threads(text: &str) -> Result<usize, String> {
    number(text).and_then(|n: usize| if (1..=1024).contains(&n) { Ok(n) } else { Err("it must be from 1 to 1,024".to_string()) })
}

pub fn signs(text: &str) -> Result<Wanted, String> {
    if text == "plus" {
        return Ok(Wanted::Plus);
    }
    let sign = |c: char| match c {
        '+' => Ok(false),
        '-' => Ok(true),
        _ => Err(format!("'{c}' is no sign; write + or -")),
    };
    Ok(Wanted::Signs(text.chars().map(sign).collect::<Result<_, _>>()?))
}

/// All edges, or those of some places: each once, in rising order.
pub fn dropped(text: &str) -> Result<Dropped, String> {
    if text == "all" {
        return Ok(Dropped::All);
    }
    let place = |word: &str| word.trim().parse().map_err(|_| format!("'{word}' is no place; write places of edges as 0,3, or all"));
    let mut places: Vec<usize> = list(text, place)?;
    places.sort_unstable();
    places.dedup();
    Ok(Dropped::Places(places))
}

/// As `--drop` takes them.
pub fn spelled_dropped(dropped: &Dropped) -> String {
    match dropped {
        Dropped::All => "all".to_string(),
        Dropped::Places(places) => places.iter().map(usize::to_string).collect::<Vec<_>>().join(","),
    }
}

/// Whether a sweep is rescaled at every element.
pub fn manner(text: &str) -> Result<bool, String> {
    match text {
        "block" => Ok(false),
        "element" => Ok(true),
        _ => Err("there is no such manner; use block or element".to_string()),
    }
}

pub fn format(text: &str) -> Result<Format, String> {
    match text {
        "text" => Ok(Format::Text),
        "csv" => Ok(Format::Csv),
        "json" => Ok(Format::Json),
        "svg" => Ok(Format::Svg),
        _ => Err("there is no such format; use text, csv, json or svg".to_string()),
    }
}

/// A double with as many digits as it takes to read it back, and none that says nothing.
pub fn spelled(x: f64) -> String {
    let text = format!("{x:?}");
    text.strip_suffix(".0").map(String::from).unwrap_or(text)
}

/// As `--signs` takes them.
pub fn spelled_signs(minus: &[bool]) -> String {
    minus.iter().map(|&m| if m { '-' } else { '+' }).collect()
}

#[cfg(test)]
mod tests {
    use super::*;

    #[test]
    fn doubles_are_spelled_short_and_read_back() {
        assert_eq!([1.0, -0.5, 0.44, 1e-7, -0.0].map(spelled), ["1", "-0.5", "0.44", "1e-7", "-0"]);
        for x in [0.1 + 0.2, 1.0 / 3.0, 5e-324, 1024.0, 123456789012345680.0] {
            assert_eq!(spelled(x).parse::<f64>().unwrap().to_bits(), x.to_bits());
        }
    }

    #[test]
    fn signs_are_spelled_as_they_are_read() {
        assert_eq!(signs(&spelled_signs(&[true, false])), Ok(Wanted::Signs(vec![true, false])));
    }
}
