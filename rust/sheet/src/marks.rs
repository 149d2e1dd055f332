//! How pairs and betas are told apart in a plot: families of pairs by their mark, betas by colour and dash.

use crate::sheet::{Row, Sheet};

/// Colours that eyes of every kind tell apart (Okabe and Ito), without those that are faint on white.
const COLOURS: [&str; 6] = ["#0072B2", "#D55E00", "#009E73", "#CC79A7", "#000000", "#E69F00"];

/// Dashes, for prints in black and white.
const DASHES: [&str; 6] = ["", "7 3", "2 3", "10 3 2 3", "5 2 1 2 1 2", "14 4"];

/// For more betas: from dark to light, so that a print in grey keeps their order (after Cividis).
const RAMP: [(f64, f64, f64); 4] = [(0.0, 34.0, 78.0), (76.0, 85.0, 108.0), (140.0, 132.0, 118.0), (214.0, 186.0, 90.0)];

pub struct Stroke {
    pub colour: String,
    pub dash: &'static str,
}

/// Of beta i of so many.
pub fn stroke(i: usize, betas: usize) -> Stroke {
    if betas <= COLOURS.len() {
        return Stroke { colour: COLOURS[i].to_string(), dash: DASHES[i] };
    }
    let along = i as f64 / (betas - 1) as f64 * (RAMP.len() - 1) as f64;
    let (from, share) = ((along as usize).min(RAMP.len() - 2), along - (along as usize).min(RAMP.len() - 2) as f64);
    let mix = |a: f64, b: f64| (a + share * (b - a)).round() as u8;
    let (a, b) = (RAMP[from], RAMP[from + 1]);
    let colour = format!("#{:02x}{:02x}{:02x}", mix(a.0, b.0), mix(a.1, b.1), mix(a.2, b.2));
    Stroke { colour, dash: DASHES[i % DASHES.len()] }
}

/// What a pair belongs to: the boundary or the centre, where its label says so, and whether it lies along or across.
pub fn family(sheet: &Sheet, row: &Row) -> String {
    let (u, v) = ((row.u / sheet.width, row.u % sheet.width), (row.v / sheet.width, row.v % sheet.width));
    let way = match (u.0 == v.0, u.1 == v.1) {
        (true, _) => "across",
        (_, true) => "along",
        _ => "oblique",
    };
    if sheet.strip.starts_with("job") {
        return "pairs".to_string();
    }
    match (sheet.standard, row.label.starts_with("centre"), way) {
        (false, ..) => way.to_string(),
        (_, _, "oblique") => "opposite corners".to_string(),
        (_, true, _) => format!("centre, {way}"),
        _ => format!("boundary, {way}"),
    }
}

/// The families in the order in which they come.
pub fn families(sheet: &Sheet) -> Vec<String> {
    let mut names: Vec<String> = Vec::new();
    for row in sheet.rows.iter().filter(|row| row.distance.is_some()) {
        let name = family(sheet, row);
        if !names.contains(&name) {
            names.push(name);
        }
    }
    names
}

/// The mark of a family around a point; hollow for a negative value.
pub fn mark(family: usize, (x, y): (f64, f64), colour: &str, hollow: bool, title: &str) -> String {
    let fill = if hollow { "white" } else { colour };
    let path = match family % 5 {
        0 => format!("M{:.1} {y:.1}a3.6 3.6 0 1 0 7.2 0a3.6 3.6 0 1 0 -7.2 0z", x - 3.6),
        1 => format!("M{:.1} {:.1}h6.4v6.4h-6.4z", x - 3.2, y - 3.2),
        2 => format!("M{x:.1} {:.1}l4.2 7.2h-8.4z", y - 4.4),
        3 => format!("M{x:.1} {:.1}l4.4 4.4l-4.4 4.4l-4.4 -4.4z", y - 4.4),
        _ => format!("M{x:.1} {:.1}l4.2 -7.2h-8.4z", y + 4.4),
    };
    format!("<path class=\"mark\" d=\"{path}\" fill=\"{fill}\" stroke=\"{colour}\"><title>{title}</title></path>\n")
}

#[cfg(test)]
mod tests {
    use super::stroke;

    #[test]
    fn betas_have_strokes_of_their_own() {
        for betas in [1, 2, 6, 7, 12, 64] {
            let strokes: Vec<(String, &str)> = (0..betas).map(|i| stroke(i, betas)).map(|s| (s.colour, s.dash)).collect();
            assert!((0..betas).all(|i| !strokes[..i].contains(&strokes[i])), "{strokes:?}");
        }
        assert_eq!((stroke(0, 64).colour, stroke(63, 64).colour), ("#00224e".to_string(), "#d6ba5a".to_string()));
    }
}
