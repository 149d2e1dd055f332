//! The sheet as a plot, in SVG: the first value of each pair against its distance, for each beta and family of pairs.

use crate::axes::{floor, Axes, Scale, LEFT, RIGHT};
use crate::marks::{families, family, mark, stroke};
use crate::record::{lines, wrapped};
use crate::sheet::{bits, Row, Sheet};

const WIDTH: f64 = 920.0;

/// So many letters a line of text takes, and one of the record.
const LETTERS: usize = 125;
const RECORD_LETTERS: usize = 145;

/// So many betas are named beside the plot.
const NAMED: usize = 12;

pub fn svg(sheet: &Sheet, linear: bool) -> String {
    let title: Vec<String> = [sheet.title.clone(), sheet.head()].iter().flat_map(|line| wrapped(line, LETTERS)).collect();
    let axes = Axes::of(sheet, 24.0 + 16.0 * title.len() as f64, linear);
    let mut svg = String::new();
    for (i, line) in title.iter().enumerate() {
        svg += &label((LEFT, 24.0 + 16.0 * i as f64), "start", line);
    }
    svg += &frame(sheet, &axes);
    for beta in 0..sheet.betas.len() {
        svg += &series(sheet, &axes, beta);
    }
    svg += &legend(sheet, &axes);
    let mut y = axes.bottom() + 62.0;
    for line in foot(sheet, &axes).iter().flat_map(|line| wrapped(line, LETTERS)) {
        svg += &label((LEFT, y), "start", &line);
        y += 15.0;
    }
    svg += "<g class=\"record\" font-size=\"9\" font-family=\"monospace\" xml:space=\"preserve\">\n";
    for line in lines(&sheet.record, RECORD_LETTERS) {
        svg += &label((LEFT, y), "start", &line);
        y += 11.0;
    }
    y += 6.0;
    format!(
        "<svg xmlns=\"http://www.w3.org/2000/svg\" viewBox=\"0 0 {WIDTH} {y}\" width=\"{WIDTH}\" height=\"{y}\" font-family=\"sans-serif\" \
         font-size=\"12\">\n<title>{}</title>\n<rect width=\"100%\" height=\"100%\" fill=\"white\"/>\n{svg}</g>\n</svg>\n",
        escaped(&sheet.title)
    )
}

fn escaped(text: &str) -> String {
    text.replace('&', "&amp;").replace('<', "&lt;").replace('>', "&gt;")
}

fn label((x, y): (f64, f64), anchor: &str, text: &str) -> String {
    format!("<text x=\"{x:.1}\" y=\"{y:.1}\" text-anchor=\"{anchor}\">{}</text>\n", escaped(text))
}

fn line(from: (f64, f64), to: (f64, f64), style: &str) -> String {
    format!("<line x1=\"{:.1}\" y1=\"{:.1}\" x2=\"{:.1}\" y2=\"{:.1}\" {style}/>\n", from.0, from.1, to.0, to.1)
}

/// Whether a value that has a place is negative.
fn any_negative(sheet: &Sheet) -> bool {
    sheet.rows.iter().any(|row| row.distance.is_some() && row.values.iter().any(|of_beta| of_beta[0] < 0.0))
}

/// What is plotted, as the axis names it.
fn quantity(sheet: &Sheet, axes: &Axes) -> String {
    let name = sheet.columns[0].replace('_', " ");
    match axes.scale {
        Scale::Log(..) if any_negative(sheet) => format!("size of the {name}"),
        _ => name,
    }
}

/// Both axes with their ticks and names.
fn frame(sheet: &Sheet, axes: &Axes) -> String {
    let bottom = axes.bottom();
    let mut svg = String::new();
    for (value, name) in axes.ticks() {
        let y = axes.y(value).unwrap_or(bottom);
        svg += &line((LEFT, y), (RIGHT, y), if value == 0.0 { "stroke=\"#888888\"" } else { "stroke=\"#dddddd\"" });
        svg += &label((LEFT - 8.0, y + 4.0), "end", &name);
    }
    let step = ((axes.far - axes.near) / 16.0).ceil().max(1.0);
    let mut distance = axes.near;
    while distance <= axes.far {
        svg += &line((axes.x(distance), bottom), (axes.x(distance), bottom + 5.0), "stroke=\"black\"");
        svg += &label((axes.x(distance), bottom + 19.0), "middle", &distance.to_string());
        distance += step;
    }
    let (top, width, height) = (axes.top, RIGHT - LEFT, bottom - axes.top);
    svg += &format!("<rect x=\"{LEFT}\" y=\"{top}\" width=\"{width}\" height=\"{height}\" fill=\"none\" stroke=\"black\"/>\n");
    svg += &label(((LEFT + RIGHT) / 2.0, bottom + 38.0), "middle", "distance (kept edges from one spin to the other)");
    let (x, y) = (22.0, (axes.top + bottom) / 2.0);
    svg + &format!(
        "<text transform=\"translate({x:.1} {y:.1}) rotate(-90)\" text-anchor=\"middle\">{}</text>\n",
        escaped(&quantity(sheet, axes))
    )
}

/// A pair that can be shown at a beta: its family, its place, and its value.
struct Point<'a> {
    family: usize,
    distance: usize,
    at: (f64, f64),
    row: &'a Row,
}

/// Families at one distance stand side by side.
fn points<'a>(sheet: &'a Sheet, axes: &Axes, beta: usize) -> Vec<Point<'a>> {
    let families = families(sheet);
    let point = |row: &'a Row| {
        let (distance, value) = (row.distance?, row.values[beta][0]);
        let family = families.iter().position(|name| *name == family(sheet, row))?;
        if matches!(axes.scale, Scale::Log(..)) && value.abs() <= floor(sheet, beta) {
            return None;
        }
        let aside = (family as f64 - (families.len() - 1) as f64 / 2.0) * (60.0 / (axes.far - axes.near + 1.0)).min(5.0);
        Some(Point { family, distance, at: (axes.x(distance as f64) + aside, axes.y(value)?), row })
    };
    sheet.rows.iter().filter_map(point).collect()
}

/// The points of one beta, with their errors, and for each family the line through the means at each distance.
fn series(sheet: &Sheet, axes: &Axes, beta: usize) -> String {
    let (stroke, points) = (stroke(beta, sheet.betas.len()), points(sheet, axes, beta));
    let mut svg = String::new();
    for family in 0..families(sheet).len() {
        let of_family: Vec<&Point> = points.iter().filter(|point| point.family == family).collect();
        let path: Vec<String> = means(&of_family).iter().map(|(x, y)| format!("{x:.1},{y:.1}")).collect();
        if path.len() > 1 {
            let style = format!("fill=\"none\" stroke=\"{}\" stroke-dasharray=\"{}\" opacity=\"0.7\"", stroke.colour, stroke.dash);
            svg += &format!("<polyline points=\"{}\" {style}/>\n", path.join(" "));
        }
    }
    for point in points {
        let x = point.row.values[beta][0];
        let told = if sheet.bits { bits(x) } else { format!("{x:?}") };
        let mut title = format!("beta {}, {} ({}-{}): {told}", sheet.betas[beta], point.row.label, point.row.u, point.row.v);
        if sheet.spread() {
            title += &format!(", spread {:?}", point.row.values[beta][1]);
        }
        if sheet.drawn() {
            svg += &error_bar(axes, &point, x, point.row.values[beta][1], &stroke.colour);
        }
        svg += &mark(point.family, point.at, &stroke.colour, x < 0.0, &escaped(&title));
    }
    svg
}

/// One standard error to either side, as far as the frame goes.
fn error_bar(axes: &Axes, point: &Point, value: f64, error: f64, colour: &str) -> String {
    let upper = axes.y(value + error).unwrap_or(axes.top);
    let lower = if value > error { axes.y(value - error).unwrap_or(axes.bottom()) } else { axes.y(0.0).unwrap_or(axes.bottom()) };
    let (x, style) = (point.at.0, format!("class=\"error\" stroke=\"{colour}\""));
    let cap = |y: f64| line((x - 2.5, y), (x + 2.5, y), &style);
    line((x, upper), (x, lower), &style) + &cap(upper) + &cap(lower)
}

/// The mean place of the points at each distance, nearest first.
fn means(points: &[&Point]) -> Vec<(f64, f64)> {
    let mut distances: Vec<usize> = points.iter().map(|point| point.distance).collect();
    distances.sort_unstable();
    distances.dedup();
    let mean = |d: usize| {
        let at: Vec<(f64, f64)> = points.iter().filter(|point| point.distance == d).map(|point| point.at).collect();
        let sum = at.iter().fold((0.0, 0.0), |sum, at| (sum.0 + at.0, sum.1 + at.1));
        (sum.0 / at.len() as f64, sum.1 / at.len() as f64)
    };
    distances.into_iter().map(mean).collect()
}

/// Beside the plot, where no point lies: families by their mark, betas by their line.
fn legend(sheet: &Sheet, axes: &Axes) -> String {
    let (x, mut y) = (RIGHT + 20.0, axes.top + 12.0);
    let mut svg = "<g class=\"legend\">\n".to_string();
    for (i, name) in families(sheet).iter().enumerate() {
        svg += &mark(i, (x + 12.0, y - 4.0), "black", false, name);
        svg += &label((x + 30.0, y), "start", name);
        y += 17.0;
    }
    y += 10.0;
    for &i in &named(sheet.betas.len()) {
        let stroke = stroke(i, sheet.betas.len());
        let style = format!("stroke=\"{}\" stroke-width=\"2\" stroke-dasharray=\"{}\"", stroke.colour, stroke.dash);
        svg += &line((x, y - 4.0), (x + 24.0, y - 4.0), &style);
        svg += &label((x + 30.0, y), "start", &format!("beta {}", sheet.betas[i]));
        y += 17.0;
    }
    if sheet.betas.len() > NAMED {
        svg += &label((x + 30.0, y), "start", &format!("+ {} more", sheet.betas.len() - NAMED));
    }
    svg + "</g>\n"
}

/// The betas that are named: all, or of many so many from the first to the last.
fn named(betas: usize) -> Vec<usize> {
    let most = betas.min(NAMED);
    (0..most).map(|i| if most < 2 { 0 } else { i * (betas - 1) / (most - 1) }).collect()
}

/// What a reader must know, and what is not shown.
fn foot(sheet: &Sheet, axes: &Axes) -> Vec<String> {
    let mut foot = vec!["lines join the mean places of a family's pairs at each distance".to_string()];
    let log = matches!(axes.scale, Scale::Log(..));
    if sheet.drawn() {
        foot.push("bars: one standard error to either side".to_string());
    }
    if sheet.spread() {
        foot.push("no bars: every configuration is counted, so no mean has a sampling error; a mark's title has its spread".to_string());
    }
    if any_negative(sheet) {
        foot.push("hollow marks: negative values".to_string());
    }
    let shown: usize = (0..sheet.betas.len()).map(|beta| points(sheet, axes, beta).len()).sum();
    let joined = sheet.rows.iter().filter(|row| row.distance.is_some()).count() * sheet.betas.len();
    if log && shown < joined {
        foot.push(format!(
            "not shown: {} of {joined} values, which are below their error bound, or below 1e-15 where none is proved",
            joined - shown
        ));
    }
    let apart: Vec<&str> = sheet.rows.iter().filter(|row| row.distance.is_none()).map(|row| row.label.as_str()).collect();
    if !apart.is_empty() {
        foot.push(format!("not joined by kept edges, and not shown: {}", apart.join(", ")));
    }
    foot
}

#[cfg(test)]
mod tests {
    use super::named;

    #[test]
    fn of_many_betas_twelve_are_named() {
        assert_eq!((named(1), named(3)), (vec![0], vec![0, 1, 2]));
        assert_eq!(named(12), (0..12).collect::<Vec<_>>());
        let of_many = named(64);
        assert!(of_many.len() == 12 && of_many[0] == 0 && of_many[11] == 63 && of_many.windows(2).all(|pair| pair[0] < pair[1]));
    }
}
