//! The sheet as aligned text.

use crate::accuracy::{foot, value};
use crate::record::lines;
use crate::sheet::{bits, Sheet};

/// What the standard pairs' labels mean.
const LABELS: &str = "\
pairs: -a across, -l along; adj neighbours, d2 two steps apart; bdry on the boundary, lmid halfway along it; sheet --help tells all
";

/// The cells in columns, the first to the left and the others to the right.
pub fn aligned(table: &[Vec<String>]) -> String {
    let widths: Vec<usize> = (0..table[0].len()).map(|c| table.iter().map(|row| row[c].chars().count()).max().unwrap_or(0)).collect();
    let mut text = String::new();
    for row in table {
        let cells = row.iter().enumerate().map(|(c, cell)| {
            let width = widths[c];
            if c == 0 {
                format!("{cell:<width$}")
            } else {
                format!("{cell:>width$}")
            }
        });
        text += cells.collect::<Vec<_>>().join("  ").trim_end();
        text.push('\n');
    }
    text
}

pub fn text(sheet: &Sheet) -> String {
    let mut text = format!("{}\n{}\n\n", sheet.title, sheet.head());
    text += &aligned(&table(sheet));
    text += &foot(sheet);
    if let Some([less, most]) = &sheet.less_room {
        text += &format!("worked out with less room: {less} of work memory, without --less-room {most}; no number depends on it\n");
    }
    if sheet.standard {
        text += LABELS;
    }
    text.push('\n');
    for line in lines(&sheet.record, 120) {
        text += &line;
        text.push('\n');
    }
    text
}

/// Its head and a line for each pair, cell by cell.
fn table(sheet: &Sheet) -> Vec<Vec<String>> {
    let mut head: Vec<String> = ["pair", "u", "v", "distance"].map(String::from).to_vec();
    for beta in &sheet.betas {
        for column in sheet.columns {
            head.push(if sheet.columns.len() == 1 { format!("beta {beta}") } else { format!("{column} at {beta}") });
            head.extend(sheet.bits.then(|| "bits".to_string()));
        }
    }
    let mut table = vec![head];
    for row in &sheet.rows {
        let mut cells = vec![row.label.clone(), row.u.to_string(), row.v.to_string()];
        cells.push(row.distance.map_or("-".to_string(), |d| d.to_string()));
        for (of_beta, &bound) in row.values.iter().zip(&sheet.bounds) {
            for (c, &x) in of_beta.iter().enumerate() {
                cells.push(value(x, if c == 0 { bound } else { None }));
                cells.extend(sheet.bits.then(|| bits(x)));
            }
        }
        table.push(cells);
    }
    table
}
