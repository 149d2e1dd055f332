//! The sheet for other programs: comma-separated values, and JSON. Each double is written so that it reads back as the same bits.

use crate::record::Field;
use crate::sheet::{bits, Row, Sheet};

pub fn csv(sheet: &Sheet) -> String {
    let mut text: String = sheet.record.0.iter().map(|(key, field)| format!("# {key}: {}\n", field.shown())).collect();
    text += "kind,boundary,width,length,beta,pair,u,v,distance";
    for column in sheet.columns {
        text += &format!(",{column}");
        if sheet.bits {
            text += &format!(",{column}_bits");
        }
    }
    text += &format!(",{}_bound\n", sheet.columns[0]);
    for (i, beta) in sheet.betas.iter().enumerate() {
        for row in &sheet.rows {
            let distance = row.distance.map_or(String::new(), |d| d.to_string());
            text += &format!("{},{beta},{},{},{},{distance}", sheet.strip, row.label, row.u, row.v);
            for &x in &row.values[i] {
                text += &format!(",{x:?}");
                if sheet.bits {
                    text += &format!(",{}", bits(x));
                }
            }
            text += &format!(",{}\n", sheet.bounds[i].map_or(String::new(), |bound| format!("{bound:?}")));
        }
    }
    text
}

pub fn json(sheet: &Sheet) -> String {
    let record: Vec<String> = sheet.record.0.iter().map(|(key, field)| format!("    {}: {}", string(key), json_field(field))).collect();
    let bounds: Vec<String> = sheet.bounds.iter().map(|b| b.map_or("null".to_string(), |bound| format!("{bound:?}"))).collect();
    let rows: Vec<String> = sheet.rows.iter().map(|row| format!("    {}", json_row(sheet, row))).collect();
    format!(
        "{{\n  \"record\": {{\n{}\n  }},\n  \"title\": {},\n  \"source\": {},\n  \"betas\": [{}],\n  {}: [{}],\n  \"pairs\": [\n{}\n  ]\n}}\n",
        record.join(",\n"),
        string(&sheet.title),
        string(&sheet.source),
        sheet.betas.join(", "),
        string(&format!("{}_bound", sheet.columns[0])),
        bounds.join(", "),
        rows.join(",\n")
    )
}

pub fn json_field(field: &Field) -> String {
    match field {
        Field::Text(text) => string(text),
        Field::Number(number) => number.clone(),
        Field::Nothing => "null".to_string(),
    }
}

/// A pair with a list for each column, by beta.
fn json_row(sheet: &Sheet, row: &Row) -> String {
    let distance = row.distance.map_or("null".to_string(), |d| d.to_string());
    let mut text = format!("{{\"pair\": {}, \"u\": {}, \"v\": {}, \"distance\": {distance}", string(&row.label), row.u, row.v);
    for (c, column) in sheet.columns.iter().enumerate() {
        let list = |cell: fn(f64) -> String| row.values.iter().map(|of_beta| cell(of_beta[c])).collect::<Vec<_>>().join(", ");
        text += &format!(", {}: [{}]", string(column), list(|x| format!("{x:?}")));
        if sheet.bits {
            text += &format!(", {}: [{}]", string(&format!("{column}_bits")), list(|x| string(&bits(x))));
        }
    }
    text + "}"
}

/// Quoted; control characters, quotes and backslashes by their escapes.
pub fn string(text: &str) -> String {
    let escaped: String = text
        .chars()
        .map(|c| match c {
            '"' | '\\' => format!("\\{c}"),
            c if c < ' ' => format!("\\u{:04x}", c as u32),
            c => c.to_string(),
        })
        .collect();
    format!("\"{escaped}\"")
}

#[cfg(test)]
mod tests {
    use super::string;

    #[test]
    fn strings_are_escaped() {
        assert_eq!(string("a\"\\\n"), "\"a\\\"\\\\\\u000a\"");
    }
}
