//! A reader of JSON: every value that is no list and no object, with the place where it stands, as `record.width` or `pairs[2].u`.

use std::collections::BTreeMap;

/// Deeper than any sheet is, and not so deep that the reader runs out of stack.
const DEEPEST: usize = 16;

struct Reader<'a> {
    rest: &'a str,
    found: BTreeMap<String, String>,
}

pub fn cells(text: &str) -> Result<BTreeMap<String, String>, String> {
    let mut reader = Reader { rest: text, found: BTreeMap::new() };
    reader.value(String::new(), 0)?;
    match reader.skip() {
        "" => Ok(reader.found),
        rest => Err(format!("something stands behind its end: '{}'", start(rest))),
    }
}

fn start(text: &str) -> String {
    text.chars().take(20).collect()
}

impl<'a> Reader<'a> {
    fn skip(&mut self) -> &'a str {
        self.rest = self.rest.trim_start_matches([' ', '\n', '\r', '\t']);
        self.rest
    }

    fn takes(&mut self, mark: char) -> bool {
        match self.skip().strip_prefix(mark) {
            Some(rest) => {
                self.rest = rest;
                true
            }
            None => false,
        }
    }

    fn needs(&mut self, mark: char) -> Result<(), String> {
        match self.takes(mark) {
            true => Ok(()),
            false => Err(format!("'{mark}' is missing before '{}'", start(self.rest))),
        }
    }

    fn value(&mut self, place: String, depth: usize) -> Result<(), String> {
        if depth > DEEPEST {
            return Err(format!("{place} lies too deep"));
        }
        if self.takes('{') {
            self.members(&place, depth)
        } else if self.takes('[') {
            self.items(&place, depth)
        } else {
            let cell = if self.skip().starts_with('"') { self.string()? } else { self.plain()? };
            match self.found.insert(place.clone(), cell) {
                None => Ok(()),
                Some(_) => Err(format!("{place} stands there twice")),
            }
        }
    }

    fn members(&mut self, place: &str, depth: usize) -> Result<(), String> {
        if self.takes('}') {
            return Ok(());
        }
        loop {
            self.skip();
            let key = self.string()?;
            self.needs(':')?;
            let inner = if place.is_empty() { key } else { format!("{place}.{key}") };
            self.value(inner, depth + 1)?;
            if !self.takes(',') {
                return self.needs('}');
            }
        }
    }

    fn items(&mut self, place: &str, depth: usize) -> Result<(), String> {
        if self.takes(']') {
            return Ok(());
        }
        for i in 0.. {
            self.value(format!("{place}[{i}]"), depth + 1)?;
            if !self.takes(',') {
                break;
            }
        }
        self.needs(']')
    }

    /// A number, true, false or null, as it is written.
    fn plain(&mut self) -> Result<String, String> {
        let end = self.rest.find(|c: char| !(c.is_ascii_alphanumeric() || "+-.".contains(c))).unwrap_or(self.rest.len());
        let (cell, rest) = self.rest.split_at(end);
        self.rest = rest;
        match cell.parse::<f64>().is_ok() || ["true", "false", "null"].contains(&cell) {
            true => Ok(cell.to_string()),
            false => Err(format!("'{}' is no value", start(&format!("{cell}{rest}")))),
        }
    }

    fn string(&mut self) -> Result<String, String> {
        self.needs('"')?;
        let mut text = String::new();
        let mut letters = self.rest.chars();
        loop {
            match letters.next() {
                Some('"') => break,
                Some('\\') => text.push(escape(&mut letters)?),
                Some(c) => text.push(c),
                None => return Err("a string has no end".to_string()),
            }
        }
        self.rest = letters.as_str();
        Ok(text)
    }
}

/// What stands behind a backslash. A sheet has no letters that take two escapes.
fn escape(letters: &mut std::str::Chars) -> Result<char, String> {
    let bad = || "an escape is bad".to_string();
    match letters.next() {
        Some('n') => Ok('\n'),
        Some('t') => Ok('\t'),
        Some('u') => {
            let digits: String = letters.take(4).collect();
            u32::from_str_radix(&digits, 16).ok().and_then(char::from_u32).ok_or_else(bad)
        }
        Some(c) if "\"\\/".contains(c) => Ok(c),
        _ => Err(bad()),
    }
}

#[cfg(test)]
mod tests {
    use super::cells;

    #[test]
    fn places_and_cells() {
        let found = cells("{\"a\": {\"b\": [1, -2.5e-3, null]}, \"c\": \"x\\u000a\\\"\", \"d\": [], \"e\": {}}\n").unwrap();
        let found: Vec<(&str, &str)> = found.iter().map(|(place, cell)| (place.as_str(), cell.as_str())).collect();
        assert_eq!(found, [("a.b[0]", "1"), ("a.b[1]", "-2.5e-3"), ("a.b[2]", "null"), ("c", "x\n\"")]);
    }

    #[test]
    fn what_is_no_json() {
        for text in ["", "{", "{\"a\": 1", "{\"a\" 1}", "[1,]", "{\"a\": 1, \"a\": 2}", "[1] 2", "\"a", "\"\\u12\"", "[1.2.3]", "nul"] {
            assert!(cells(text).is_err(), "{text}");
        }
        assert!(cells(&"[".repeat(100_000)).is_err());
    }
}
