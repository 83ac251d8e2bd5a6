//! A reader of the TOML that configurations of loads and examples are written in: lines `key = value` under headers
//! `[[name]]`, with whole numbers, `true` and `false`, lists, tables in braces, and comments. All else is refused.

use crate::Fault;
use std::ops::RangeInclusive;

pub enum Value<'t> {
    Number(u32),
    Flag(bool),
    List(Vec<Value<'t>>),
    Table(Table<'t>),
}

/// A table with the name of its header, which is empty for the top level, and the line where it begins.
pub struct Table<'t> {
    pub name: &'t str,
    line: usize,
    pairs: Vec<(&'t str, Value<'t>)>,
}

impl<'t> Table<'t> {
    /// Takes the value of a key out of the table.
    pub fn take(&mut self, key: &str) -> Option<Value<'t>> {
        let place = self.pairs.iter().position(|(name, _)| *name == key)?;
        Some(self.pairs.swap_remove(place).1)
    }

    pub fn fault<T>(&self, what: &str) -> Result<T, Fault> {
        Err(format!("{what} in the table at line {}", self.line))
    }

    pub fn number(&mut self, key: &str, range: RangeInclusive<u32>) -> Result<u32, Fault> {
        match self.take(key) {
            Some(Value::Number(number)) if range.contains(&number) => Ok(number),
            _ => self.fault(&format!("{key} isn't a number of its range")),
        }
    }

    pub fn flag(&mut self, key: &str) -> Result<bool, Fault> {
        match self.take(key) {
            Some(Value::Flag(flag)) => Ok(flag),
            _ => self.fault(&format!("{key} is neither true nor false")),
        }
    }

    pub fn table(&mut self, key: &str) -> Result<Table<'t>, Fault> {
        match self.take(key) {
            Some(Value::Table(table)) => Ok(table),
            _ => self.fault(&format!("{key} is no table in braces")),
        }
    }

    pub fn list(&mut self, key: &str) -> Result<Vec<Value<'t>>, Fault> {
        match self.take(key) {
            Some(Value::List(list)) => Ok(list),
            _ => self.fault(&format!("{key} is no list")),
        }
    }

    /// Refuses the table where a key was not taken.
    pub fn end(self) -> Result<(), Fault> {
        match self.pairs.first() {
            Some((key, _)) => self.fault(&format!("{key} isn't known, or stands twice,")),
            None => Ok(()),
        }
    }
}

/// The numbers of a list.
pub fn numbers(list: &[Value], range: RangeInclusive<u32>) -> Result<Vec<u32>, Fault> {
    let number = |value: &Value| match value {
        Value::Number(number) if range.contains(number) => Ok(*number),
        _ => Err("a list has an item that isn't a number of its range".to_string()),
    };
    list.iter().map(number).collect()
}

/// The top level and the tables with headers, in the order of the text.
pub fn tables(text: &[u8]) -> Result<Vec<Table<'_>>, Fault> {
    let text = std::str::from_utf8(text).map_err(|_| "the text isn't UTF-8")?;
    let mut reader = Reader { text: text.strip_prefix('\u{feff}').unwrap_or(text), at: 0, line: 1, line_at: 0 };
    let mut tables = vec![Table { name: "", line: 1, pairs: Vec::new() }];
    reader.skip_lines();
    while let Some(byte) = reader.peek() {
        if byte == b'[' {
            tables.push(reader.header()?);
        } else {
            let pair = reader.pair()?;
            tables.last_mut().expect("the top level stands there").pairs.push(pair);
        }
        reader.end_of_line()?;
        reader.skip_lines();
    }
    Ok(tables)
}

struct Reader<'t> {
    text: &'t str,
    at: usize,
    /// The line of the byte at `line_at`, counted from 1.
    line: usize,
    line_at: usize,
}

impl<'t> Reader<'t> {
    fn peek(&self) -> Option<u8> {
        self.text.as_bytes().get(self.at).copied()
    }

    /// The line of what is read next. Each part of the text is gone through once for all lines that are asked for.
    fn line(&mut self) -> usize {
        let passed = &self.text.as_bytes()[self.line_at..self.at];
        self.line += passed.iter().filter(|byte| **byte == b'\n').count();
        self.line_at = self.at;
        self.line
    }

    fn fault<T>(&mut self, wanted: &str) -> Result<T, Fault> {
        Err(format!("{wanted} is wanted at line {}", self.line()))
    }

    fn skip_while(&mut self, keep: impl Fn(u8) -> bool) {
        let rest = &self.text.as_bytes()[self.at..];
        self.at += rest.iter().position(|byte| !keep(*byte)).unwrap_or(rest.len());
    }

    fn skip_blanks(&mut self) {
        self.skip_while(|byte| byte == b' ' || byte == b'\t');
    }

    fn skip_comment(&mut self) {
        if self.peek() == Some(b'#') {
            self.skip_while(|byte| byte != b'\n');
        }
    }

    /// Skips what stands between two pairs or items.
    fn skip_lines(&mut self) {
        loop {
            self.skip_while(|byte| matches!(byte, b' ' | b'\t' | b'\r' | b'\n'));
            if self.peek() != Some(b'#') {
                return;
            }
            self.skip_comment();
        }
    }

    fn end_of_line(&mut self) -> Result<(), Fault> {
        self.skip_blanks();
        self.skip_comment();
        self.skip_while(|byte| byte == b'\r');
        if matches!(self.peek(), None | Some(b'\n')) {
            Ok(())
        } else {
            self.fault("the end of the line")
        }
    }

    fn expect(&mut self, mark: &str) -> Result<(), Fault> {
        if !self.text.as_bytes()[self.at..].starts_with(mark.as_bytes()) {
            return self.fault(mark);
        }
        self.at += mark.len();
        Ok(())
    }

    fn word(&mut self) -> Result<&'t str, Fault> {
        let start = self.at;
        self.skip_while(|byte| byte.is_ascii_alphanumeric() || byte == b'_' || byte == b'-');
        if self.at == start {
            return self.fault("a key of letters, digits, _ and -");
        }
        Ok(&self.text[start..self.at])
    }

    fn header(&mut self) -> Result<Table<'t>, Fault> {
        let line = self.line();
        self.expect("[[")?;
        let name = self.word()?;
        self.expect("]]")?;
        Ok(Table { name, line, pairs: Vec::new() })
    }

    fn pair(&mut self) -> Result<(&'t str, Value<'t>), Fault> {
        let key = self.word()?;
        self.skip_blanks();
        self.expect("=")?;
        self.skip_blanks();
        Ok((key, self.value()?))
    }

    fn value(&mut self) -> Result<Value<'t>, Fault> {
        match self.peek() {
            Some(b'[') => Ok(Value::List(self.items(b']', Self::value)?)),
            Some(b'{') => {
                let line = self.line();
                Ok(Value::Table(Table { name: "", line, pairs: self.items(b'}', Self::pair)? }))
            }
            _ => self.number_or_flag(),
        }
    }

    /// What stands between brackets or braces, split by commas. The next byte opens them.
    fn items<T>(&mut self, close: u8, item: fn(&mut Self) -> Result<T, Fault>) -> Result<Vec<T>, Fault> {
        self.at += 1;
        let mut items = Vec::new();
        loop {
            self.skip_lines();
            if self.peek() == Some(close) {
                break;
            }
            items.push(item(self)?);
            self.skip_lines();
            match self.peek() {
                Some(b',') => self.at += 1,
                Some(byte) if byte == close => break,
                _ => return self.fault("a comma, or the end of a list or table,"),
            }
        }
        self.at += 1;
        Ok(items)
    }

    fn number_or_flag(&mut self) -> Result<Value<'t>, Fault> {
        match self.word()? {
            "true" => Ok(Value::Flag(true)),
            "false" => Ok(Value::Flag(false)),
            word if word.len() > 1 && word.starts_with('0') => self.fault("a number without leading zeros"),
            word => match word.parse() {
                Ok(number) => Ok(Value::Number(number)),
                Err(_) => self.fault("a whole number, true, false, a list or a table in braces"),
            },
        }
    }
}
