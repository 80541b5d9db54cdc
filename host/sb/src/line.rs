//! The program's output lines: number, disk, code, ticket, told, amount; "+" before the number of a pass's grant.

use crate::fault::Fault;
use crate::number;
use stopblocker::{Item, Refusal};

#[derive(Clone, Copy, PartialEq, Eq, Debug)]
pub struct Line {
    /// Whether it is a grant of the record's pass.
    pub of_pass: bool,
    /// The number of the record, from 1.
    pub record: u64,
    pub disk: u8,
    pub item: Item,
}

impl Line {
    /// The line of a text; none if the text has no words.
    pub fn of(text: &str) -> Result<Option<Line>, Fault> {
        let mut words = text.split_whitespace();
        let first = match words.next() {
            Some(first) => first,
            None => return Ok(None),
        };
        let of_pass = first.starts_with('+');
        let record = plain(Some(first.strip_prefix('+').unwrap_or(first)), 1, i64::MAX, "the number of a record")?;
        let disk = plain(words.next(), 0, 255, "a disk, 0 to 255")?;
        let code = words.next();
        let item = Item {
            code: code_of(code, of_pass)?,
            ticket: plain(words.next(), 0, i64::from(u32::MAX), "a ticket")? as u32,
            told: plain(words.next(), i64::from(i32::MIN), i64::from(i32::MAX), "told, a number")? as i32,
            amount: plain(words.next(), 0, i64::from(u32::MAX), "an amount, a number")? as u32,
        };
        if let Some(word) = words.next() {
            return Err(Fault { word: Some(word.to_string()), expected: "the line to end: it has six numbers".into() });
        }
        carries(&item)?;
        Ok(Some(Line { of_pass, record: record as u64, disk: disk as u8, item }))
    }
}

fn code_of(word: Option<&str>, of_pass: bool) -> Result<u32, Fault> {
    let expected = if of_pass { "0: a pass only grants" } else { "a code, 0 to 3, or a refusal, 9 to 21" };
    let code = plain(word, 0, i64::from(u32::MAX), expected)? as u32;
    if code == 0 || !of_pass && (code <= 3 || Refusal::of(code).is_some()) {
        Ok(code)
    } else {
        Err(Fault { word: word.map(str::to_string), expected: expected.to_string() })
    }
}

/// Codes waits and released have only a ticket; opened and a refusal have nothing.
fn carries(item: &Item) -> Result<(), Fault> {
    let fault = |word: String, expected: &str| Err(Fault { word: Some(word), expected: expected.to_string() });
    if item.code >= 3 && item.ticket != 0 {
        return fault(item.ticket.to_string(), "0: neither opened nor a refusal has a ticket");
    }
    if item.code < 3 && item.ticket == 0 {
        return fault("0".to_string(), "a ticket, 1 or more");
    }
    if item.code != 0 && item.told != 0 {
        return fault(item.told.to_string(), "0: only a grant is told something");
    }
    if item.code != 0 && item.amount != 0 {
        return fault(item.amount.to_string(), "0: only a grant has an amount");
    }
    Ok(())
}

/// A number as the program prints it: a minus or no sign, no separators.
fn plain(word: Option<&str>, least: i64, most: i64, expected: &str) -> Result<i64, Fault> {
    word.filter(|word| !word.contains(&['+', '_', ','][..]))
        .and_then(number::read)
        .filter(|number| (least..=most).contains(number))
        .ok_or(Fault { word: word.map(str::to_string), expected: expected.to_string() })
}
