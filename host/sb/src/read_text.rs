//! Turns a line of text into a record.
//!
//! A line is `open DISK`, `claim DISK METHOD` or `release DISK`, followed by fields in any order. A field is a word and a
//! number; the value of a write needs no word.

use crate::fault::Fault;
use crate::number;
use crate::record::{Claim, Record};
use stopblocker::Method;

const WORD: (i64, i64) = (0, u32::MAX as i64);
const SIGNED: (i64, i64) = (i32::MIN as i64, i32::MAX as i64);
const BYTE: (i64, i64) = (0, u8::MAX as i64);

/// A field: its word, and the range of its number; `fresh` has no number.
type Field = (&'static str, Option<(i64, i64)>);

const VALUE: Field = ("value", Some(SIGNED));
const OWN: Field = ("own", Some(WORD));
const LIMIT: Field = ("limit", Some(WORD));
const MEASURED: Field = ("measured", Some(WORD));
const AT: Field = ("at", Some(WORD));
const PRIORITY: Field = ("priority", Some(BYTE));
const FRESH: Field = ("fresh", None);
const USED_LIMIT: Field = ("used-limit", Some(WORD));
const PROMISED_LIMIT: Field = ("promised-limit", Some(WORD));
const TICKET: Field = ("ticket", Some(WORD));

const OF_OPEN: &[Field] = &[AT, USED_LIMIT, PROMISED_LIMIT];
const OF_WRITE: &[Field] = &[VALUE, OWN, MEASURED, AT, PRIORITY, FRESH];
const OF_READING: &[Field] = &[LIMIT, AT, PRIORITY, FRESH, VALUE, MEASURED];
const OF_RELEASE: &[Field] = &[TICKET, AT];

/// The record of a line; none if the line is empty or a comment.
pub fn record_of(line: &str) -> Result<Option<Record>, Fault> {
    let mut words = line.split('#').next().unwrap_or("").split_whitespace();
    let kind = match words.next() {
        Some(kind) => kind,
        None => return Ok(None),
    };
    let record = match kind.to_ascii_lowercase().as_str() {
        "open" => open(&mut words)?,
        "claim" => Record::Claim(claim(&mut words)?),
        "release" => release(&mut words)?,
        _ => return Err(wrong(kind, "open, claim or release")),
    };
    Ok(Some(record))
}

fn open<'a>(words: &mut impl Iterator<Item = &'a str>) -> Result<Record, Fault> {
    let disk = disk(words)?;
    let given = Given::read(words, OF_OPEN, false)?;
    Ok(Record::Open {
        disk,
        now: given.need(AT, "at SECOND")? as u32,
        used_limit: given.need(USED_LIMIT, "used-limit MIB")? as u32,
        promised_limit: given.need(PROMISED_LIMIT, "promised-limit MIB")? as u32,
    })
}

fn release<'a>(words: &mut impl Iterator<Item = &'a str>) -> Result<Record, Fault> {
    let disk = disk(words)?;
    let given = Given::read(words, OF_RELEASE, false)?;
    Ok(Record::Release {
        disk,
        ticket: given.need(TICKET, "ticket NUMBER")? as u32,
        now: given.need(AT, "at SECOND")? as u32,
    })
}

fn claim<'a>(words: &mut impl Iterator<Item = &'a str>) -> Result<Claim, Fault> {
    let disk = disk(words)?;
    let method = method(words)?;
    let known = Method::of(u32::from(method));
    // A claim on an unknown method is written like a write.
    let is_write = !known.map_or(false, Method::is_reading);
    let given = Given::read(words, if is_write { OF_WRITE } else { OF_READING }, is_write)?;
    let now = given.need(AT, "at SECOND")? as u32;
    let value = match known {
        Some(method) if is_write => given.need(VALUE, &format!("the value of {method:?}"))?,
        _ => given.of(VALUE).unwrap_or(0),
    };
    let error = match known {
        Some(Method::ReadUsed | Method::ReadLoad) => given.need(LIMIT, "limit MIB")?,
        _ => given.of(if is_write { OWN } else { LIMIT }).unwrap_or(0),
    };
    let measured = if is_write { now } else { 0 };
    Ok(Claim {
        disk,
        now,
        method,
        priority: given.of(PRIORITY).unwrap_or(0) as u8,
        fresh: given.of(FRESH).is_some(),
        measured: given.of(MEASURED).map_or(measured, |second| second as u32),
        value: value as i32,
        error: error as u32,
    })
}

fn disk<'a>(words: &mut impl Iterator<Item = &'a str>) -> Result<u8, Fault> {
    in_range(words.next(), BYTE, "a disk, 0 to 255 (a board has 0 to 63)").map(|number| number as u8)
}

/// A method's name, or its number.
fn method<'a>(words: &mut impl Iterator<Item = &'a str>) -> Result<u8, Fault> {
    let word = words.next();
    let named =
        Method::ALL.iter().find(|method| word.map_or(false, |w| w.eq_ignore_ascii_case(&format!("{method:?}"))));
    match named {
        Some(method) => Ok(method.number()),
        None => {
            let names: Vec<String> = Method::ALL.iter().map(|method| format!("{method:?}")).collect();
            in_range(word, BYTE, &format!("a method: {}, or a number, 0 to 255", names.join(", "))).map(|n| n as u8)
        }
    }
}

/// The fields that a line gives.
struct Given(Vec<(Field, i64)>);

impl Given {
    fn read<'a>(words: &mut impl Iterator<Item = &'a str>, fields: &[Field], bare_value: bool) -> Result<Given, Fault> {
        let mut given = Given(Vec::new());
        while let Some(word) = words.next() {
            let bare = bare_value && number::is_meant(word);
            let field = match fields.iter().find(|field| word.eq_ignore_ascii_case(field.0)) {
                Some(&field) => field,
                None if bare => VALUE,
                None => return Err(wrong(word, &one_of(fields))),
            };
            if given.of(field).is_some() {
                return Err(wrong(word, &format!("{} only once", field.0)));
            }
            let number = match field.1 {
                Some(range) => {
                    let expected = format!("{} to {}", number::grouped(range.0), number::grouped(range.1));
                    let number = if bare { Some(word) } else { words.next() };
                    in_range(number, range, &format!("a number for {}, {expected}", field.0))?
                }
                None => 1,
            };
            given.0.push((field, number));
        }
        Ok(given)
    }

    fn of(&self, field: Field) -> Option<i64> {
        self.0.iter().find(|(known, _)| known.0 == field.0).map(|(_, number)| *number)
    }

    fn need(&self, field: Field, expected: &str) -> Result<i64, Fault> {
        self.of(field).ok_or(Fault { word: None, expected: expected.to_string() })
    }
}

fn in_range(word: Option<&str>, (least, most): (i64, i64), expected: &str) -> Result<i64, Fault> {
    word.and_then(number::read)
        .filter(|number| (least..=most).contains(number))
        .ok_or(Fault { word: word.map(str::to_string), expected: expected.to_string() })
}

fn one_of(fields: &[Field]) -> String {
    let words: Vec<&str> = fields.iter().map(|field| field.0).collect();
    let (last, others) = words.split_last().expect("every line has fields");
    format!("{} or {last}", others.join(", "))
}

fn wrong(word: &str, expected: &str) -> Fault {
    Fault { word: Some(word.to_string()), expected: expected.to_string() }
}
