//! The words behind a command: options with a value, flags, and at most one file.

use std::ffi::{OsStr, OsString};

/// What a command takes.
pub struct Takes {
    /// Options with a value.
    pub values: &'static [&'static str],
    /// Options without.
    pub flags: &'static [&'static str],
    /// Whether a file may be named.
    pub file: bool,
}

/// What was given.
#[derive(Default)]
pub struct Options {
    pub help: bool,
    pub file: Option<OsString>,
    values: Vec<(&'static str, OsString)>,
    flags: Vec<&'static str>,
}

impl Options {
    /// The value of an option.
    pub fn value(&self, name: &str) -> Option<&OsStr> {
        self.values.iter().find(|(known, _)| *known == name).map(|(_, value)| value.as_os_str())
    }

    /// Whether a flag is given.
    pub fn flag(&self, name: &str) -> bool {
        self.flags.contains(&name)
    }
}

/// Reads the words, or says which is wrong.
pub fn read(words: &[OsString], takes: &Takes) -> Result<Options, String> {
    let mut options = Options::default();
    let mut words = words.iter();
    let mut ended = false;
    while let Some(word) = words.next() {
        let text = word.to_string_lossy();
        if ended || text == "-" || !text.starts_with('-') {
            take_file(&mut options, word, takes)?;
        } else if text == "--" {
            ended = true;
        } else if text == "--help" || text == "-h" {
            options.help = true;
        } else if let Some(flag) = takes.flags.iter().find(|flag| **flag == text) {
            options.flags.push(flag);
        } else {
            take_value(&mut options, word, &mut words, takes)?;
        }
    }
    Ok(options)
}

fn take_file(options: &mut Options, word: &OsStr, takes: &Takes) -> Result<(), String> {
    if !takes.file || options.file.is_some() {
        return Err(format!("\"{}\" is one word too many", word.to_string_lossy()));
    }
    options.file = Some(word.to_os_string());
    Ok(())
}

fn take_value<'a>(
    options: &mut Options,
    word: &OsStr,
    rest: &mut impl Iterator<Item = &'a OsString>,
    takes: &Takes,
) -> Result<(), String> {
    let unknown = || format!("no option \"{}\"", word.to_string_lossy());
    let text = word.to_str().ok_or_else(unknown)?;
    let (name, joined) = match text.split_once('=') {
        Some((name, value)) => (name, Some(OsString::from(value))),
        None => (text, None),
    };
    let name = *takes.values.iter().find(|known| **known == name).ok_or_else(unknown)?;
    let value = joined.or_else(|| rest.next().cloned()).ok_or(format!("{name} has no value"))?;
    if options.value(name).is_some() {
        return Err(format!("{name} is given twice"));
    }
    options.values.push((name, value));
    Ok(())
}
