//! How a drawing looks: its width, its characters, its colour.

use std::env;
use std::fs::File;
use std::process::{Command, Stdio};

/// How wide a drawing is if neither COLUMNS nor a terminal says it.
const WIDTH: usize = 100;

#[derive(Clone, Copy, PartialEq, Eq, Debug)]
pub struct Style {
    pub width: usize,
    pub ascii: bool,
    pub colour: bool,
}

impl Style {
    /// As wide as COLUMNS or the terminal says, or 100; with colour on a terminal that can show it, unless NO_COLOR is
    /// set.
    pub fn of_environment(ascii: bool) -> Style {
        let terminal = is_terminal();
        let width = env::var("COLUMNS").ok().and_then(|columns| columns_of(&columns));
        let width = width.or_else(|| if terminal { terminal_columns() } else { None }).unwrap_or(WIDTH);
        let plain = env::var_os("NO_COLOR").is_some() || env::var_os("TERM").map_or(true, |term| term == "dumb");
        Style { width, ascii, colour: !plain && terminal }
    }

    /// A line that warns: red on a terminal.
    pub fn warning(&self, text: &str) -> String {
        if self.colour {
            format!("\u{1b}[31m{text}\u{1b}[0m")
        } else {
            text.to_string()
        }
    }
}

fn columns_of(word: &str) -> Option<usize> {
    word.parse().ok().filter(|&columns| columns > 0)
}

/// What `stty size`, rows and columns, says of the terminal on standard output.
fn terminal_columns() -> Option<usize> {
    let terminal = File::open("/dev/stdout").ok()?;
    let said = Command::new("stty").arg("size").stdin(terminal).stderr(Stdio::null()).output().ok()?;
    columns_of(String::from_utf8(said.stdout).ok()?.split_whitespace().nth(1)?)
}

/// Whether standard output is a terminal: a device of characters, and no file or pipe.
#[cfg(unix)]
fn is_terminal() -> bool {
    use std::os::unix::fs::FileTypeExt;
    std::fs::metadata("/dev/stdout").map_or(false, |data| data.file_type().is_char_device())
}

#[cfg(not(unix))]
fn is_terminal() -> bool {
    false
}
