//! `sb`: Stopblocker for people. Picks the command, and turns how it ended into an exit code.

mod arguments;
mod bar;
mod board_file;
mod commands;
mod disk_page;
mod ending;
mod fault;
mod hint;
mod input;
mod line;
mod number;
mod overview;
mod pieces;
mod read_text;
mod record;
mod style;
mod table;
mod words;
mod write_text;

use commands::{Command, COMMANDS};
use ending::{complain, print, Ending};
use std::env;
use std::ffi::OsString;
use std::process::ExitCode;

const HELP: &str = "\
sb: Stopblocker for people. Requests and answers as text, a desk to try, a board drawn.

    sb encode [FILE]                      text to records
    sb decode [--skip] [FILE]             records to text
    sb explain [--records FILE] [FILE]    the program's output lines in words
    sb run [--board FILE] [FILE]          text to the desk, its answers in words
    sb show --board FILE [--disk N]       the board drawn

Without FILE, or where it is -, standard input is read.
sb COMMAND --help says more, sb encode --help how a request is written.
Exit codes: 0 fine, 1 something wrong with the input, 2 wrong usage.
";

fn main() -> ExitCode {
    let mut words = env::args_os().skip(1);
    let first = words.next().map(|word| word.to_string_lossy().into_owned());
    let rest: Vec<OsString> = words.collect();
    let name = first.as_deref().unwrap_or("");
    let ended = match name {
        "--help" | "-h" | "help" => print(HELP.as_bytes()),
        "--version" | "-V" => print(concat!("sb ", env!("CARGO_PKG_VERSION"), "\n").as_bytes()),
        _ => match COMMANDS.iter().find(|command| command.name == name) {
            Some(command) => run(command, &rest),
            None => Err(Ending::Usage(match name {
                "" => "no command".to_string(),
                _ => format!("no command \"{name}\""),
            })),
        },
    };
    let command = COMMANDS.iter().map(|command| command.name).find(|&known| known == name);
    exit_code(command, ended)
}

fn run(command: &Command, words: &[OsString]) -> Result<(), Ending> {
    let options = arguments::read(words, &command.takes).map_err(Ending::Usage)?;
    if options.help {
        return print(command.help.as_bytes());
    }
    (command.run)(&options)
}

fn exit_code(command: Option<&str>, ended: Result<(), Ending>) -> ExitCode {
    let who = command.map_or("sb".to_string(), |name| format!("sb {name}"));
    match ended {
        // Nobody reads the output any more, for example `head` has ended: no error.
        Ok(()) | Err(Ending::Closed) => ExitCode::SUCCESS,
        Err(Ending::Input(faults)) => {
            for fault in faults {
                complain(&format!("{who}: {fault}"));
            }
            ExitCode::from(1)
        }
        Err(Ending::Usage(fault)) => {
            let commands: Vec<&str> = COMMANDS.iter().map(|command| command.name).collect();
            complain(&match command {
                Some(_) => format!("{who}: {fault}; see {who} --help"),
                None => format!("{who}: {fault}; expected {}; see sb --help", commands.join(", ")),
            });
            ExitCode::from(2)
        }
    }
}
