//! The commands.

mod decode;
mod encode;
mod explain;
mod run;
mod show;

use crate::arguments::{Options, Takes};
use crate::ending::Ending;

pub struct Command {
    pub name: &'static str,
    pub help: &'static str,
    pub takes: Takes,
    pub run: fn(&Options) -> Result<(), Ending>,
}

pub const COMMANDS: [Command; 5] = [encode::COMMAND, decode::COMMAND, explain::COMMAND, run::COMMAND, show::COMMAND];
