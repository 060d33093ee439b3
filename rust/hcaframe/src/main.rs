//! hcaframe, the command line over the proved library: files of spectra, frames, records, lists and WAV.
//!
//! Every step of the codec is a call of the crate `hca_frame`; of a conversion, the layout and the MDCT are the published encoder's, by the crate
//! `hca_convert`. What is here reads words and files, tells numbers and sees to it that an
//! output is whole or not there.
#![forbid(unsafe_code)]

mod bank;
mod commands;
mod files;
mod help;
mod identity;
mod input;
mod layout;
mod options;
mod output;
mod parse;
mod picture;
mod progress;
mod records;
mod report;
mod stop;
mod take;
mod text;
mod wav_chunks;

use files::Ended;
use options::Command;
use parse::Options;
use std::env;
use std::ffi::OsString;
use std::os::unix::ffi::OsStrExt;
use std::process::ExitCode;
use stop::{complain, shown, Stop};
use text::Text;

fn main() -> ExitCode {
    let words: Vec<OsString> = env::args_os().skip(1).collect();
    ExitCode::from(run(&words))
}

/// Does what the words ask; answers the status: 0 all is well, 1 something was refused, 2 the words or a file were wrong.
fn run(words: &[OsString]) -> u8 {
    let Some(word) = words.first() else {
        complain(&help::usage(None));
        return 2;
    };
    let command = Command::of(word.as_bytes());
    if parse::asks_for_help(None, &words[..1]) || parse::asks_for_help(command, &words[1..]) || word == "help" {
        return say(&help::help(command));
    }
    if word == "--version" {
        return say(&version());
    }
    match command.map(|command| parse::parse(command, &words[1..])) {
        Some(Ok(options)) => work(&options),
        Some(Err(stop)) => stopped(&stop),
        None => stopped(&Stop::wrong(format_args!("{} is an unknown command\n{}", shown(word), help::usage(None).trim_end()))),
    }
}

/// The program's version, and the number that the library tells of its own.
fn version() -> String {
    let library = hca_frame::version();
    let parts = [library / 10_000, library / 100 % 100, library % 100];
    format!("hcaframe {}, library {}.{}.{}\n", env!("CARGO_PKG_VERSION"), parts[0], parts[1], parts[2])
}

/// A call that only says something.
fn say(words: &str) -> u8 {
    let mut text = Text::standard();
    text.say(format_args!("{words}"));
    text.flush();
    if text.is_lost() {
        2
    } else {
        0
    }
}

fn stopped(stop: &Stop) -> u8 {
    complain(&stop.text);
    stop.status
}

/// The command that the words say. Where the text could not be told, the files are whole nevertheless, and their names are said.
fn work(options: &Options) -> u8 {
    let mut text = Text::of(options);
    let result = commands::run(options, &mut text);
    text.flush();
    match result {
        Err(stop) => stopped(&stop),
        Ok(Ended { whole, .. }) if text.is_lost() => {
            complain(&output::told_whole(&whole));
            2
        }
        Ok(Ended { status, .. }) => status,
    }
}
