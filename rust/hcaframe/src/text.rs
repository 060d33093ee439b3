//! Where a command's text goes: to standard output, to standard error where an output is standard output, or nowhere.
use crate::input::is_standard;
use crate::options::Name;
use crate::parse::Options;
use crate::stop::{complain, reason};
use std::fmt::Arguments;
use std::fs::File;
use std::io::{self, BufWriter, IsTerminal, LineWriter, Write};
use std::os::fd::AsFd;

/// The text ends where it cannot be written, and the work goes on.
pub struct Text {
    sink: Option<Box<dyn Write>>,
    is_lost: bool,
    is_on_terminal: bool,
}

/// Lines for a person, blocks for a file or a pipe.
fn buffered(file: File, is_on_terminal: bool) -> Box<dyn Write> {
    match is_on_terminal {
        true => Box::new(LineWriter::new(file)),
        false => Box::new(BufWriter::with_capacity(1 << 16, file)),
    }
}

impl Text {
    /// Standard output as it stands. Where it was closed Rust's start-up has put the null device: then the text goes nowhere, as who closed it asked.
    pub fn standard() -> Text {
        let is_on_terminal = io::stdout().is_terminal();
        let sink = io::stdout().as_fd().try_clone_to_owned().map(|file| buffered(File::from(file), is_on_terminal));
        Text { sink: sink.ok(), is_lost: false, is_on_terminal }
    }

    /// Where the text of this call goes.
    pub fn of(options: &Options) -> Text {
        if options.is_given(Name::Quiet) {
            return Text { sink: None, is_lost: false, is_on_terminal: false };
        }
        if options.files().any(|(name, path)| is_standard(path) && options.is_output(name)) {
            let sink: Box<dyn Write> = Box::new(BufWriter::new(io::stderr()));
            return Text { sink: Some(sink), is_lost: false, is_on_terminal: io::stderr().is_terminal() };
        }
        Text::standard()
    }

    /// Does anybody listen?
    pub fn is_heard(&self) -> bool {
        self.sink.is_some()
    }

    pub fn is_on_terminal(&self) -> bool {
        self.is_on_terminal
    }

    /// Could something not be written? A reader who has had enough is no fault.
    pub fn is_lost(&self) -> bool {
        self.is_lost
    }

    pub fn say(&mut self, text: Arguments<'_>) {
        let said = self.sink.as_mut().map_or(Ok(()), |sink| sink.write_fmt(text));
        self.told(said);
    }

    /// What is said so far is written.
    pub fn flush(&mut self) {
        let said = self.sink.as_mut().map_or(Ok(()), |sink| sink.flush());
        self.told(said);
    }

    fn told(&mut self, said: io::Result<()>) {
        let Err(error) = said else { return };
        self.sink = None;
        if error.kind() != io::ErrorKind::BrokenPipe {
            complain(&format!("hcaframe: standard output: {}\n", reason(&error)));
            self.is_lost = true;
        }
    }
}
