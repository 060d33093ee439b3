//! The files of a call: no one of them may be another one, or an output would take an input's place.
use crate::identity::{standard_output_file, Identity};
use crate::input::{is_standard, open, Input};
use crate::options::Name;
use crate::output::{self, Output, Target};
use crate::parse::Options;
use crate::stop::Stop;
use crate::text::Text;

/// Where the text goes, as it is called beside the options.
const STANDARD_OUTPUT: &str = "standard output";

fn same(a: &str, b: &str) -> Stop {
    Stop::wrong(format_args!("{a} and {b} are the same file"))
}

/// All of the call's files must have names of their own. Standard input and standard output are two.
pub fn have_own_names(options: &Options) -> Result<(), Stop> {
    let files: Vec<_> = options.files().collect();
    for (i, &(a, path)) in files.iter().enumerate() {
        for &(b, other) in &files[i + 1..] {
            let are_two = is_standard(path) && options.is_output(a) != options.is_output(b);
            if path == other && !are_two {
                return Err(same(a.word(), b.word()));
            }
        }
    }
    Ok(())
}

/// The files that are open so far.
pub struct Files<'a> {
    options: &'a Options,
    is_text_on_output: bool,
    inputs: Vec<(Name, Identity)>,
    outputs: Vec<(Name, Option<Identity>, Output)>,
}

impl<'a> Files<'a> {
    pub fn new(options: &'a Options, text: &Text) -> Files<'a> {
        let is_output_standard = options.files().any(|(name, path)| is_standard(path) && options.is_output(name));
        Files { options, is_text_on_output: text.is_heard() && !is_output_standard, inputs: Vec::new(), outputs: Vec::new() }
    }

    /// Opens the input that the option names.
    pub fn input(&mut self, name: Name) -> Result<Option<Input>, Stop> {
        let Some(path) = self.options.file(name) else {
            return Ok(None);
        };
        let input = open(path)?;
        self.inputs.push((name, input.identity));
        Ok(Some(input))
    }

    /// The inputs, with the layout file, must be different files, and standard output none of them.
    pub fn inputs_are_apart(&mut self) -> Result<(), Stop> {
        if let Some(file) = &self.options.layout_file {
            self.inputs.insert(0, (Name::Layout, file.identity));
        }
        for (i, (a, file)) in self.inputs.iter().enumerate() {
            if let Some((b, _)) = self.inputs[i + 1..].iter().find(|(_, other)| other == file) {
                return Err(same(a.word(), b.word()));
            }
        }
        match standard_output_file() {
            Some(file) if self.is_text_on_output => self.is_apart(file, STANDARD_OUTPUT),
            _ => Ok(()),
        }
    }

    /// The file must be none that is open here.
    fn is_apart(&self, file: Identity, name: &str) -> Result<(), Stop> {
        let inputs = self.inputs.iter().map(|&(other, identity)| (other, Some(identity)));
        let outputs = self.outputs.iter().map(|(other, identity, _)| (*other, *identity));
        match inputs.chain(outputs).find(|(_, identity)| *identity == Some(file)) {
            Some((other, _)) => Err(same(other.word(), name)),
            None => Ok(()),
        }
    }

    /// Begins the output that the option names. Nothing has been read yet.
    pub fn output(&mut self, name: Name) -> Result<(), Stop> {
        let Some(path) = self.options.file(name) else {
            return Ok(());
        };
        let old = match is_standard(path) {
            true => standard_output_file(),
            false => match output::target(name, path)? {
                Target::New => None,
                Target::Old(identity) => Some(identity),
            },
        };
        if let Some(file) = old {
            self.is_apart(file, name.word())?;
            if self.is_text_on_output && standard_output_file() == Some(file) {
                return Err(same(name.word(), STANDARD_OUTPUT));
            }
        }
        if let Some((other, _, _)) = self.outputs.iter().find(|(_, _, begun)| begun.is_named(path)) {
            return Err(same(other.word(), name.word()));
        }
        self.outputs.push((name, old, Output::begin(path)?));
        Ok(())
    }

    /// The outputs, in the order in which they were begun.
    pub fn outputs(self) -> Outputs {
        Outputs(self.outputs.into_iter().map(|(name, _, output)| (name, output)).collect())
    }
}

/// The outputs of a call.
pub struct Outputs(Vec<(Name, Output)>);

impl Outputs {
    pub fn of(&mut self, name: Name) -> Option<&mut Output> {
        self.0.iter_mut().find(|(this, _)| *this == name).map(|(_, output)| output)
    }

    /// Puts the bytes, where the output is asked for.
    pub fn put(&mut self, name: Name, bytes: &[u8]) -> Result<(), Stop> {
        self.of(name).map_or(Ok(()), |output| output.put(bytes))
    }

    /// Ends them: each is there now.
    pub fn end(self, status: u8) -> Result<Ended, Stop> {
        let whole = output::end(self.0.into_iter().map(|(_, output)| output).collect())?;
        Ok(Ended { status, whole })
    }
}

/// A call that did its work: its status, and the files that it wrote.
#[derive(Debug)]
pub struct Ended {
    pub status: u8,
    pub whole: Vec<String>,
}
