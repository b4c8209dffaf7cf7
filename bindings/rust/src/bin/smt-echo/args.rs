//! The words after a subcommand.

use crate::input::Source;
use crate::{Command, Failure};
use std::ffi::{OsStr, OsString};
use std::path::PathBuf;

pub struct Args {
    pub help: bool,
    /// The file to write; none, or `-`, for standard output.
    pub out: Option<PathBuf>,
    sources: Vec<Source>,
    given: Vec<(&'static str, OsString)>,
}

impl Args {
    /// The file at this place of the command line, or standard input where none is given there.
    pub fn source(&self, place: usize) -> &Source {
        self.sources.get(place).unwrap_or(&Source::Standard)
    }

    /// All files of the command line, or standard input where none is given.
    pub fn sources(&self) -> &[Source] {
        if self.sources.is_empty() { &[Source::Standard] } else { &self.sources }
    }

    /// Whether an option is given.
    pub fn has(&self, option: &str) -> bool {
        self.value(option).is_some()
    }

    /// The value of an option, empty for one that takes none.
    pub fn value(&self, option: &str) -> Option<&OsStr> {
        self.given.iter().find(|(word, _)| *word == option).map(|(_, value)| value.as_os_str())
    }
}

pub fn parse(command: &Command, words: &[OsString]) -> Result<Args, Failure> {
    let mut args = Args { help: false, out: None, sources: Vec::new(), given: Vec::new() };
    let mut words = words.iter();
    let mut options_end = false;
    while let Some(word) = words.next() {
        let text = word.to_str().unwrap_or_default();
        if options_end || text == "-" || !word.as_encoded_bytes().starts_with(b"-") {
            args.sources.push(if text == "-" { Source::Standard } else { Source::File(word.into()) });
            continue;
        }
        let mut value = || words.next().cloned().ok_or_else(|| Failure::Usage(format!("`{text}` wants a value")));
        match text {
            "--" => options_end = true,
            "--help" | "-h" => args.help = true,
            "-o" => {
                if args.out.replace(value()?.into()).is_some() {
                    return Err(Failure::Usage("`-o` is given twice".into()));
                }
            }
            _ => {
                let Some(&(option, called, _)) = command.options.iter().find(|(option, ..)| *option == text) else {
                    return Err(Failure::Usage(format!("`{}` has no option `{}`", command.name, word.display())));
                };
                if args.has(option) {
                    return Err(Failure::Usage(format!("`{option}` is given twice")));
                }
                let value = if called.is_empty() { OsString::new() } else { value()? };
                args.given.push((option, value));
            }
        }
    }
    let (most, given) = (command.files, args.sources.len());
    if given > most {
        let wanted = if most == 1 { "one file is" } else { "two files are" };
        return Err(Failure::Usage(format!("{wanted} wanted, and {given} are given")));
    }
    Ok(args)
}
