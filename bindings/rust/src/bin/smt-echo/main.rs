//! The command `smt-echo`: the proved printer and what goes with it, for shells and scripts. docs/COMMAND.md is its manual.
//!
//! A subcommand is a module with a `COMMAND`, and a line in the table below.

#![forbid(unsafe_code)]

mod args;
mod input;
mod look;
mod output;
mod room;

use args::Args;
use std::ffi::OsString;
use std::io::{self, Write};
use std::process::ExitCode;
use std::thread;

macro_rules! commands {
    ($($module:ident)*) => {
        $(mod $module;)*
        const COMMANDS: &[Command] = &[$($module::COMMAND),*];
    };
}

commands! {
    print
    size
    widths
    formulas
    fewest
    split
    read
    release
    replay
    shorten
    lengthen
    show
}

/// A subcommand.
pub struct Command {
    pub name: &'static str,
    /// One line for the list of subcommands.
    pub summary: &'static str,
    /// What `--help` writes between the summary and what all subcommands have. Lines of four blanks and a dollar sign are commands of an
    /// example, the indented lines after them their output.
    pub help: &'static str,
    /// Options beside `-o` and `--help`: the word, what the value that follows it is called or nothing where none does, and what it is for.
    pub options: &'static [(&'static str, &'static str, &'static str)],
    /// The most files that are read.
    pub files: usize,
    /// The result, for standard output or the file of `-o`.
    pub run: fn(&Args) -> Result<Vec<u8>, Failure>,
}

/// Why there is no result.
pub enum Failure {
    /// Status 1: a refusal's number, name and text, and what to look at.
    Refused { refusal: String, look: Option<String> },
    /// Status 2: a file that cannot be read or written, an input that is none.
    NotDone(String),
    /// Status 2: the command line.
    Usage(String),
}

const REFUSED: u8 = 1;
const NOT_DONE: u8 = 2;

/// The walk over the terms is recursive; README.md has what it needs.
const STACK: usize = 8 << 20;

fn main() -> ExitCode {
    let run = || {
        let words: Vec<OsString> = std::env::args_os().skip(1).collect();
        told(run(&words))
    };
    match thread::Builder::new().stack_size(STACK).spawn(run).map(thread::JoinHandle::join) {
        Ok(Ok(status)) => ExitCode::from(status),
        Ok(Err(_)) => ExitCode::from(NOT_DONE), // a panic, which says so itself
        Err(error) => ExitCode::from(told(Err(Failure::NotDone(format!(
            "a thread with {STACK} bytes of stack cannot be started: {error}"
        ))))),
    }
}

fn run(words: &[OsString]) -> Result<(), Failure> {
    let Some((first, rest)) = words.split_first() else {
        return Err(Failure::Usage("a subcommand is wanted".into()));
    };
    match first.to_str() {
        Some("help") if rest.len() == 1 => {
            let named = COMMANDS.iter().find(|command| rest[0] == command.name);
            let command = named.ok_or_else(|| Failure::Usage(format!("there is no subcommand `{}`", rest[0].display())))?;
            return output::standard(help(command).as_bytes());
        }
        Some("--help" | "-h" | "help") => return output::standard(overview().as_bytes()),
        Some("--version") => return output::standard(concat!("smt-echo ", env!("CARGO_PKG_VERSION"), "\n").as_bytes()),
        _ => {}
    }
    let Some(command) = COMMANDS.iter().find(|command| first == command.name) else {
        return Err(Failure::Usage(format!("there is no subcommand `{}`", first.display())));
    };
    let args = args::parse(command, rest)?;
    if args.help {
        return output::standard(help(command).as_bytes());
    }
    let result = (command.run)(&args)?;
    output::written(&result, args.out.as_deref())
}

/// Options and statuses, which are those of every subcommand.
const COMMON: &str = "    -o FILE          write the result to FILE, whole or not at all; to standard output where FILE is `-`, or without this option
    -h, --help       write this and do nothing else
    --               what follows are files, also where they begin with a dash

Exit status:
    0          done
    1          refused: the number with its reason, and what to look at, are on standard error
    2          a wrong command line, a file that cannot be read or written, an input that is none, or a result over what memory allows

See also:
    docs/COMMAND.md, docs/FORMATS.md
";

fn help(command: &Command) -> String {
    let own: String =
        command.options.iter().map(|(word, value, text)| format!("    {:16} {text}\n", format!("{word} {value}"))).collect();
    format!("smt-echo {} - {}\n\n{}\nOptions:\n{own}{COMMON}", command.name, command.summary, command.help)
}

fn overview() -> String {
    let mut text = String::from(
        "smt-echo - problems over bit-vectors, arrays and functions as SMT-LIB scripts, printed whole or refused by a number\n\n\
         usage: smt-echo SUBCOMMAND [OPTION ..] [FILE ..]\n\n",
    );
    for command in COMMANDS {
        text += &format!("    {:10}{}\n", command.name, command.summary);
    }
    text += "\n\
        FILE is read, or standard input where it is left out or `-`. A problem is in the binary layout, in the text form or a script, told\n\
        by its first bytes; a trace is CSV. The result goes to standard output, or with `-o FILE` to a file, whole or not at all (`-o -` is\n\
        standard output again); all else to standard error.\n\n\
        Exit status: 0 done; 1 refused, with the number and what to look at; 2 a wrong command line, a file that cannot be read or\n\
        written, an input that is none, or a result over what memory allows.\n\n\
        `smt-echo SUBCOMMAND --help`, or `-h`, or `smt-echo help SUBCOMMAND`, has more and an example; `smt-echo --version` the version.\n";
    text
}

/// Says on standard error why there is no result; the exit status.
fn told(done: Result<(), Failure>) -> u8 {
    // Where nobody listens any more, the status is left.
    let say = |line: String| _ = writeln!(io::stderr(), "{line}");
    match done {
        Ok(()) => 0,
        Err(Failure::Refused { refusal, look }) => {
            say(format!("refused: {refusal}"));
            if let Some(look) = look {
                say(format!("look at: {look}"));
            }
            REFUSED
        }
        Err(Failure::NotDone(why)) => {
            say(format!("smt-echo: {why}"));
            NOT_DONE
        }
        Err(Failure::Usage(why)) => {
            say(format!(
                "smt-echo: {why}; `smt-echo --help` has the subcommands and `smt-echo SUBCOMMAND --help` the options of one"
            ));
            NOT_DONE
        }
    }
}
