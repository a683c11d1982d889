//! Shows what RAGE drawables hold, and edits halls: `hall --help` says how.
#![deny(unsafe_code)]

mod arguments;
mod demo;
mod failure;
mod files;
mod halls;
mod halves;
mod help;
mod left_out;
mod list;
mod memory;
mod mesh;
mod obj;
mod output;
mod progress;
mod said;
mod script;
mod show;
mod signals;
mod source;
mod table;
mod unfinished;
mod vertices;

use arguments::Arguments;
use failure::Failure;
use said::Said;
use std::io::{self, Write};
use std::process::ExitCode;

fn main() -> ExitCode {
    signals::watch();
    let words = std::env::args_os().skip(1).map(|word| word.into_string());
    let done = words.collect::<Result<Vec<_>, _>>().map_err(|word| Failure::Usage(format!("{word:?} is not text"))).and_then(run);
    match done.and_then(printed) {
        Ok(()) => ExitCode::SUCCESS,
        Err(failure) => {
            progress::note(&failure.to_string());
            ExitCode::from(failure.status())
        }
    }
}

fn run(words: Vec<String>) -> Result<Said, Failure> {
    let mut words = words.into_iter();
    let command = words.next().ok_or_else(|| Failure::Usage("no command; 'hall --help' lists them".to_string()))?;
    let mut arguments = Arguments::new(words.collect());
    if arguments.flag("--help")? {
        return Ok(help::about(&command)?.into());
    }
    let text = match command.as_str() {
        "list" => return list::run(arguments),
        "vertices" => return vertices::run(arguments),
        "show" => return show::run(arguments),
        "halves" => halves::run(arguments)?,
        "demo" => demo::run(arguments)?,
        "new" => halls::new(arguments)?,
        "take-in" => halls::take_in(arguments)?,
        "check" => halls::check(arguments)?,
        "edit" => script::run(arguments)?,
        "save" => halls::save(arguments)?,
        "--help" | "-h" => help::all(),
        "help" => arguments.word().map_or(Ok(help::all()), |word| help::about(&word))?,
        "--version" | "-V" => format!("hall {}\n", env!("CARGO_PKG_VERSION")),
        other => return Err(help::unknown(other)),
    };
    Ok(text.into())
}

/// Prints what a command says. A reader that has seen enough, such as `head`, is no failure.
fn printed(said: Said) -> Result<(), Failure> {
    let mut out = io::stdout().lock();
    match out.write_all(said.text.as_bytes()).and_then(|()| out.flush()) {
        Err(error) if error.kind() != io::ErrorKind::BrokenPipe => {
            Err(Failure::Unwritten { path: "standard output".to_string(), there: false, error })
        }
        _ => said.failure.map_or(Ok(()), Err),
    }
}
