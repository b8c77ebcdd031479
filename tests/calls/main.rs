//! `lrcalls`: makes public calls each by itself, so that each request for memory of this one call can be refused.
//!
//! Without arguments it prints its cases. With those of a case it makes the call with ample memory; then in the window,
//! which is between the lines `begin` and `end`; and once more where memory was refused in the window. Then it tells what
//! came of it. It is compiled without a proof (docs/CHECKING.md).

mod calls;
mod cases;
mod deep;
mod grammars;
mod plain;
mod problems;
mod subjects;
mod texts;
mod windows;

use crate::problems::Problem;
use std::env;
use std::process::ExitCode;

/// The arguments without the program's name.
fn arguments(rt: &HostRuntime) -> Result<Vec<String>, Problem> {
    let mut args = Vec::new(rt.alloc());
    for arg in env::args(rt)?.skip(1) {
        args.push(arg)?;
    }
    Ok(args)
}

/// Does what the arguments say.
fn act(rt: &HostRuntime, args: &[String]) -> Result<(), Problem> {
    match args {
        [] => cases::list(rt),
        [name] if name.as_str() == cases::DEEP => deep::try_deep(rt),
        [name, grammar, place] => match place.parse::<usize>() {
            Ok(place) => cases::try_case(rt, name.as_str(), grammar.as_str(), place),
            Err(_) => Err(Problem::NoCase),
        },
        _ => Err(Problem::NoCase),
    }
}

/// Does what the arguments of the program say.
fn act_on_arguments(rt: &HostRuntime) -> Result<(), Problem> {
    act(rt, arguments(rt)?.as_slice())
}

fn main(rt: HostRuntime) -> ExitCode {
    match act_on_arguments(&rt) {
        Ok(()) => ExitCode::from(0),
        Err(problem) => {
            let _ = eprintln!(rt; "lrcalls: {problem}");
            ExitCode::from(1)
        }
    }
}
