//! The random comparison of the proved library with the second checker.

use compare::library::Library;
use compare::program;
use compare::run::run;
use std::process::ExitCode;

fn main() -> ExitCode {
    program::main("compare", &|plan, progress| run(&Library, plan, progress))
}
