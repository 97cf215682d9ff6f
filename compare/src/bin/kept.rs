//! Whether versions 1 and 2 keep every answer that they gave in as many slots: the library against the archive of an earlier commit.

use compare::kept::one_job;
use compare::library::{Before, Library};
use compare::program;
use compare::run::run_each;
use std::process::ExitCode;

fn main() -> ExitCode {
    program::main("kept", &|plan, progress| {
        run_each(&one_job(&Library, &Before, plan.seed), plan, progress)
    })
}
