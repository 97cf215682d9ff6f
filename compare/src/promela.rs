//! A job as a Promela model in which SPIN counts the same states: each step of the job is one transition of the model.
//!
//! A thread is a process, and its place is where the process stands. Flushes are the transitions of one more process, which always
//! stands at the same place. All else is in variables, and what is not in use is 0, as in a slot. What no instruction of the job can
//! change (other registers, a buffer's room above C) would be 0 in all states and is left out, so that SPIN has the least to keep.
//! The goal is left out, too: SPIN is asked for all states, not for one.

use second::job::{Instruction, Job, Model};
use std::collections::BTreeSet;

/// The whole file; the same job gives the same text.
pub fn model(job: &Job) -> String {
    let threads: Vec<Thread> = (0..job.programs.len())
        .map(|number| Thread::of(job, number))
        // One without an instruction stays at place 0, with nothing in its buffer.
        .filter(|thread| !thread.program().is_empty())
        .collect();
    let memory = match job.model {
        Model::Sc => "SC".to_string(),
        Model::Tso => format!("TSO, C = {}", job.capacity),
        Model::Pso => format!("PSO, C = {}", job.capacity),
    };
    let mut lines = vec![format!(
        "/* Under {memory}. A transition is a step of the job, and a state is a state of the job. */"
    )];
    lines.extend(variables(job, &threads));
    for thread in &threads {
        lines.extend(thread.process());
    }
    let flushes: Vec<String> = threads.iter().flat_map(Thread::flushes).collect();
    if !flushes.is_empty() {
        lines.push(String::new());
        lines.push("active proctype flushes() {".to_string());
        lines.push("    do".to_string());
        lines.extend(flushes);
        lines.push("    od".to_string());
        lines.push("}".to_string());
    }
    lines.join("\n") + "\n"
}

fn variables(job: &Job, threads: &[Thread]) -> Vec<String> {
    let value = value_type(job);
    let initial: Vec<String> = job.initial.iter().map(u16::to_string).collect();
    let mut lines = vec![format!(
        "{value} memory[{}] = {{{}}};",
        initial.len(),
        initial.join(", ")
    )];
    for thread in threads {
        let own = |name: &str| format!("t{}_{name}", thread.number);
        for register in thread.registers() {
            lines.push(format!("{value} {};", thread.register(register)));
        }
        if thread.is_buffered() {
            lines.push(format!("byte {};", own("count")));
            lines.push(format!("byte {}[{}];", own("to"), job.capacity));
            lines.push(format!("{value} {}[{}];", own("value"), job.capacity));
        }
        if thread.is_grouped() {
            lines.push(format!("bit {};", own("wfence")));
        }
    }
    // SPIN's breadth-first search knows no variable outside of a state, so these are 0 again behind each transition.
    if threads.iter().any(Thread::swaps) {
        lines.push(format!("{value} old;"));
    }
    if job.model == Model::Pso && threads.iter().any(Thread::is_buffered) {
        lines.push("byte at;".to_string());
    }
    if threads.iter().any(Thread::is_grouped) {
        lines.push("byte sign;".to_string());
    }
    lines
}

fn value_type(job: &Job) -> &'static str {
    match job.width().bytes() {
        1 => "byte",
        // Promela's short has a sign.
        _ => "int",
    }
}

struct Thread<'a> {
    job: &'a Job,
    number: usize,
}

impl Thread<'_> {
    fn of(job: &Job, number: usize) -> Thread<'_> {
        Thread { job, number }
    }

    fn program(&self) -> &[Instruction] {
        &self.job.programs[self.number]
    }

    /// Those that its instructions name.
    fn registers(&self) -> BTreeSet<usize> {
        let named = |instruction: &Instruction| match *instruction {
            Instruction::Set { register, .. }
            | Instruction::Add { register, .. }
            | Instruction::Load { register, .. }
            | Instruction::StoreRegister { register, .. }
            | Instruction::Exchange { register, .. }
            | Instruction::CompareExchange { register, .. }
            | Instruction::JumpIfEqual { register, .. } => Some(register),
            Instruction::StoreConstant { .. }
            | Instruction::Fence
            | Instruction::StoreFence
            | Instruction::Jump { .. } => None,
        };
        self.program().iter().filter_map(named).collect()
    }

    /// The variables that it stores to.
    fn stored(&self) -> BTreeSet<usize> {
        let stored = |instruction: &Instruction| match *instruction {
            Instruction::StoreRegister { variable, .. }
            | Instruction::StoreConstant { variable, .. } => Some(variable),
            _ => None,
        };
        self.program().iter().filter_map(stored).collect()
    }

    /// Whether its stores wait; else nothing of it is ever pending.
    fn is_buffered(&self) -> bool {
        self.job.model != Model::Sc && !self.stored().is_empty()
    }

    /// Whether its pending stores can be of several groups.
    fn is_grouped(&self) -> bool {
        let pso = self.job.model == Model::Pso;
        pso && self.is_buffered() && self.program().contains(&Instruction::StoreFence)
    }

    /// Whether an instruction changes a register and memory at once.
    fn swaps(&self) -> bool {
        self.program().iter().any(|instruction| {
            matches!(
                instruction,
                Instruction::Exchange { .. } | Instruction::CompareExchange { .. }
            )
        })
    }

    fn register(&self, register: usize) -> String {
        format!("t{}_r{register}", self.number)
    }

    /// Fills in what this thread has for the words with a dollar: the variables of its buffer, and C.
    fn own(&self, text: &str) -> String {
        let mut text = text.to_string();
        for name in ["count", "to", "value", "wfence"] {
            let own = format!("t{}_{name}", self.number);
            text = text.replace(&format!("${name}"), &own);
        }
        let capacity = self.job.capacity;
        text.replace("$capacity", &capacity.to_string())
            .replace("$last", &capacity.saturating_sub(1).to_string())
    }

    // ---- instructions ----

    fn process(&self) -> Vec<String> {
        let mut lines = vec![
            String::new(),
            format!("active proctype thread{}() {{", self.number),
        ];
        for (place, &instruction) in self.program().iter().enumerate() {
            lines.push(format!("P{place}: {};", self.statement(place, instruction)));
        }
        // The end is a place like others; nothing is done there.
        lines.push(format!("P{}: false", self.program().len()));
        lines.push("}".to_string());
        lines
    }

    /// One transition to the next place, or to that of a jump.
    fn statement(&self, place: usize, instruction: Instruction) -> String {
        match instruction {
            Instruction::Set { register, value } => {
                format!("{} = {value}", self.register(register))
            }
            Instruction::Add { register, value } => {
                let own = self.register(register);
                let values = self.job.width().values();
                format!("{own} = ({own} + {value}) % {values}")
            }
            Instruction::Load { register, variable } => {
                format!("{} = {}", self.register(register), self.seen(variable))
            }
            Instruction::StoreRegister { register, variable } => {
                self.store(variable, &self.register(register))
            }
            Instruction::StoreConstant { variable, value } => {
                self.store(variable, &value.to_string())
            }
            Instruction::Fence => self.when_empty(&[]),
            Instruction::Exchange { register, variable } => {
                let own = self.register(register);
                let swap = [
                    format!("old = memory[{variable}]"),
                    format!("memory[{variable}] = {own}"),
                    format!("{own} = old"),
                    "old = 0".to_string(),
                ];
                self.when_empty(&swap)
            }
            Instruction::CompareExchange {
                register,
                variable,
                value,
            } => {
                let own = self.register(register);
                let swap = [
                    format!("old = memory[{variable}]"),
                    format!("if :: old == {own} -> memory[{variable}] = {value} :: else fi"),
                    format!("{own} = old"),
                    "old = 0".to_string(),
                ];
                self.when_empty(&swap)
            }
            Instruction::StoreFence if self.is_grouped() => self.own("$wfence = ($count > 0)"),
            Instruction::StoreFence => "true".to_string(),
            Instruction::JumpIfEqual {
                register,
                target,
                value,
            } => format!(
                "if :: {} == {value} -> goto P{target} :: else fi",
                self.register(register)
            ),
            // SPIN refuses a bare `true` from a place to itself; some process always runs.
            Instruction::Jump { target } if target == place => {
                format!("_nr_pr > 0 -> goto P{target}")
            }
            Instruction::Jump { target } => format!("true -> goto P{target}"),
        }
    }

    /// What a load sees: the newest of the thread's own pending stores, else memory.
    fn seen(&self, variable: usize) -> String {
        let in_memory = format!("memory[{variable}]");
        if !self.stored().contains(&variable) || !self.is_buffered() {
            return in_memory;
        }
        let sign = if self.is_grouped() { " % 16" } else { "" };
        (0..self.job.capacity).fold(in_memory, |older, entry| {
            self.own(&format!(
                "($count > {entry} && $to[{entry}]{sign} == {variable} -> $value[{entry}] : {older})"
            ))
        })
    }

    fn when_empty(&self, effects: &[String]) -> String {
        let guard = if self.is_buffered() {
            self.own("($count == 0)")
        } else {
            "true".to_string()
        };
        in_one(&guard, effects)
    }

    fn store(&self, variable: usize, value: &str) -> String {
        let joins: &[&str] = match self.job.model {
            Model::Sc => return format!("memory[{variable}] = {value}"),
            Model::Tso => &[
                "$to[$count] = $variable",
                "$value[$count] = $stored",
                "$count++",
            ],
            // Behind those of its own sign and of smaller ones.
            Model::Pso if !self.is_grouped() => &[
                "at = $count",
                "do :: at > 0 && $to[at - 1] > $variable -> $to[at] = $to[at - 1]; $value[at] = $value[at - 1]; at-- :: else -> break od",
                "$to[at] = $variable",
                "$value[at] = $stored",
                "$count++",
                "at = 0",
            ],
            // A sign is the variable and 16 times the group: the newest group, or a new one behind a WFENCE.
            Model::Pso => &[
                "sign = ($count == 0 -> 0 : $to[$count - 1] - $to[$count - 1] % 16) + 16 * $wfence + $variable",
                "at = $count",
                "do :: at > 0 && $to[at - 1] > sign -> $to[at] = $to[at - 1]; $value[at] = $value[at - 1]; at-- :: else -> break od",
                "$to[at] = sign",
                "$value[at] = $stored",
                "$count++",
                "$wfence = 0",
                "at = 0",
                "sign = 0",
            ],
        };
        let effects = joins.iter().map(|line| {
            let line = line.replace("$variable", &variable.to_string());
            self.own(&line.replace("$stored", value))
        });
        let effects: Vec<String> = effects.collect();
        in_one(&self.own("$count < $capacity"), &effects)
    }

    // ---- flushes ----

    /// The options of the process that flushes.
    fn flushes(&self) -> Vec<String> {
        if !self.is_buffered() {
            return Vec::new();
        }
        let flushes: Vec<String> = match self.job.model {
            Model::Sc => Vec::new(),
            Model::Tso => vec![self.flush_oldest()],
            Model::Pso => {
                let variables = self.stored().into_iter();
                variables.map(|variable| self.flush_to(variable)).collect()
            }
        };
        let options = flushes.iter().map(|flush| format!("    :: {flush}"));
        options.collect()
    }

    fn flush_oldest(&self) -> String {
        let mut effects = vec!["memory[$to[0]] = $value[0]".to_string()];
        for entry in 1..self.job.capacity {
            let before = entry - 1;
            effects.push(format!("$to[{before}] = $to[{entry}]"));
            effects.push(format!("$value[{before}] = $value[{entry}]"));
        }
        effects.extend(["$to[$last] = 0", "$value[$last] = 0", "$count--"].map(String::from));
        d_step(&self.own("$count > 0"), &self.all_own(&effects))
    }

    /// Under PSO; a store of the oldest group has its variable's number as its sign.
    fn flush_to(&self, variable: usize) -> String {
        // Stores stand in the order of their signs, and 0 is also what an unused entry has.
        let guard = match variable {
            0 => "$count > 0 && $to[0] == 0".to_string(),
            _ => {
                let entries = 0..self.job.capacity;
                let hits: Vec<String> = entries
                    .map(|entry| format!("$to[{entry}] == {variable}"))
                    .collect();
                hits.join(" || ")
            }
        };
        let mut effects = vec![
            format!("do :: $to[at] != {variable} -> at++ :: else -> break od"),
            format!("memory[{variable}] = $value[at]"),
            "do :: at < $last -> $to[at] = $to[at + 1]; $value[at] = $value[at + 1]; at++ :: else -> break od".to_string(),
            "$to[$last] = 0".to_string(),
            "$value[$last] = 0".to_string(),
            "$count--".to_string(),
            "at = 0".to_string(),
        ];
        if self.is_grouped() {
            // Groups are counted from the oldest that is left, and a WFENCE stands only behind a store.
            effects.extend(
                [
                    "if :: $count == 0 -> $wfence = 0 :: else fi",
                    "sign = $to[0] - $to[0] % 16",
                    "do :: sign > 0 && at < $count -> $to[at] = $to[at] - sign; at++ :: else -> break od",
                    "at = 0",
                    "sign = 0",
                ]
                .map(String::from),
            );
        }
        d_step(&self.own(&guard), &self.all_own(&effects))
    }

    fn all_own(&self, lines: &[String]) -> Vec<String> {
        lines.iter().map(|line| self.own(line)).collect()
    }
}

/// A transition that a jump can go to: SPIN lets none go to a d_step itself.
fn in_one(guard: &str, effects: &[String]) -> String {
    if effects.is_empty() {
        return guard.to_string();
    }
    format!("if :: {} fi", d_step(guard, effects))
}

fn d_step(guard: &str, effects: &[String]) -> String {
    format!("d_step {{ {guard} -> {} }}", effects.join("; "))
}

#[cfg(test)]
mod tests {
    use super::*;
    use second::decode;
    use second::listed::{accepted_list, file, Memory, Program, AT_THE_START, P1, PSO, SC, TSO};

    fn model_of(job: &[u8]) -> String {
        model(&decode(job).expect("the job is sound"))
    }

    fn with(memory: Memory, programs: &[Program]) -> String {
        model_of(&file(memory, &[7, 8], programs, 0, &[AT_THE_START]))
    }

    #[test]
    fn store_buffering() {
        let expected = "\
/* Under TSO, C = 1. A transition is a step of the job, and a state is a state of the job. */
byte memory[2] = {0, 0};
byte t0_r0;
byte t0_count;
byte t0_to[1];
byte t0_value[1];
byte t1_r0;
byte t1_count;
byte t1_to[1];
byte t1_value[1];

active proctype thread0() {
P0: if :: d_step { t0_count < 1 -> t0_to[t0_count] = 0; t0_value[t0_count] = 1; t0_count++ } fi;
P1: t0_r0 = memory[1];
P2: false
}

active proctype thread1() {
P0: if :: d_step { t1_count < 1 -> t1_to[t1_count] = 1; t1_value[t1_count] = 1; t1_count++ } fi;
P1: t1_r0 = memory[0];
P2: false
}

active proctype flushes() {
    do
    :: d_step { t0_count > 0 -> memory[t0_to[0]] = t0_value[0]; t0_to[0] = 0; t0_value[0] = 0; t0_count-- }
    :: d_step { t1_count > 0 -> memory[t1_to[0]] = t1_value[0]; t1_to[0] = 0; t1_value[0] = 0; t1_count-- }
    od
}
";
        assert_eq!(model_of(&P1), expected);
    }

    #[test]
    fn every_accepted_job_has_a_model_with_each_place() {
        for job in accepted_list() {
            let text = model_of(&job);
            let decoded = decode(&job).expect("the list is of accepted jobs");
            let all: usize = decoded.programs.iter().map(Vec::len).sum();
            let ends = decoded.programs.iter().filter(|own| !own.is_empty());
            let places = text.lines().filter(|line| line.starts_with('P')).count();
            assert_eq!(places, all + ends.count());
            assert!(!text.contains('$'), "a word is not filled in: {text}");
        }
    }

    #[test]
    fn under_sc_nothing_is_pending() {
        let text = with(SC, &[vec![[5, 0, 1, 9], [6, 0, 0, 0], [7, 2, 0, 0]]]);
        for line in [
            "byte memory[2] = {7, 8};",
            "P0: memory[1] = 9;",
            "P1: true;",
            "P2: if :: d_step { true -> old = memory[0]; memory[0] = t0_r2; t0_r2 = old; old = 0 } fi;",
        ] {
            assert!(text.contains(line), "{line} in {text}");
        }
        assert!(!text.contains("count") && !text.contains("flushes"));
    }

    #[test]
    fn jumps_are_transitions() {
        let text = with(
            [TSO, 1],
            &[vec![[8, 3, 3, 5], [9, 0, 1, 0], [9, 0, 0, 0]], vec![]],
        );
        for line in [
            "P0: if :: t0_r3 == 5 -> goto P3 :: else fi;",
            "P1: _nr_pr > 0 -> goto P1;",
            "P2: true -> goto P0;",
            "P3: false",
        ] {
            assert!(text.contains(line), "{line} in {text}");
        }
        // A thread without an instruction, and a buffer that nothing is stored to, would never change.
        assert!(!text.contains("thread1") && !text.contains("flushes"));
    }

    #[test]
    fn a_load_sees_the_newest_of_its_own() {
        let text = with([TSO, 2], &[vec![[5, 0, 1, 9], [3, 0, 1, 0], [3, 0, 0, 0]]]);
        let newest = "P1: t0_r0 = (t0_count > 1 && t0_to[1] == 1 -> t0_value[1] : (t0_count > 0 && t0_to[0] == 1 -> t0_value[0] : memory[1]));";
        assert!(text.contains(newest), "{text}");
        assert!(text.contains("P2: t0_r0 = memory[0];"));
    }

    #[test]
    fn only_what_is_stored_is_flushed_under_pso() {
        let text = with([PSO, 3], &[vec![[5, 0, 1, 9]]]);
        let flush = ":: d_step { t0_to[0] == 1 || t0_to[1] == 1 || t0_to[2] == 1 -> ";
        assert!(text.contains(flush), "{text}");
        assert_eq!(text.matches("    :: d_step").count(), 1);
        let text = with([PSO, 3], &[vec![[5, 0, 0, 9]]]);
        assert!(text.contains(":: d_step { t0_count > 0 && t0_to[0] == 0 -> "));
    }
}
