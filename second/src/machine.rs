//! Machine states and the steps between them.

use crate::buffer::BUFFER_BYTES;
pub use crate::buffer::{Buffer, Pending};
use crate::job::{Clause, Instruction, Job, Model, Value};
use std::collections::BTreeMap;
use std::hash::{Hash, Hasher};
use std::rc::Rc;

/// The same for all versions: a value has two bytes here, of which the high one stays 0 where values have one in the file.
pub const SLOT_BYTES: usize = BUFFERS_AT + 4 * BUFFER_BYTES;

// Four places come first; then four registers of each of four threads, eight variables, and four buffers.
const REGISTERS_AT: usize = 4;
const MEMORY_AT: usize = REGISTERS_AT + 2 * 4 * 4;
const BUFFERS_AT: usize = MEMORY_AT + 2 * 8;

#[derive(Clone, Debug, PartialEq, Eq)]
pub struct Thread {
    pub place: usize,
    pub registers: [Value; 4],
    pub buffer: Buffer,
}

/// Threads are shared between states, because a step changes at most one of them.
#[derive(Clone, Debug, PartialEq, Eq)]
pub struct State {
    pub memory: Vec<Value>,
    pub threads: Vec<Rc<Thread>>,
}

impl Thread {
    fn at_start(job: &Job) -> Thread {
        Thread {
            place: 0,
            registers: [0; 4],
            buffer: Buffer::empty(lanes(job)),
        }
    }

    pub fn pending(&self) -> usize {
        self.buffer.pending()
    }
}

/// SC has no buffers, TSO keeps all stores of a thread in order, and PSO those to each variable.
fn lanes(job: &Job) -> usize {
    match job.model {
        Model::Sc => 0,
        Model::Tso => 1,
        Model::Pso => job.initial.len(),
    }
}

/// The lane that stores to the variable join and leave by.
fn lane_of(model: Model, variable: usize) -> Option<usize> {
    match model {
        Model::Sc => None,
        Model::Tso => Some(0),
        Model::Pso => Some(variable),
    }
}

impl State {
    pub fn start(job: &Job) -> State {
        let thread = Rc::new(Thread::at_start(job));
        State {
            memory: job.initial.clone(),
            threads: vec![thread; job.programs.len()],
        }
    }

    pub fn is_goal(&self, job: &Job) -> bool {
        let buffers_hold = !job.goal.buffers_empty || self.threads.iter().all(|t| t.pending() == 0);
        buffers_hold && job.goal.clauses.iter().all(|clause| self.satisfies(clause))
    }

    fn satisfies(&self, clause: &Clause) -> bool {
        match *clause {
            Clause::Place { thread, place } => self.threads[thread].place == place,
            Clause::Register {
                thread,
                register,
                value,
            } => self.threads[thread].registers[register] == value,
            Clause::Memory { variable, value } => self.memory[variable] == value,
        }
    }

    /// The bytes of this state in the lent table; what the job doesn't use stays 0.
    pub fn slot(&self) -> Vec<u8> {
        let mut slot = Vec::with_capacity(SLOT_BYTES);
        slot.extend(self.threads.iter().map(|thread| thread.place as u8));
        slot.resize(REGISTERS_AT, 0);
        for thread in &self.threads {
            slot.extend(in_slot(&thread.registers));
        }
        slot.resize(MEMORY_AT, 0);
        slot.extend(in_slot(&self.memory));
        slot.resize(BUFFERS_AT, 0);
        for thread in &self.threads {
            slot.extend(thread.buffer.bytes());
        }
        slot.resize(SLOT_BYTES, 0);
        slot
    }
}

/// Values as they stand in a slot.
fn in_slot(values: &[Value]) -> impl Iterator<Item = u8> + '_ {
    values.iter().flat_map(|value| value.to_be_bytes())
}

/// Equal states have equal slots, and one flat run of bytes is quick to hash.
impl Hash for State {
    fn hash<H: Hasher>(&self, hasher: &mut H) {
        hasher.write(&self.slot());
    }
}

/// What a step number stands for, whether or not the job has such a thread or variable.
#[derive(Clone, Copy, Debug, PartialEq, Eq)]
pub enum Step {
    Execute { thread: usize },
    Flush { thread: usize, variable: usize },
}

impl Step {
    /// Thread t executes by t, and flushes its store to v by 4 + 8t + v; no number above 35 stands for anything.
    pub fn from_number(number: u8) -> Option<Step> {
        match number {
            0..=3 => Some(Step::Execute {
                thread: usize::from(number),
            }),
            4..=35 => Some(Step::Flush {
                thread: usize::from(number - 4) / 8,
                variable: usize::from(number - 4) % 8,
            }),
            36..=255 => None,
        }
    }
}

/// Why a step cannot be taken, each with its number.
#[derive(Clone, Copy, Debug, PartialEq, Eq, PartialOrd, Ord, Hash)]
pub enum Reason {
    NoSuchStep = 1,
    ThreadEnded = 2,
    BufferFull = 3,
    BufferNotEmpty = 4,
    NothingToFlush = 5,
    NotTheOldest = 6,
}

/// In the order in which they are judged: the first that applies is given.
pub const REASONS: [Reason; 6] = [
    Reason::NoSuchStep,
    Reason::ThreadEnded,
    Reason::BufferFull,
    Reason::BufferNotEmpty,
    Reason::NothingToFlush,
    Reason::NotTheOldest,
];

impl Reason {
    pub fn number(self) -> u8 {
        self as u8
    }

    /// Whether this reason holds for the step, whatever the others do.
    pub fn applies(self, job: &Job, state: &State, number: u8) -> bool {
        match self {
            Reason::NoSuchStep => no_such_step(job, number),
            Reason::ThreadEnded => thread_ended(job, state, number),
            Reason::BufferFull => buffer_full(job, state, number),
            Reason::BufferNotEmpty => buffer_not_empty(job, state, number),
            Reason::NothingToFlush => nothing_to_flush(state, number),
            Reason::NotTheOldest => not_the_oldest(state, number),
        }
    }
}

/// The number is above 35, the thread is from T up, or the variable is from V up.
fn no_such_step(job: &Job, number: u8) -> bool {
    let thread_is_absent = |thread| thread >= job.programs.len();
    let variable_is_absent = |variable| variable >= job.initial.len();
    match Step::from_number(number) {
        None => true,
        Some(Step::Execute { thread }) => thread_is_absent(thread),
        Some(Step::Flush { thread, variable }) => {
            thread_is_absent(thread) || variable_is_absent(variable)
        }
    }
}

/// Execute steps: the thread is at place n. An absent thread has no instruction left either, so the order decides there.
fn thread_ended(job: &Job, state: &State, number: u8) -> bool {
    match Step::from_number(number) {
        Some(Step::Execute { thread }) => next_instruction(job, state, thread).is_none(),
        Some(Step::Flush { .. }) | None => false,
    }
}

/// Execute steps under TSO and PSO: a store while C stores are pending. SC has no buffer that could be full.
fn buffer_full(job: &Job, state: &State, number: u8) -> bool {
    match Step::from_number(number) {
        Some(Step::Execute { thread }) => {
            let is_store = matches!(
                next_instruction(job, state, thread),
                Some(Instruction::StoreRegister { .. } | Instruction::StoreConstant { .. })
            );
            let is_full = of_buffer(state, thread, |buffer| buffer.pending() >= job.capacity);
            job.model != Model::Sc && is_store && is_full
        }
        Some(Step::Flush { .. }) | None => false,
    }
}

/// Execute steps: FENCE, XCHG or CMPX while a store of the thread is pending, also if the CMPX will not match.
fn buffer_not_empty(job: &Job, state: &State, number: u8) -> bool {
    match Step::from_number(number) {
        Some(Step::Execute { thread }) => {
            let waits_for_empty = matches!(
                next_instruction(job, state, thread),
                Some(
                    Instruction::Fence
                        | Instruction::Exchange { .. }
                        | Instruction::CompareExchange { .. }
                )
            );
            waits_for_empty && of_buffer(state, thread, |buffer| buffer.pending() > 0)
        }
        Some(Step::Flush { .. }) | None => false,
    }
}

/// Flush steps: no store of the thread to the variable is pending. Under SC that is always so.
fn nothing_to_flush(state: &State, number: u8) -> bool {
    match Step::from_number(number) {
        Some(Step::Flush { thread, variable }) => {
            !of_buffer(state, thread, |buffer| buffer.has_pending_to(variable))
        }
        Some(Step::Execute { .. }) | None => false,
    }
}

/// Flush steps: a store to the variable is pending, but under TSO the oldest is to another, and under PSO the oldest group has none to it.
fn not_the_oldest(state: &State, number: u8) -> bool {
    match Step::from_number(number) {
        Some(Step::Flush { thread, variable }) => of_buffer(state, thread, |buffer| {
            buffer.has_pending_to(variable) && !buffer.may_flush(variable)
        }),
        Some(Step::Execute { .. }) | None => false,
    }
}

/// What the thread is to run next: nothing if it has ended, or if it is not there.
fn next_instruction(job: &Job, state: &State, thread: usize) -> Option<Instruction> {
    let place = state.threads.get(thread)?.place;
    job.programs.get(thread)?.get(place).copied()
}

/// Whether this holds of the thread's buffer: never if the thread is not there.
fn of_buffer(state: &State, thread: usize, holds: impl Fn(&Buffer) -> bool) -> bool {
    let thread = state.threads.get(thread);
    thread.map_or(false, |thread| holds(&thread.buffer))
}

/// The first reason that applies to a step, if one does; without one the step is enabled.
pub fn reason(job: &Job, state: &State, number: u8) -> Option<Reason> {
    let mut in_order = REASONS.into_iter();
    in_order.find(|reason| reason.applies(job, state, number))
}

/// The state after a step, or the reason why it cannot be taken.
pub fn step(job: &Job, state: &State, number: u8) -> Result<State, Reason> {
    match reason(job, state, number) {
        Some(reason) => Err(reason),
        None => {
            let after = state_after(job, state, number);
            Ok(after.expect("a step that no reason withholds can be taken"))
        }
    }
}

/// Takes a step that no reason withholds; under TSO the oldest store is then to the variable of a flush.
fn state_after(job: &Job, state: &State, number: u8) -> Option<State> {
    match Step::from_number(number)? {
        Step::Execute { thread } => execute(job, state, thread),
        Step::Flush { thread, variable } => {
            let lane = lane_of(job.model, variable)?;
            flush(state, thread, lane).map(|(_, next)| next)
        }
    }
}

/// Bit s is set exactly when step s has no reason.
pub fn enabled(job: &Job, state: &State) -> u64 {
    let steps = (0..64).filter(|&number| reason(job, state, number).is_none());
    steps.fold(0, |bits, number| bits | 1 << number)
}

/// Every enabled step with the state it leads to: the same as `step` gives, but quicker, for the search.
pub fn successors(job: &Job, state: &State) -> BTreeMap<u8, State> {
    let mut moves = BTreeMap::new();
    for thread in 0..state.threads.len() {
        if let Some(next) = execute(job, state, thread) {
            moves.insert(thread as u8, next);
        }
        for lane in 0..lanes(job) {
            if let Some((variable, next)) = flush(state, thread, lane) {
                moves.insert(4 + 8 * thread as u8 + variable, next);
            }
        }
    }
    moves
}

/// Moves the store of a lane that may flush to memory, if there is one.
fn flush(state: &State, thread: usize, lane: usize) -> Option<(u8, State)> {
    let store = state.threads[thread].buffer.next_of(lane)?;
    let mut next = state.clone();
    Rc::make_mut(&mut next.threads[thread]).buffer.flush(lane);
    next.memory[usize::from(store.variable)] = store.value;
    Some((store.variable, next))
}

/// Runs one instruction of a thread, unless the thread has ended or has to wait.
fn execute(job: &Job, state: &State, thread: usize) -> Option<State> {
    let before = &state.threads[thread];
    let instruction = *job.programs[thread].get(before.place)?;
    if must_wait(job, before, instruction) {
        return None;
    }
    let mut next = state.clone();
    let State { memory, threads } = &mut next;
    let own = Rc::make_mut(&mut threads[thread]);
    own.place += 1;
    match instruction {
        Instruction::Set { register, value } => own.registers[register] = value,
        Instruction::Add { register, value } => {
            own.registers[register] = job.width().sum(own.registers[register], value);
        }
        Instruction::Load { register, variable } => {
            let pending = own.buffer.newest(variable);
            own.registers[register] = pending.unwrap_or(memory[variable]);
        }
        Instruction::StoreRegister { register, variable } => {
            let value = own.registers[register];
            store(job.model, own, memory, variable, value);
        }
        Instruction::StoreConstant { variable, value } => {
            store(job.model, own, memory, variable, value);
        }
        Instruction::Fence => {}
        Instruction::Exchange { register, variable } => {
            std::mem::swap(&mut own.registers[register], &mut memory[variable]);
        }
        Instruction::CompareExchange {
            register,
            variable,
            value,
        } => {
            let old = memory[variable];
            if old == own.registers[register] {
                memory[variable] = value;
            }
            own.registers[register] = old;
        }
        // Under SC and TSO stores reach memory in order anyway.
        Instruction::StoreFence => {
            if job.model == Model::Pso {
                own.buffer.put_wfence();
            }
        }
        Instruction::JumpIfEqual {
            register,
            target,
            value,
        } => {
            if own.registers[register] == value {
                own.place = target;
            }
        }
        Instruction::Jump { target } => own.place = target,
    }
    Some(next)
}

fn must_wait(job: &Job, thread: &Thread, instruction: Instruction) -> bool {
    match instruction {
        // SC has no buffer that could be full.
        Instruction::StoreRegister { .. } | Instruction::StoreConstant { .. } => {
            job.model != Model::Sc && thread.pending() >= job.capacity
        }
        Instruction::Fence | Instruction::Exchange { .. } | Instruction::CompareExchange { .. } => {
            thread.pending() > 0
        }
        // WFENCE runs on a full buffer, too: it takes no room.
        Instruction::Set { .. }
        | Instruction::Add { .. }
        | Instruction::Load { .. }
        | Instruction::StoreFence
        | Instruction::JumpIfEqual { .. }
        | Instruction::Jump { .. } => false,
    }
}

fn store(model: Model, thread: &mut Thread, memory: &mut [Value], variable: usize, value: Value) {
    let pending = Pending {
        variable: variable as u8,
        value,
    };
    match lane_of(model, variable) {
        None => memory[variable] = value,
        Some(lane) => thread.buffer.join(lane, pending),
    }
}
