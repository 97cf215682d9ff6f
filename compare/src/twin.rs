//! An ordinary Rust search of the same structure as the proved one with an index: fixed slots, chains in lent memory, no allocation while it searches.
//! States are changed in place and lent by reference, so what stands between the two in the speed table is the price of proof and of states by value.

use crate::slot::LAYOUT;
use second::job::{Clause, Instruction, Job, Model, Value, Width, MOST_INSTRUCTIONS};
use second::machine::SLOT_BYTES;
use second::{decode, Refusal};

const MOST_SLOTS: usize = 65_536;
const MOST_THREADS: usize = 4;
const MOST_VARIABLES: usize = 8;
const REGISTERS: usize = 4;
const MOST_CLAUSES: usize = 16;
const START_LINK: u32 = u32::MAX;
const STEPS_PER_SLOT: u32 = 64;

/// Answers as the indexed search does: 0,number,offset,0 | 1,d,states,0 | 2,states,0,0 | 3,N,0,0, and fills the lent buffers.
pub fn search_indexed(
    job: &[u8],
    table: &mut [u8],
    links: &mut [u32],
    schedule: &mut [u8],
    index: &mut [u32],
) -> [u64; 4] {
    // The second checker's decoder serves here, too: it runs once a search, and is not what is measured.
    let plan = match decode(job) {
        Ok(job) => Plan::of(&job),
        Err(refusal) => return refusal.words(),
    };
    let slots = room(table, links, schedule, index);
    if slots == 0 {
        let no_slot = Refusal {
            number: 7,
            offset: 0,
        };
        return no_slot.words();
    }
    let mut shelf = Shelf::empty(table, links, index, slots);
    match shelf.explore(&plan) {
        Verdict::Reachable { distance, goal } => {
            shelf.write_schedule(&mut schedule[..distance], goal);
            [1, distance as u64, shelf.count as u64, 0]
        }
        Verdict::Unreachable => [2, shelf.count as u64, 0, 0],
        Verdict::Unknown => [3, slots as u64, 0, 0],
    }
}

/// N of request 6.
fn room(table: &[u8], links: &[u32], schedule: &[u8], index: &[u32]) -> usize {
    (table.len() / SLOT_BYTES)
        .min(links.len())
        .min(schedule.len())
        .min(MOST_SLOTS)
        .min(index.len() / 2)
}

// ---- the search ----

enum Verdict {
    Reachable { distance: usize, goal: usize },
    Unreachable,
    Unknown,
}

/// What a look-up ends in.
#[derive(Clone, Copy, PartialEq, Eq)]
enum Put {
    Known,
    New,
    Full,
}

/// The lent memory: counted slots with their links, and the chains on which they are looked up.
struct Shelf<'a> {
    table: &'a mut [u8],
    links: &'a mut [u32],
    /// The newest slot of each chain plus one; 0 is none.
    newest: &'a mut [u32],
    /// For each slot the one before it on its chain, in the same way.
    before: &'a mut [u32],
    slots: usize,
    count: usize,
}

impl<'a> Shelf<'a> {
    fn empty(
        table: &'a mut [u8],
        links: &'a mut [u32],
        index: &'a mut [u32],
        slots: usize,
    ) -> Shelf<'a> {
        let (newest, before) = index.split_at_mut(slots);
        newest.fill(0);
        Shelf {
            table,
            links,
            newest,
            before,
            slots,
            count: 0,
        }
    }

    /// Level by level; a level is judged once it is whole, and a state for which no slot is left ends it all.
    fn explore(&mut self, plan: &Plan) -> Verdict {
        let mut first_goal = None;
        self.put(&plan.start, START_LINK);
        if plan.is_goal(&plan.start) {
            first_goal = Some(0);
        }
        let mut distance = 0;
        let mut next = 0;
        loop {
            if let Some(goal) = first_goal {
                return Verdict::Reachable { distance, goal };
            }
            let level_end = self.count;
            if next == level_end {
                return Verdict::Unreachable;
            }
            while next < level_end {
                if !self.expand(plan, next, &mut first_goal) {
                    return Verdict::Unknown;
                }
                next += 1;
            }
            distance += 1;
        }
    }

    /// Tries the steps of a slot's state from the lowest upward; whether there was a slot for all that is new.
    fn expand(&mut self, plan: &Plan, slot: usize, first_goal: &mut Option<usize>) -> bool {
        let from = self.state(slot);
        let mut arrive = |to: &State, step: usize| {
            let put = self.put(to, slot as u32 * STEPS_PER_SLOT + step as u32);
            if put == Put::New && first_goal.is_none() && plan.is_goal(to) {
                *first_goal = Some(self.count - 1);
            }
            put != Put::Full
        };
        for thread in 0..plan.threads {
            if let Some(instruction) = plan.may_execute(&from, thread) {
                let mut to = from;
                plan.execute(&mut to, thread, instruction);
                if !arrive(&to, thread) {
                    return false;
                }
            }
        }
        for thread in 0..plan.threads {
            for entry in 0..plan.may_leave(&from, thread) {
                let sign = from.sign(thread, entry);
                // Stores of later groups wait, and so does one behind another to its variable.
                if sign >= GROUP_SIGN || (entry > 0 && sign == from.sign(thread, entry - 1)) {
                    continue;
                }
                let variable = usize::from(sign);
                let mut to = from;
                to.flush(thread, entry, variable);
                let step = MOST_THREADS + MOST_VARIABLES * thread + variable;
                if !arrive(&to, step) {
                    return false;
                }
            }
        }
        true
    }

    fn state(&self, slot: usize) -> State {
        let mut bytes = [0; SLOT_BYTES];
        bytes.copy_from_slice(&self.table[slot * SLOT_BYTES..][..SLOT_BYTES]);
        State { bytes }
    }

    /// One slot more, unless the state is known or no slot is left.
    fn put(&mut self, state: &State, link: u32) -> Put {
        let chain = state.chain(self.slots);
        let newest = self.newest[chain];
        let mut number = newest;
        while number > 0 {
            let slot = number as usize - 1;
            if state.stands_in(&self.table[slot * SLOT_BYTES..][..SLOT_BYTES]) {
                return Put::Known;
            }
            number = self.before[slot];
        }
        if self.count == self.slots {
            return Put::Full;
        }
        let slot = self.count;
        self.table[slot * SLOT_BYTES..][..SLOT_BYTES].copy_from_slice(&state.bytes);
        self.links[slot] = link;
        self.before[slot] = newest;
        self.newest[chain] = slot as u32 + 1;
        self.count += 1;
        Put::New
    }

    /// Walks the links back from the goal, the last step first.
    fn write_schedule(&self, schedule: &mut [u8], goal: usize) {
        let mut slot = goal;
        for step in schedule.iter_mut().rev() {
            let link = self.links[slot];
            *step = (link % STEPS_PER_SLOT) as u8;
            slot = (link / STEPS_PER_SLOT) as usize;
        }
    }
}

// ---- the job ----

/// A job in fixed arrays, decoded once.
struct Plan {
    model: Model,
    capacity: usize,
    width: Width,
    threads: usize,
    programs: [[Instruction; MOST_INSTRUCTIONS]; MOST_THREADS],
    lengths: [usize; MOST_THREADS],
    buffers_empty: bool,
    clauses: [Clause; MOST_CLAUSES],
    clause_count: usize,
    start: State,
}

impl Plan {
    fn of(job: &Job) -> Plan {
        let mut plan = Plan {
            model: job.model,
            capacity: job.capacity,
            width: job.width(),
            threads: job.programs.len(),
            programs: [[Instruction::Fence; MOST_INSTRUCTIONS]; MOST_THREADS],
            lengths: [0; MOST_THREADS],
            buffers_empty: job.goal.buffers_empty,
            clauses: [job.goal.clauses[0]; MOST_CLAUSES],
            clause_count: job.goal.clauses.len(),
            start: State {
                bytes: [0; SLOT_BYTES],
            },
        };
        for (thread, program) in job.programs.iter().enumerate() {
            plan.programs[thread][..program.len()].copy_from_slice(program);
            plan.lengths[thread] = program.len();
        }
        plan.clauses[..plan.clause_count].copy_from_slice(&job.goal.clauses);
        for (variable, &value) in job.initial.iter().enumerate() {
            plan.start.set_variable(variable, value);
        }
        plan
    }

    /// The thread's next instruction, unless it has ended or has to wait.
    fn may_execute(&self, state: &State, thread: usize) -> Option<Instruction> {
        let place = usize::from(state.bytes[thread]);
        if place >= self.lengths[thread] {
            return None;
        }
        let instruction = self.programs[thread][place];
        let waits = match instruction {
            Instruction::StoreRegister { .. } | Instruction::StoreConstant { .. } => {
                self.model != Model::Sc && state.pending(thread) >= self.capacity
            }
            Instruction::Fence
            | Instruction::Exchange { .. }
            | Instruction::CompareExchange { .. } => state.pending(thread) > 0,
            Instruction::Set { .. }
            | Instruction::Add { .. }
            | Instruction::Load { .. }
            | Instruction::StoreFence
            | Instruction::JumpIfEqual { .. }
            | Instruction::Jump { .. } => false,
        };
        (!waits).then_some(instruction)
    }

    fn execute(&self, state: &mut State, thread: usize, instruction: Instruction) {
        let mut place = state.bytes[thread] + 1;
        match instruction {
            Instruction::Set { register, value } => state.set_register(thread, register, value),
            Instruction::Add { register, value } => {
                let sum = self.width.sum(state.register(thread, register), value);
                state.set_register(thread, register, sum);
            }
            Instruction::Load { register, variable } => {
                let value = state.newest(thread, variable);
                state.set_register(thread, register, value);
            }
            Instruction::StoreRegister { register, variable } => {
                let value = state.register(thread, register);
                self.store(state, thread, variable, value);
            }
            Instruction::StoreConstant { variable, value } => {
                self.store(state, thread, variable, value);
            }
            Instruction::Fence => {}
            Instruction::Exchange { register, variable } => {
                let old = state.variable(variable);
                state.set_variable(variable, state.register(thread, register));
                state.set_register(thread, register, old);
            }
            Instruction::CompareExchange {
                register,
                variable,
                value,
            } => {
                let old = state.variable(variable);
                if old == state.register(thread, register) {
                    state.set_variable(variable, value);
                }
                state.set_register(thread, register, old);
            }
            Instruction::StoreFence => {
                if self.model == Model::Pso {
                    state.put_wfence(thread);
                }
            }
            Instruction::JumpIfEqual {
                register,
                target,
                value,
            } => {
                if state.register(thread, register) == value {
                    place = target as u8;
                }
            }
            Instruction::Jump { target } => place = target as u8,
        }
        state.bytes[thread] = place;
    }

    fn store(&self, state: &mut State, thread: usize, variable: usize, value: Value) {
        match self.model {
            Model::Sc => state.set_variable(variable, value),
            Model::Tso => {
                let last = state.pending(thread);
                state.insert(thread, last, variable as u8, value);
            }
            Model::Pso => {
                let sign = state.newest_group(thread) + variable as u8;
                let count = state.pending(thread);
                let behind = (0..count).position(|entry| state.sign(thread, entry) > sign);
                state.insert(thread, behind.unwrap_or(count), sign, value);
            }
        }
    }

    /// How many of a thread's pending stores could leave, the oldest first.
    fn may_leave(&self, state: &State, thread: usize) -> usize {
        match self.model {
            Model::Sc => 0,
            Model::Tso => state.pending(thread).min(1),
            Model::Pso => state.pending(thread),
        }
    }

    fn is_goal(&self, state: &State) -> bool {
        let holds = |clause: &Clause| match *clause {
            Clause::Place { thread, place } => usize::from(state.bytes[thread]) == place,
            Clause::Register {
                thread,
                register,
                value,
            } => state.register(thread, register) == value,
            Clause::Memory { variable, value } => state.variable(variable) == value,
        };
        self.clauses[..self.clause_count].iter().all(holds)
            && (!self.buffers_empty || (0..self.threads).all(|thread| state.pending(thread) == 0))
    }
}

// ---- states ----

const REGISTERS_AT: usize = LAYOUT.registers_at();
const MEMORY_AT: usize = LAYOUT.memory_at();
const BUFFERS_AT: usize = LAYOUT.buffers_at();
const BUFFER_BYTES: usize = LAYOUT.buffer_bytes();
const STORE_BYTES: usize = LAYOUT.store_bytes();
/// What a pending store's variable byte gains for each group before its own.
const GROUP_SIGN: u8 = 16;
/// What the count byte gains while a WFENCE stands after the newest store.
const WFENCE_SIGN: u8 = 128;

/// One odd weight for each word of eight bytes, drawn once.
const WEIGHTS: [u64; SLOT_BYTES / 8] = [
    0x916F_C8ED_23CD_9D55,
    0x6318_C86A_CDA4_6E7B,
    0x3262_5F31_BE0F_FDDB,
    0xE4F9_1048_4822_404B,
    0x180E_94A3_E9A9_4BC3,
    0x1A37_74E9_6D16_BBF1,
    0xD005_1427_F0E2_7B15,
    0xB697_F701_D450_9855,
    0xE590_EF06_5849_7A29,
    0xD580_8B6F_086F_6727,
    0xF358_D145_E019_90FF,
    0x6DEE_3272_A2E0_B84D,
    0x7278_FCD8_3C87_1945,
    0x3B7A_557E_EFD0_F9B1,
    0x6443_F3D0_C425_1243,
    0xBA81_C29B_892F_9A4B,
    0xE651_AAB8_183F_C4DD,
    0x4041_BAEF_4BFA_E0FF,
    0xF1F7_10CB_5985_53CF,
];

/// A machine state, byte for byte as it stands in a slot, so that it is hashed, compared and kept without being laid out.
#[derive(Clone, Copy)]
struct State {
    bytes: [u8; SLOT_BYTES],
}

impl State {
    fn value(&self, at: usize) -> Value {
        Value::from_be_bytes([self.bytes[at], self.bytes[at + 1]])
    }

    fn set_value(&mut self, at: usize, value: Value) {
        self.bytes[at..at + 2].copy_from_slice(&value.to_be_bytes());
    }

    fn register(&self, thread: usize, register: usize) -> Value {
        self.value(REGISTERS_AT + 2 * (REGISTERS * thread + register))
    }

    fn set_register(&mut self, thread: usize, register: usize, value: Value) {
        self.set_value(REGISTERS_AT + 2 * (REGISTERS * thread + register), value);
    }

    fn variable(&self, variable: usize) -> Value {
        self.value(MEMORY_AT + 2 * variable)
    }

    fn set_variable(&mut self, variable: usize, value: Value) {
        self.set_value(MEMORY_AT + 2 * variable, value);
    }

    fn count_byte(&mut self, thread: usize) -> &mut u8 {
        &mut self.bytes[BUFFERS_AT + BUFFER_BYTES * thread]
    }

    fn pending(&self, thread: usize) -> usize {
        usize::from(self.bytes[BUFFERS_AT + BUFFER_BYTES * thread] % WFENCE_SIGN)
    }

    /// Where a pending store stands.
    fn entry_at(thread: usize, entry: usize) -> usize {
        BUFFERS_AT + BUFFER_BYTES * thread + 1 + STORE_BYTES * entry
    }

    /// A pending store's variable, and 16 times its group.
    fn sign(&self, thread: usize, entry: usize) -> u8 {
        self.bytes[State::entry_at(thread, entry)]
    }

    /// What the thread sees of a variable: its own newest pending store, else memory.
    fn newest(&self, thread: usize, variable: usize) -> Value {
        let to_it = |&entry: &usize| usize::from(self.sign(thread, entry) % GROUP_SIGN) == variable;
        match (0..self.pending(thread)).rev().find(to_it) {
            Some(entry) => self.value(State::entry_at(thread, entry) + 1),
            None => self.variable(variable),
        }
    }

    /// The sign of the group that a store joins: the last one's, or a new one behind a WFENCE.
    fn newest_group(&self, thread: usize) -> u8 {
        let count = self.pending(thread);
        if count == 0 {
            return 0;
        }
        let last = self.sign(thread, count - 1);
        let group = last - last % GROUP_SIGN;
        if self.bytes[BUFFERS_AT + BUFFER_BYTES * thread] >= WFENCE_SIGN {
            group + GROUP_SIGN
        } else {
            group
        }
    }

    /// A store joins before this entry; a WFENCE has then done its part.
    fn insert(&mut self, thread: usize, entry: usize, sign: u8, value: Value) {
        let count = self.pending(thread);
        let at = State::entry_at(thread, entry);
        let end = State::entry_at(thread, count);
        self.bytes.copy_within(at..end, at + STORE_BYTES);
        self.bytes[at] = sign;
        self.set_value(at + 1, value);
        *self.count_byte(thread) = count as u8 + 1;
    }

    /// After no store there is nothing that a WFENCE could keep apart.
    fn put_wfence(&mut self, thread: usize) {
        let count = self.pending(thread) as u8;
        *self.count_byte(thread) = if count > 0 { WFENCE_SIGN + count } else { 0 };
    }

    /// A pending store goes to memory; groups are then counted from the oldest that is left.
    fn flush(&mut self, thread: usize, entry: usize, variable: usize) {
        let at = State::entry_at(thread, entry);
        self.set_variable(variable, self.value(at + 1));
        let left = self.pending(thread) - 1;
        let end = State::entry_at(thread, left);
        self.bytes
            .copy_within(at + STORE_BYTES..end + STORE_BYTES, at);
        self.bytes[end..end + STORE_BYTES].fill(0);
        if left == 0 {
            *self.count_byte(thread) = 0;
            return;
        }
        *self.count_byte(thread) -= 1;
        let oldest = self.sign(thread, 0) - self.sign(thread, 0) % GROUP_SIGN;
        if oldest > 0 {
            for entry in 0..left {
                self.bytes[State::entry_at(thread, entry)] -= oldest;
            }
        }
    }

    /// By words: quicker here than one comparison of all bytes, which is a call.
    fn stands_in(&self, slot: &[u8]) -> bool {
        let mut words = self.bytes.chunks_exact(8).zip(slot.chunks_exact(8));
        words.all(|(own, other)| own == other)
    }

    /// The chain that the state belongs to, of so many: its words weighed, summed up and spread.
    fn chain(&self, chains: usize) -> usize {
        let words = self.bytes.chunks_exact(8).zip(&WEIGHTS);
        let sum = words.fold(0, |sum: u64, (bytes, &weight)| {
            let mut word = [0; 8];
            word.copy_from_slice(bytes);
            let product = u128::from(u64::from_le_bytes(word)) * u128::from(weight);
            // Both halves, since a word's last byte alone hardly moves the lower one.
            sum.wrapping_add(product as u64 ^ (product >> 64) as u64)
        });
        (((sum >> 32) * chains as u64) >> 32) as usize
    }
}

#[cfg(test)]
mod tests {
    use super::*;
    use crate::jobs::random_job;
    use crate::lent::Cell;
    use crate::ring::ring;
    use second::listed::{accepted_list, P1, SC};
    use second::random::{buffer_sizes, Random, Sizes};

    #[derive(Clone, Debug, PartialEq, Eq)]
    struct Lent {
        table: Vec<u8>,
        links: Vec<u32>,
        schedule: Vec<u8>,
    }

    impl Lent {
        fn random(random: &mut Random, sizes: Sizes) -> Lent {
            Lent {
                table: Cell::random_cells(random, sizes.table),
                links: Cell::random_cells(random, sizes.links),
                schedule: Cell::random_cells(random, sizes.schedule),
            }
        }

        /// As much of it as `slots` allow: what the second checker, which has no index, is lent.
        fn narrowed(&self, slots: usize) -> Lent {
            let mut narrow = self.clone();
            narrow.links.truncate(slots);
            narrow
        }
    }

    /// Both searches in the same memory, with an index of so many numbers for one of them.
    fn assert_same(random: &mut Random, job: &[u8], sizes: Sizes, index_len: usize) -> [u64; 4] {
        let lent = Lent::random(random, sizes);
        let index: Vec<u32> = Cell::random_cells(random, index_len);
        let (mut own, mut own_index) = (lent.clone(), index.clone());
        let answer = search_indexed(
            job,
            &mut own.table,
            &mut own.links,
            &mut own.schedule,
            &mut own_index,
        );
        let mut other = lent.narrowed(index_len / 2);
        let expected = second::search(job, &mut other.table, &mut other.links, &mut other.schedule);
        assert_eq!(answer, expected, "{job:?} in {sizes:?}, index {index_len}");
        // The links behind those that the second checker was lent.
        let behind = other.links.len();
        other.links.extend(&lent.links[behind..]);
        assert!(own == other, "{job:?} in {sizes:?}, index {index_len}");
        if answer[0] == 0 {
            assert!(own_index == index, "a refusal leaves the index unchanged");
        }
        answer
    }

    #[test]
    fn it_answers_and_writes_as_the_second_checker_does() {
        let mut random = Random::new(6);
        let mut answers = [0; 4];
        for number in 0..6000 {
            let job = match number % 4 {
                0 => second::random::case(&mut random).job,
                _ => random_job(&mut random),
            };
            let sizes = buffer_sizes(&mut random, &job);
            let slots = sizes.table / SLOT_BYTES;
            let index_len = random.pick(&[
                2 * slots,
                2 * slots + 1,
                2 * slots + 9,
                (2 * slots).saturating_sub(1),
                slots,
            ]);
            let answer = assert_same(&mut random, &job, sizes, index_len);
            answers[answer[0] as usize] += 1;
        }
        assert!(answers.iter().all(|&times| times > 300), "{answers:?}");
    }

    #[test]
    fn half_the_index_bounds_the_slots() {
        let mut random = Random::new(7);
        let roomy = Sizes {
            table: 99 * SLOT_BYTES,
            links: 99,
            schedule: 99,
        };
        // P1 takes 22 slots.
        for (index_len, expected) in [
            (0, [0, 7, 0, 0]),
            (1, [0, 7, 0, 0]),
            (2, [3, 1, 0, 0]),
            (43, [3, 21, 0, 0]),
            (44, [1, 4, 22, 0]),
            (45, [1, 4, 22, 0]),
        ] {
            let answer = assert_same(&mut random, &P1, roomy, index_len);
            assert_eq!(answer, expected, "index {index_len}");
        }
    }

    #[test]
    fn there_are_never_more_than_65536_slots() {
        let mut random = Random::new(9);
        let over = 65_600;
        let roomy = Sizes {
            table: over * SLOT_BYTES,
            links: over,
            schedule: over,
        };
        let answer = assert_same(&mut random, &ring(SC), roomy, 2 * over);
        assert_eq!(answer, [3, 65_536, 0, 0]);
    }

    #[test]
    fn listed_jobs_have_the_same_answers() {
        let mut random = Random::new(8);
        for job in accepted_list() {
            let slots = 2000;
            let roomy = Sizes {
                table: slots * SLOT_BYTES,
                links: slots,
                schedule: slots,
            };
            assert_same(&mut random, &job, roomy, 2 * slots);
        }
    }
}
