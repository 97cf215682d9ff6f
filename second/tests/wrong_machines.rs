//! A machine written otherwise agrees with the checker, and the cases of versions 2 and 3 tell each of many wrong ones from it.

use second::fences::{open_pairs, OpenPair};
use second::job::{Clause, Instruction, Job, Model};
use second::machine::{reason, step, Reason, State};
use second::random::{sound_job_of, stuck_schedule, Random};
use second::replay_cases::{self, Case, Known};
use second::version_three_jobs::raised;
use second::version_two::{is_compare_exchange, is_wfence, with};
use second::{decode, search_cases};
use second::{version_three_fences, version_three_replays};
use second::{version_two_fences, version_two_replays};
use std::collections::{BTreeMap, BTreeSet};

// ---- a machine without groups ----

/// What a machine gets wrong.
#[derive(Clone, Copy, Debug, PartialEq, Eq)]
enum Fault {
    WfenceDoesNothing,
    WfenceKeepsApartUnderTso,
    WfenceWaitsForRoom,
    WfenceWaitsForAnEmptyBuffer,
    WfenceIsPassedOverOnAFullBuffer,
    LaterGroupsFlush,
    OnlyTheNewestGroupFlushes,
    LaterGroupsHaveNothingToFlush,
    NowhereIsNotTheOldest,
    GroupsCountWfences,
    GroupsAreNotRenumbered,
    GroupsAreNotWritten,
    EveryStoreBehindAWfenceIsAlone,
    WfenceStaysWhenAStoreJoins,
    WfenceStaysWhenTheBufferEmpties,
    WfenceEndsAtAnyFlush,
    WfenceIsNotWritten,
    WfenceIsWrittenOnAnEmptyBuffer,
    PairsByVariableFirst,
    PairsByAgeInAGroup,
    LoadsFromTheOldestGroup,
    LoadsFromTheNewestGroup,
    LoadsTheOldest,
    RoomForEachGroup,
    CmpxDoesNotWait,
    CmpxWaitsOnlyIfItTakes,
    CmpxWaitsForRoom,
    CmpxAlwaysWrites,
    CmpxNeverWrites,
    CmpxWritesWhereItDiffers,
    CmpxTakesTheValueOnlyIfItWrites,
    CmpxTakesTheValueOnlyIfItDoesNotWrite,
    CmpxExchanges,
    CmpxTakesTheNewValue,
    AddNeverWrapsAt256,
    AddWrapsAt256,
    AddKeepsTheHighByte,
    AddCarriesNothing,
    AddStopsAtTheMost,
    SetLosesTheHighByte,
    StorekLosesTheHighByte,
    StoreLosesTheHighByte,
    LoadLosesTheHighByte,
    LoadKeepsTheHighByte,
    OwnLoadLosesTheHighByte,
    FlushLosesTheHighByte,
    FlushKeepsTheHighByte,
    ExchangeLosesTheHighByte,
    ExchangeKeepsTheHighBytes,
    JeqComparesLowBytes,
    JeqComparesHighBytes,
    JeqComparesWithTheLowByte,
    CmpxComparesLowBytes,
    CmpxComparesHighBytes,
    CmpxWritesTheLowByte,
    CmpxTakesTheLowByte,
    RegisterClausesCompareLowBytes,
    RegisterClausesCompareHighBytes,
    MemoryClausesCompareLowBytes,
    MemoryClausesCompareHighBytes,
    InitialValuesLoseTheHighByte,
    InitialValuesAreLittleEndian,
    InstructionsAreLittleEndian,
    ClausesAreLittleEndian,
    TheFileIsLittleEndian,
    SlotsAreLittleEndian,
    PendingIsLittleEndian,
    RegistersLoseTheHighByte,
    MemoryLosesTheHighByte,
    PendingLosesTheHighByte,
    PendingValuesStandFirst,
}

/// What machines get wrong about values of two bytes.
const FAULTS_OF_VALUES: [Fault; 36] = [
    Fault::AddWrapsAt256,
    Fault::AddKeepsTheHighByte,
    Fault::AddCarriesNothing,
    Fault::AddStopsAtTheMost,
    Fault::SetLosesTheHighByte,
    Fault::StorekLosesTheHighByte,
    Fault::StoreLosesTheHighByte,
    Fault::LoadLosesTheHighByte,
    Fault::LoadKeepsTheHighByte,
    Fault::OwnLoadLosesTheHighByte,
    Fault::FlushLosesTheHighByte,
    Fault::FlushKeepsTheHighByte,
    Fault::ExchangeLosesTheHighByte,
    Fault::ExchangeKeepsTheHighBytes,
    Fault::JeqComparesLowBytes,
    Fault::JeqComparesHighBytes,
    Fault::JeqComparesWithTheLowByte,
    Fault::CmpxComparesLowBytes,
    Fault::CmpxComparesHighBytes,
    Fault::CmpxWritesTheLowByte,
    Fault::CmpxTakesTheLowByte,
    Fault::RegisterClausesCompareLowBytes,
    Fault::RegisterClausesCompareHighBytes,
    Fault::MemoryClausesCompareLowBytes,
    Fault::MemoryClausesCompareHighBytes,
    Fault::InitialValuesLoseTheHighByte,
    Fault::InitialValuesAreLittleEndian,
    Fault::InstructionsAreLittleEndian,
    Fault::ClausesAreLittleEndian,
    Fault::TheFileIsLittleEndian,
    Fault::SlotsAreLittleEndian,
    Fault::PendingIsLittleEndian,
    Fault::RegistersLoseTheHighByte,
    Fault::MemoryLosesTheHighByte,
    Fault::PendingLosesTheHighByte,
    Fault::PendingValuesStandFirst,
];

const FAULTS: [Fault; 34] = [
    Fault::WfenceDoesNothing,
    Fault::WfenceKeepsApartUnderTso,
    Fault::WfenceWaitsForRoom,
    Fault::WfenceWaitsForAnEmptyBuffer,
    Fault::WfenceIsPassedOverOnAFullBuffer,
    Fault::LaterGroupsFlush,
    Fault::OnlyTheNewestGroupFlushes,
    Fault::LaterGroupsHaveNothingToFlush,
    Fault::NowhereIsNotTheOldest,
    Fault::GroupsCountWfences,
    Fault::GroupsAreNotRenumbered,
    Fault::GroupsAreNotWritten,
    Fault::EveryStoreBehindAWfenceIsAlone,
    Fault::WfenceStaysWhenAStoreJoins,
    Fault::WfenceStaysWhenTheBufferEmpties,
    Fault::WfenceEndsAtAnyFlush,
    Fault::WfenceIsNotWritten,
    Fault::WfenceIsWrittenOnAnEmptyBuffer,
    Fault::PairsByVariableFirst,
    Fault::PairsByAgeInAGroup,
    Fault::LoadsFromTheOldestGroup,
    Fault::LoadsFromTheNewestGroup,
    Fault::LoadsTheOldest,
    Fault::RoomForEachGroup,
    Fault::CmpxDoesNotWait,
    Fault::CmpxWaitsOnlyIfItTakes,
    Fault::CmpxWaitsForRoom,
    Fault::CmpxAlwaysWrites,
    Fault::CmpxNeverWrites,
    Fault::CmpxWritesWhereItDiffers,
    Fault::CmpxTakesTheValueOnlyIfItWrites,
    Fault::CmpxTakesTheValueOnlyIfItDoesNotWrite,
    Fault::CmpxExchanges,
    Fault::CmpxTakesTheNewValue,
];

/// Those that only the bytes of slots show.
const OF_SLOTS: [Fault; 15] = [
    Fault::WfenceKeepsApartUnderTso,
    Fault::GroupsCountWfences,
    Fault::GroupsAreNotRenumbered,
    Fault::GroupsAreNotWritten,
    Fault::WfenceStaysWhenTheBufferEmpties,
    Fault::WfenceIsNotWritten,
    Fault::WfenceIsWrittenOnAnEmptyBuffer,
    Fault::PairsByVariableFirst,
    Fault::PairsByAgeInAGroup,
    Fault::SlotsAreLittleEndian,
    Fault::PendingIsLittleEndian,
    Fault::RegistersLoseTheHighByte,
    Fault::MemoryLosesTheHighByte,
    Fault::PendingLosesTheHighByte,
    Fault::PendingValuesStandFirst,
];

/// Those that only goals show.
const OF_GOALS: [Fault; 5] = [
    Fault::RegisterClausesCompareLowBytes,
    Fault::RegisterClausesCompareHighBytes,
    Fault::MemoryClausesCompareLowBytes,
    Fault::MemoryClausesCompareHighBytes,
    Fault::ClausesAreLittleEndian,
];

/// A pending store, and how many times its thread had been at a WFENCE before.
#[derive(Clone, Copy, Debug)]
struct Store {
    wfences: u32,
    variable: usize,
    value: u16,
}

#[derive(Clone, Debug)]
struct Thread {
    place: usize,
    registers: [u16; 4],
    /// In the order in which they were issued.
    stores: Vec<Store>,
    wfences: u32,
    /// Of the newest store that there has been.
    wfences_before_newest: u32,
}

/// Groups are nowhere: they follow from what each store has behind it.
#[derive(Clone, Debug)]
struct Machine<'a> {
    job: &'a Job,
    fault: Option<Fault>,
    memory: Vec<u16>,
    threads: Vec<Thread>,
}

impl<'a> Machine<'a> {
    fn start(job: &'a Job, fault: Option<Fault>) -> Machine<'a> {
        let thread = Thread {
            place: 0,
            registers: [0; 4],
            stores: Vec::new(),
            wfences: 0,
            wfences_before_newest: 0,
        };
        Machine {
            job,
            fault,
            memory: job.initial.clone(),
            threads: vec![thread; job.programs.len()],
        }
    }

    fn has(&self, fault: Fault) -> bool {
        self.fault == Some(fault)
    }

    /// 0 if the step may be taken.
    fn reason(&self, number: u8) -> u8 {
        let [threads, variables] = [self.threads.len(), self.memory.len()];
        match number {
            0..=3 => match self.threads.get(usize::from(number)) {
                None => 1,
                Some(thread) => self.reason_to_execute(usize::from(number), thread),
            },
            4..=35 => {
                let [thread, variable] = [(number - 4) / 8, (number - 4) % 8].map(usize::from);
                match thread < threads && variable < variables {
                    true => self.reason_to_flush(&self.threads[thread], variable),
                    false => 1,
                }
            }
            36..=255 => 1,
        }
    }

    fn reason_to_execute(&self, number: usize, thread: &Thread) -> u8 {
        let pending = thread.stores.len();
        let newest = thread.stores.last().map(|store| store.wfences);
        let in_newest = thread.stores.iter();
        let in_newest = in_newest.filter(|store| Some(store.wfences) == newest);
        let counted = match self.has(Fault::RoomForEachGroup) {
            true if newest != Some(thread.wfences) => 0,
            true => in_newest.count(),
            false => pending,
        };
        let is_full = self.job.model != Model::Sc && counted >= self.job.capacity;
        let or_empty = |waits: bool, reason: u8| if waits && pending > 0 { reason } else { 0 };
        match self.job.programs[number].get(thread.place) {
            None => 2,
            Some(Instruction::StoreRegister { .. } | Instruction::StoreConstant { .. }) => {
                if is_full {
                    3
                } else {
                    0
                }
            }
            Some(Instruction::Fence | Instruction::Exchange { .. }) => or_empty(true, 4),
            Some(&Instruction::CompareExchange {
                register, variable, ..
            }) => match self.fault {
                Some(Fault::CmpxDoesNotWait) => 0,
                Some(Fault::CmpxWaitsForRoom) => or_empty(is_full, 3),
                Some(Fault::CmpxWaitsOnlyIfItTakes) => {
                    or_empty(thread.registers[register] == self.memory[variable], 4)
                }
                _ => or_empty(true, 4),
            },
            Some(Instruction::StoreFence) => match self.fault {
                Some(Fault::WfenceWaitsForRoom) => or_empty(is_full, 3),
                Some(Fault::WfenceWaitsForAnEmptyBuffer) => or_empty(true, 4),
                _ => 0,
            },
            Some(
                Instruction::Set { .. }
                | Instruction::Add { .. }
                | Instruction::Load { .. }
                | Instruction::JumpIfEqual { .. }
                | Instruction::Jump { .. },
            ) => 0,
        }
    }

    fn reason_to_flush(&self, thread: &Thread, variable: usize) -> u8 {
        let is_pending = thread.stores.iter().any(|store| store.variable == variable);
        let oldest_of_all = thread.stores.first().map(|store| store.variable);
        match (is_pending, self.next_to(thread, variable)) {
            (_, Some(_)) => 0,
            (true, None) if self.has(Fault::LaterGroupsHaveNothingToFlush) => {
                match self.job.model {
                    Model::Pso => 5,
                    Model::Sc | Model::Tso => 6,
                }
            }
            (true, None) => 6,
            (false, None) => {
                let beside = self.job.model == Model::Pso && oldest_of_all.is_some();
                match self.has(Fault::NowhereIsNotTheOldest) && beside {
                    true => 6,
                    false => 5,
                }
            }
        }
    }

    /// Which of the stores a flush to the variable takes.
    fn next_to(&self, thread: &Thread, variable: usize) -> Option<usize> {
        let stores = &thread.stores;
        let to_variable = |store: &Store| store.variable == variable;
        match self.job.model {
            Model::Sc => None,
            Model::Tso => to_variable(stores.first()?).then_some(0),
            Model::Pso => {
                let group = match self.fault {
                    Some(Fault::OnlyTheNewestGroupFlushes) => stores.last()?.wfences,
                    _ => stores.first()?.wfences,
                };
                let any = self.has(Fault::LaterGroupsFlush);
                stores
                    .iter()
                    .position(|store| to_variable(store) && (any || store.wfences == group))
            }
        }
    }

    /// The machine after a step that has no reason.
    fn after(&self, number: u8) -> Machine<'a> {
        let mut next = self.clone();
        if number < 4 {
            next.execute(usize::from(number));
        } else {
            let [thread, variable] = [(number - 4) / 8, (number - 4) % 8].map(usize::from);
            let at = self.next_to(&self.threads[thread], variable);
            let at = at.expect("a flush that has no reason takes a store");
            let own = &mut next.threads[thread];
            let store = own.stores.remove(at);
            next.memory[variable] = match self.fault {
                Some(Fault::FlushLosesTheHighByte) => low(store.value),
                Some(Fault::FlushKeepsTheHighByte) => {
                    high(next.memory[variable]) | low(store.value)
                }
                _ => store.value,
            };
            if self.has(Fault::WfenceEndsAtAnyFlush) && !own.stores.is_empty() {
                own.wfences = own.wfences_before_newest;
            }
        }
        next
    }

    fn execute(&mut self, number: usize) {
        let instruction = self.job.programs[number][self.threads[number].place];
        let fault = self.fault;
        let (model, capacity) = (self.job.model, self.job.capacity);
        let thread = &mut self.threads[number];
        thread.place += 1;
        match instruction {
            Instruction::Set { register, value } => thread.registers[register] = value,
            Instruction::Add { register, value } => {
                let held = thread.registers[register];
                thread.registers[register] = added(fault, self.job.version, held, value);
            }
            Instruction::Load { register, variable } => {
                let own = seen(thread, variable, fault);
                let before = thread.registers[register];
                let value = own.unwrap_or(self.memory[variable]);
                thread.registers[register] = match fault {
                    Some(Fault::LoadLosesTheHighByte) => low(value),
                    Some(Fault::LoadKeepsTheHighByte) => high(before) | low(value),
                    Some(Fault::OwnLoadLosesTheHighByte) if own.is_some() => low(value),
                    _ => value,
                };
            }
            Instruction::StoreRegister { register, variable } => {
                let value = match fault {
                    Some(Fault::StoreLosesTheHighByte) => low(thread.registers[register]),
                    _ => thread.registers[register],
                };
                self.store(number, variable, value);
            }
            Instruction::StoreConstant { variable, value } => self.store(number, variable, value),
            Instruction::Fence => {}
            Instruction::Exchange { register, variable } => {
                let [held, before] = [thread.registers[register], self.memory[variable]];
                let [got, left] = match fault {
                    Some(Fault::ExchangeLosesTheHighByte) => [low(before), held],
                    Some(Fault::ExchangeKeepsTheHighBytes) => {
                        [high(held) | low(before), high(before) | low(held)]
                    }
                    _ => [before, held],
                };
                thread.registers[register] = got;
                self.memory[variable] = left;
            }
            Instruction::CompareExchange {
                register,
                variable,
                value,
            } => {
                let own = thread.registers[register];
                let (memory, taken) = compared(fault, self.memory[variable], own, value);
                self.memory[variable] = memory;
                thread.registers[register] = taken;
            }
            Instruction::StoreFence => {
                let is_full = thread.stores.len() == capacity;
                let passed_over = match fault {
                    Some(Fault::WfenceDoesNothing) => true,
                    Some(Fault::WfenceIsPassedOverOnAFullBuffer) => is_full,
                    _ => false,
                };
                let keeps_apart = match fault {
                    Some(Fault::WfenceKeepsApartUnderTso) => model != Model::Sc,
                    _ => model == Model::Pso,
                };
                if keeps_apart && !passed_over {
                    thread.wfences += 1;
                }
            }
            Instruction::JumpIfEqual {
                register,
                target,
                value,
            } => {
                let held = thread.registers[register];
                let equal = match fault {
                    Some(Fault::JeqComparesLowBytes) => low(held) == low(value),
                    Some(Fault::JeqComparesHighBytes) => high(held) == high(value),
                    Some(Fault::JeqComparesWithTheLowByte) => held == low(value),
                    _ => held == value,
                };
                if equal {
                    thread.place = target;
                }
            }
            Instruction::Jump { target } => thread.place = target,
        }
    }

    fn store(&mut self, number: usize, variable: usize, value: u16) {
        if self.job.model == Model::Sc {
            self.memory[variable] = value;
            return;
        }
        let stays = self.has(Fault::WfenceStaysWhenAStoreJoins);
        let is_alone = self.has(Fault::EveryStoreBehindAWfenceIsAlone);
        let thread = &mut self.threads[number];
        thread.stores.push(Store {
            wfences: thread.wfences,
            variable,
            value,
        });
        thread.wfences_before_newest = thread.wfences;
        let oldest = thread.stores[0].wfences;
        if (stays || is_alone) && thread.wfences > oldest {
            thread.wfences += 1;
        }
        if is_alone {
            // The next store begins a group, but no WFENCE is seen to stand.
            thread.wfences_before_newest = thread.wfences;
        }
    }

    fn slot(&self) -> Vec<u8> {
        let mut slot = vec![0; 152];
        let of_values = |values: &[u16], loses_high: bool| -> Vec<u8> {
            let bytes = values.iter().flat_map(|&value| match loses_high {
                true => self.in_slot(low(value)),
                false => self.in_slot(value),
            });
            bytes.collect()
        };
        for (number, thread) in self.threads.iter().enumerate() {
            slot[number] = thread.place as u8;
            let loses_high = self.has(Fault::RegistersLoseTheHighByte);
            let registers = of_values(&thread.registers, loses_high);
            slot[4 + 8 * number..12 + 8 * number].copy_from_slice(&registers);
            let buffer = self.buffer(thread);
            let first = 52 + 25 * number;
            slot[first..first + buffer.len()].copy_from_slice(&buffer);
        }
        let memory = of_values(&self.memory, self.has(Fault::MemoryLosesTheHighByte));
        slot[36..36 + memory.len()].copy_from_slice(&memory);
        slot
    }

    fn in_slot(&self, value: u16) -> [u8; 2] {
        let [first, second] = [(value / 256) as u8, (value % 256) as u8];
        match self.fault {
            Some(Fault::SlotsAreLittleEndian) => [second, first],
            _ => [first, second],
        }
    }

    fn buffer(&self, thread: &Thread) -> Vec<u8> {
        let stores = &thread.stores;
        let oldest = stores.first().map_or(0, |store| store.wfences);
        let present: BTreeSet<u32> = stores.iter().map(|store| store.wfences).collect();
        let group = |store: &Store| {
            let ranked = present.iter().position(|&wfences| wfences == store.wfences);
            let number = match self.fault {
                Some(Fault::GroupsCountWfences) => store.wfences - oldest,
                Some(Fault::GroupsAreNotRenumbered) => store.wfences,
                Some(Fault::GroupsAreNotWritten) => 0,
                _ => ranked.unwrap_or(0) as u32,
            };
            (number % 16) as u8
        };
        let mut order: Vec<&Store> = stores.iter().collect();
        // A sort keeps the order of issue where the keys are equal.
        if self.job.model == Model::Pso {
            match self.fault {
                Some(Fault::PairsByVariableFirst) => {
                    order.sort_by_key(|store| (store.variable, store.wfences));
                }
                Some(Fault::PairsByAgeInAGroup) => order.sort_by_key(|store| store.wfences),
                _ => order.sort_by_key(|store| (store.wfences, store.variable)),
            }
        }
        let stands = thread.wfences > thread.wfences_before_newest;
        let is_seen = match self.fault {
            Some(Fault::WfenceIsNotWritten) => false,
            Some(Fault::WfenceIsWrittenOnAnEmptyBuffer) => stands,
            Some(Fault::WfenceStaysWhenTheBufferEmpties) => {
                stands && (!stores.is_empty() || thread.wfences_before_newest > 0)
            }
            _ => stands && !stores.is_empty(),
        };
        let mut bytes = vec![stores.len() as u8 + if is_seen { 128 } else { 0 }];
        for store in order {
            let sign = store.variable as u8 | group(store) << 4;
            let [first, second] = self.in_slot(store.value);
            bytes.extend(match self.fault {
                Some(Fault::PendingIsLittleEndian) => [sign, second, first],
                Some(Fault::PendingLosesTheHighByte) => [sign, 0, second],
                Some(Fault::PendingValuesStandFirst) => [first, second, sign],
                _ => [sign, first, second],
            });
        }
        bytes
    }

    fn is_goal(&self) -> bool {
        let drained = self.threads.iter().all(|thread| thread.stores.is_empty());
        let holds = |clause: &Clause| match *clause {
            Clause::Place { thread, place } => self.threads[thread].place == place,
            Clause::Register {
                thread,
                register,
                value,
            } => {
                let held = self.threads[thread].registers[register];
                match self.fault {
                    Some(Fault::RegisterClausesCompareLowBytes) => low(held) == low(value),
                    Some(Fault::RegisterClausesCompareHighBytes) => high(held) == high(value),
                    _ => held == value,
                }
            }
            Clause::Memory { variable, value } => {
                let held = self.memory[variable];
                match self.fault {
                    Some(Fault::MemoryClausesCompareLowBytes) => low(held) == low(value),
                    Some(Fault::MemoryClausesCompareHighBytes) => high(held) == high(value),
                    _ => held == value,
                }
            }
        };
        (drained || !self.job.goal.buffers_empty) && self.job.goal.clauses.iter().all(holds)
    }
}

/// The value with 0 for its high byte.
fn low(value: u16) -> u16 {
    value % 256
}

/// The value with 0 for its low byte.
fn high(value: u16) -> u16 {
    value - value % 256
}

/// What an ADD leaves.
fn added(fault: Option<Fault>, version: u8, held: u16, value: u16) -> u16 {
    let by_bytes = |value: u16| value.to_be_bytes();
    let [[held_high, held_low], [high_byte, low_byte]] = [by_bytes(held), by_bytes(value)];
    let low_sum = held_low.wrapping_add(low_byte);
    match (fault, version) {
        (Some(Fault::AddNeverWrapsAt256), _) => held.wrapping_add(value),
        // A value of these versions has no high byte.
        (_, 1 | 2) => low_sum.into(),
        (Some(Fault::AddWrapsAt256), _) => low_sum.into(),
        (Some(Fault::AddKeepsTheHighByte), _) => u16::from_be_bytes([held_high, low_sum]),
        (Some(Fault::AddCarriesNothing), _) => {
            u16::from_be_bytes([held_high.wrapping_add(high_byte), low_sum])
        }
        (Some(Fault::AddStopsAtTheMost), _) => held.saturating_add(value),
        (_, _) => held.wrapping_add(value),
    }
}

/// The job as a decoder with this fault has it.
fn misread(mut job: Job, fault: Option<Fault>) -> Job {
    let fault = match fault {
        Some(fault) => fault,
        None => return job,
    };
    let whole_file = fault == Fault::TheFileIsLittleEndian;
    for value in &mut job.initial {
        *value = match fault {
            Fault::InitialValuesLoseTheHighByte => low(*value),
            Fault::InitialValuesAreLittleEndian | Fault::TheFileIsLittleEndian => {
                value.swap_bytes()
            }
            _ => *value,
        };
    }
    for instruction in job.programs.iter_mut().flatten() {
        let little_endian = whole_file || fault == Fault::InstructionsAreLittleEndian;
        let loses_high = match instruction {
            Instruction::Set { .. } => fault == Fault::SetLosesTheHighByte,
            Instruction::StoreConstant { .. } => fault == Fault::StorekLosesTheHighByte,
            _ => false,
        };
        if let Instruction::Set { value, .. }
        | Instruction::Add { value, .. }
        | Instruction::StoreConstant { value, .. }
        | Instruction::JumpIfEqual { value, .. }
        | Instruction::CompareExchange { value, .. } = instruction
        {
            if little_endian {
                *value = value.swap_bytes();
            }
            if loses_high {
                *value = low(*value);
            }
        }
    }
    for clause in &mut job.goal.clauses {
        if let Clause::Register { value, .. } | Clause::Memory { value, .. } = clause {
            if whole_file || fault == Fault::ClausesAreLittleEndian {
                *value = value.swap_bytes();
            }
        }
    }
    job
}

/// The own pending store that a load takes.
fn seen(thread: &Thread, variable: usize, fault: Option<Fault>) -> Option<u16> {
    let stores = &thread.stores;
    let ends = [stores.first()?, stores.last()?].map(|store| store.wfences);
    let mut to_variable: Vec<&Store> = stores.iter().filter(|s| s.variable == variable).collect();
    match fault {
        Some(Fault::LoadsFromTheOldestGroup) => to_variable.retain(|s| s.wfences == ends[0]),
        Some(Fault::LoadsFromTheNewestGroup) => to_variable.retain(|s| s.wfences == ends[1]),
        Some(Fault::LoadsTheOldest) => to_variable.truncate(1),
        _ => {}
    }
    to_variable.last().map(|store| store.value)
}

/// What memory and the register hold behind a CMPX.
fn compared(fault: Option<Fault>, memory: u16, register: u16, value: u16) -> (u16, u16) {
    let takes = match fault {
        Some(Fault::CmpxComparesLowBytes) => low(memory) == low(register),
        Some(Fault::CmpxComparesHighBytes) => high(memory) == high(register),
        _ => memory == register,
    };
    let right = (if takes { value } else { memory }, memory);
    match fault {
        Some(Fault::CmpxAlwaysWrites) => (value, memory),
        Some(Fault::CmpxNeverWrites) => (memory, memory),
        Some(Fault::CmpxWritesWhereItDiffers) => (if takes { memory } else { value }, memory),
        Some(Fault::CmpxTakesTheValueOnlyIfItWrites) => {
            (right.0, if takes { memory } else { register })
        }
        Some(Fault::CmpxTakesTheValueOnlyIfItDoesNotWrite) => {
            (right.0, if takes { value } else { memory })
        }
        Some(Fault::CmpxExchanges) => (register, memory),
        Some(Fault::CmpxTakesTheNewValue) => (right.0, right.0),
        Some(Fault::CmpxWritesTheLowByte) if takes => (low(value), memory),
        Some(Fault::CmpxTakesTheLowByte) => (right.0, low(memory)),
        _ => right,
    }
}

// ---- the right one agrees ----

/// Both machines on one walk: each reason of each state and each slot.
fn walk_both(job: &Job, schedule: &[u8]) -> usize {
    let mut state = State::start(job);
    let mut machine = Machine::start(job, None);
    for &number in schedule {
        assert_eq!(machine.slot(), state.slot());
        assert_eq!(machine.is_goal(), state.is_goal(job));
        for other in 0..=255 {
            let given = reason(job, &state, other).map_or(0, Reason::number);
            assert_eq!(machine.reason(other), given, "{other} in {state:?}");
        }
        match step(job, &state, number) {
            Ok(next) => state = next,
            Err(_) => break,
        }
        machine = machine.after(number);
    }
    assert_eq!(machine.slot(), state.slot());
    schedule.len()
}

#[test]
fn the_machine_without_groups_agrees_with_the_checker() {
    let mut random = Random::new(71);
    let mut steps = 0;
    for turn in 0..5_000 {
        let bytes = match turn % 5 {
            0 => sound_job_of(&mut random, 2),
            1 => version_two_replays::random_job(&mut random),
            2 => raised(&version_two_replays::random_job(&mut random)),
            _ => sound_job_of(&mut random, 3),
        };
        let schedule = stuck_schedule(&mut random, &bytes);
        steps += walk_both(&decode(&bytes).unwrap(), &schedule);
    }
    assert!(steps > 25_000, "{steps}");
    let of_both = [
        version_two_replays::all_known(),
        version_three_replays::all_known(),
    ];
    for (case, _) in of_both.concat() {
        if let Ok(job) = decode(&case.job) {
            walk_both(&job, &case.schedule[..case.schedule.len().min(40)]);
        }
    }
}

/// The slots of a search, first those of distance 0, 1 and so on, each in the order of first schedules.
fn slots(job: &Job, fault: Option<Fault>, room: usize) -> Vec<Vec<u8>> {
    let job = &misread(job.clone(), fault);
    let start = Machine::start(job, fault);
    let mut known = BTreeSet::from([start.slot()]);
    let mut found = vec![start];
    let mut next = 0;
    // States are met in the order that a search counts them in: by the state before, then by the step.
    while next < found.len() && found.len() < room {
        for number in 0..36 {
            if found[next].reason(number) == 0 {
                let after = found[next].after(number);
                if known.insert(after.slot()) {
                    found.push(after);
                }
            }
        }
        next += 1;
    }
    found.truncate(room);
    found.iter().map(Machine::slot).collect()
}

/// Jobs of this version among the search cases that count every state in the room there is, each once.
fn searched_jobs(version: u8) -> Vec<(Job, usize)> {
    let mut jobs = BTreeMap::new();
    for case in search_cases::all() {
        let lines = search_cases::lines(&case);
        if let Some(states) = lines.lines().next().unwrap().strip_prefix("UNREACHABLE ") {
            jobs.insert(case.job, states.parse().unwrap());
        }
    }
    let decoded = jobs
        .into_iter()
        .map(|(job, states)| (decode(&job).unwrap(), states));
    let of_version = decoded.filter(|(job, states)| job.version == version && *states <= 120);
    of_version.collect()
}

#[test]
fn searches_have_the_slots_of_the_machine_without_groups() {
    let of_each = [2, 3].map(searched_jobs);
    for jobs in &of_each {
        assert!(jobs.len() > 80, "{}", jobs.len());
    }
    for (job, states) in of_each.concat() {
        let expected = slots(&job, None, usize::MAX);
        assert_eq!(expected.len(), states);
        let mut state_slots = vec![State::start(&job)];
        let mut next = 0;
        while next < state_slots.len() {
            for number in 0..36 {
                if let Ok(after) = step(&job, &state_slots[next], number) {
                    if !state_slots.contains(&after) {
                        state_slots.push(after);
                    }
                }
            }
            next += 1;
        }
        let given: Vec<Vec<u8>> = state_slots.iter().map(State::slot).collect();
        assert_eq!(given, expected);
    }
}

// ---- the wrong ones do not ----

fn line_by(fault: Option<Fault>, case: &Case) -> Option<String> {
    let job = misread(decode(&case.job).ok()?, fault);
    let mut machine = Machine::start(&job, fault);
    for (at, &number) in case.schedule.iter().enumerate() {
        match machine.reason(number) {
            0 => machine = machine.after(number),
            reason => return Some(format!("STUCK {at} {reason}")),
        }
    }
    let line = match machine.is_goal() {
        true => "REACHES",
        false => "FALLS SHORT",
    };
    Some(line.to_string())
}

/// How many of the accepted cases a machine with this fault has another line for.
fn errors(fault: Option<Fault>, cases: &[Known]) -> usize {
    let mut cases = cases.iter();
    let wrong = cases
        .by_ref()
        .filter(|(case, line)| line_by(fault, case).map_or(false, |given| given != *line));
    wrong.count()
}

/// That the cases tell each machine with one of these faults, unless only slots show it.
fn assert_told_by_replays(faults: &[Fault], cases: &[Known]) {
    assert_eq!(errors(None, cases), 0);
    for &fault in faults {
        let count = errors(Some(fault), cases);
        let is_seen = !OF_SLOTS.contains(&fault);
        assert!(!is_seen || count >= 3, "{fault:?} {count}");
        assert!(is_seen || count == 0, "{fault:?} {count}");
    }
}

#[test]
fn known_replays_tell_every_wrong_machine_but_by_its_slots() {
    assert_told_by_replays(&FAULTS, &version_two_replays::pinned());
}

#[test]
fn known_replays_of_version_3_tell_wrong_values_and_what_is_wrong_in_version_2() {
    let mut cases = version_three_replays::pinned();
    // What is seen in a few steps has to be seen there.
    cases.retain(|(case, _)| case.schedule.len() < 100);
    assert_told_by_replays(&FAULTS_OF_VALUES, &cases);
    assert_told_by_replays(&FAULTS, &version_three_replays::all_known());
}

#[test]
fn known_replays_tell_a_machine_that_adds_modulo_65536_in_versions_1_and_2() {
    let fault = Some(Fault::AddNeverWrapsAt256);
    let mut cases = replay_cases::all_known();
    cases.retain(|(case, _)| decode(&case.job).map_or(false, |job| job.version < 3));
    assert_eq!(errors(None, &cases), 0);
    assert!(errors(fault, &cases) >= 10, "{}", errors(fault, &cases));
}

#[test]
fn searches_tell_every_wrong_machine_but_by_its_reasons() {
    assert_told_by_searches(&FAULTS, 2);
}

#[test]
fn searches_of_version_3_tell_wrong_values_but_by_their_goals() {
    assert_told_by_searches(&FAULTS_OF_VALUES, 3);
}

fn assert_told_by_searches(faults: &[Fault], version: u8) {
    let jobs = searched_jobs(version);
    for &fault in faults {
        let not_of_slots = [
            &[
                Fault::LaterGroupsHaveNothingToFlush,
                Fault::NowhereIsNotTheOldest,
            ][..],
            &OF_GOALS,
        ]
        .concat();
        let mut wrong = jobs.iter().filter(|(job, states)| {
            let right = slots(job, None, usize::MAX);
            // A wrong machine may go on for ever, so that its groups are counted on and on.
            slots(job, Some(fault), states + 1) != right
        });
        let count = wrong.by_ref().take(3).count();
        let is_seen = !not_of_slots.contains(&fault);
        assert!(!is_seen || count >= 3, "{fault:?} {count}");
        assert!(is_seen || count == 0, "{fault:?} {count}");
    }
}

// ---- fence checks ----

type Check = fn(&Job) -> Option<OpenPair>;

fn least(job: &Job) -> Option<OpenPair> {
    open_pairs(job).into_iter().next()
}

const A_LOAD: Instruction = Instruction::Load {
    register: 0,
    variable: 0,
};
const A_STORE: Instruction = Instruction::StoreConstant {
    variable: 0,
    value: 1,
};

const WRONG_CHECKS: [(&str, Check); 7] = [
    ("WFENCE is a fence", |job| {
        least(&with(job, is_wfence, Instruction::Fence))
    }),
    ("WFENCE is a store", |job| {
        least(&with(job, is_wfence, A_STORE))
    }),
    ("WFENCE is a load", |job| {
        least(&with(job, is_wfence, A_LOAD))
    }),
    ("CMPX is no fence", |job| {
        least(&with(job, is_compare_exchange, Instruction::StoreFence))
    }),
    ("CMPX is a store", |job| {
        least(&with(job, is_compare_exchange, A_STORE))
    }),
    ("CMPX is a load", |job| {
        least(&with(job, is_compare_exchange, A_LOAD))
    }),
    ("CMPX and WFENCE exchanged", |job| {
        let marked = with(job, is_wfence, Instruction::Fence);
        least(&with(&marked, is_compare_exchange, Instruction::StoreFence))
    }),
];

#[test]
fn fence_cases_tell_every_wrong_check() {
    let [of_two, of_three] = [
        version_two_fences::all_known(),
        version_three_fences::all_known(),
    ]
    .map(|known| known.into_iter().map(|(job, _)| job).collect());
    let random = [
        version_two_fences::random_jobs(),
        version_three_fences::random_jobs(),
    ];
    for jobs in [of_two, of_three].into_iter().chain(random) {
        let jobs: Vec<Job> = jobs.iter().filter_map(|job| decode(job).ok()).collect();
        for (name, check) in WRONG_CHECKS {
            let wrong = jobs.iter().filter(|job| check(job) != least(job)).count();
            assert!(wrong >= 5, "{name} {wrong}");
        }
    }
}
