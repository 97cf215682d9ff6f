//! One call of a public job, with all the memory that it sees.

use crate::fill::Fill;
use crate::lent::Lent;
use second::index;
use second::random::{Random, Sizes};

#[derive(Clone, Copy, Debug, PartialEq, Eq)]
pub enum Kind {
    Search,
    /// The search with an index.
    Indexed,
    Replay,
    Fences,
}

/// What a kind doesn't use is lent with no cell; what it only reads is compared like the rest.
#[derive(Clone, Debug)]
pub struct Call {
    pub kind: Kind,
    pub job: Lent<u8>,
    pub table: Lent<u8>,
    pub links: Lent<u32>,
    pub schedule: Lent<u8>,
    pub index: Lent<u32>,
    pub answer: Lent<u64>,
}

const NOTHING: Sizes = Sizes {
    table: 0,
    links: 0,
    schedule: 0,
};

impl Call {
    pub fn search(random: &mut Random, job: &[u8], sizes: Sizes) -> Call {
        Call::sized(random, Kind::Search, job, sizes)
    }

    pub fn indexed(random: &mut Random, job: &[u8], lent: index::Lent, fill: Fill) -> Call {
        let mut call = Call::sized(random, Kind::Indexed, job, lent.sizes);
        let numbers = fill.numbers(random, lent.index);
        call.index = Lent::holding(random, &numbers);
        call
    }

    pub fn replay(random: &mut Random, job: &[u8], schedule: &[u8]) -> Call {
        let mut call = Call::sized(random, Kind::Replay, job, NOTHING);
        call.schedule = Lent::holding(random, schedule);
        call
    }

    pub fn fences(random: &mut Random, job: &[u8]) -> Call {
        Call::sized(random, Kind::Fences, job, NOTHING)
    }

    fn sized(random: &mut Random, kind: Kind, job: &[u8], sizes: Sizes) -> Call {
        Call {
            kind,
            job: Lent::holding(random, job),
            table: Lent::random(random, sizes.table),
            links: Lent::random(random, sizes.links),
            schedule: Lent::random(random, sizes.schedule),
            index: Lent::none(),
            answer: Lent::random(random, 4),
        }
    }

    /// True when a search of an accepted job would be refusal 7.
    pub fn has_no_slot(&self) -> bool {
        match self.kind {
            Kind::Indexed => self.lent().slots() == 0,
            Kind::Search | Kind::Replay | Kind::Fences => self.lent().slots_without_index() == 0,
        }
    }

    /// How much is lent, the index included.
    pub fn lent(&self) -> index::Lent {
        let sizes = Sizes {
            table: self.table.count(),
            links: self.links.count(),
            schedule: self.schedule.count(),
        };
        index::Lent {
            sizes,
            index: self.index.count(),
        }
    }

    pub fn is_refused(&self) -> bool {
        self.words()[0] == 0
    }

    pub fn words(&self) -> [u64; 4] {
        let answer = self.answer.part();
        [answer[0], answer[1], answer[2], answer[3]]
    }
}

/// Whoever answers calls: the library, the second checker, or a stand-in that errs.
pub trait Checker: Sync {
    fn run(&self, call: &mut Call);
}

pub struct Second;

impl Checker for Second {
    fn run(&self, call: &mut Call) {
        let job = call.job.part();
        let words = match call.kind {
            Kind::Search => second::search(
                job,
                call.table.part_mut(),
                call.links.part_mut(),
                call.schedule.part_mut(),
            ),
            Kind::Indexed => second::search_indexed(
                job,
                call.table.part_mut(),
                call.links.part_mut(),
                call.schedule.part_mut(),
                call.index.part(),
            ),
            Kind::Replay => second::replay(job, call.schedule.part()),
            Kind::Fences => second::fences(job),
        };
        call.answer.part_mut().copy_from_slice(&words);
    }
}
