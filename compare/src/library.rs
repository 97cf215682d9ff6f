//! The proved library, through its C functions.

use crate::call::{Call, Checker, Kind};

/// Declares the functions that every archive has, and a checker that calls them; each slice is a pointer and then a length, the answer is four words. What makes a search with an index is given, because not every archive has one.
macro_rules! archive {
    ($checker:ident, $search:ident, $replay:ident, $fences:ident, $search_indexed:ident) => {
        extern "C" {
            fn $search(
                job: *const u8,
                job_len: usize,
                table: *mut u8,
                table_len: usize,
                links: *mut u32,
                links_len: usize,
                schedule: *mut u8,
                schedule_len: usize,
                answer: *mut u64,
            );
            fn $replay(
                job: *const u8,
                job_len: usize,
                schedule: *const u8,
                schedule_len: usize,
                answer: *mut u64,
            );
            fn $fences(job: *const u8, job_len: usize, answer: *mut u64);
        }

        impl Checker for $checker {
            fn run(&self, call: &mut Call) {
                let (job, job_len) = (call.job.pointer(), call.job.count());
                let (schedule, schedule_len) = (call.schedule.pointer(), call.schedule.count());
                let answer = call.answer.pointer();
                // SAFETY: every pointer comes with the count of cells lent behind it, and the answer has four.
                unsafe {
                    match call.kind {
                        Kind::Search => $search(
                            job,
                            job_len,
                            call.table.pointer(),
                            call.table.count(),
                            call.links.pointer(),
                            call.links.count(),
                            schedule,
                            schedule_len,
                            answer,
                        ),
                        Kind::Indexed => $search_indexed(call),
                        Kind::Replay => $replay(job, job_len, schedule, schedule_len, answer),
                        Kind::Fences => $fences(job, job_len, answer),
                    }
                }
            }
        }
    };
}

extern "C" {
    fn handshake_search_indexed(
        job: *const u8,
        job_len: usize,
        table: *mut u8,
        table_len: usize,
        links: *mut u32,
        links_len: usize,
        schedule: *mut u8,
        schedule_len: usize,
        index: *mut u32,
        index_len: usize,
        answer: *mut u64,
    );
}

/// The library in a comparison, where it gets pointers into guarded memory.
pub struct Library;

archive!(
    Library,
    handshake_search,
    handshake_replay,
    handshake_fences,
    run_indexed
);

fn run_indexed(call: &mut Call) {
    // SAFETY: as for the others.
    unsafe {
        handshake_search_indexed(
            call.job.pointer(),
            call.job.count(),
            call.table.pointer(),
            call.table.count(),
            call.links.pointer(),
            call.links.count(),
            call.schedule.pointer(),
            call.schedule.count(),
            call.index.pointer(),
            call.index.count(),
            call.answer.pointer(),
        );
    }
}

/// The same of an earlier commit's archive.
#[cfg(feature = "before")]
pub struct Before;

#[cfg(feature = "before")]
archive!(
    Before,
    before_search,
    before_replay,
    before_fences,
    run_no_index
);

/// It may be of a commit from before request 6.
#[cfg(feature = "before")]
fn run_no_index(_: &mut Call) {
    panic!("an earlier archive is not asked for a search with an index");
}

/// A search over slices by one that was declared so, with an index or without.
macro_rules! search_by {
    ($name:ident, $job:ident, $table:ident, $links:ident, $schedule:ident $(, $index:ident)?) => {{
        let mut answer = [u64::MAX; 4];
        // SAFETY: every pointer comes with the length of its slice, and the answer has four words.
        unsafe {
            $name(
                $job.as_ptr(),
                $job.len(),
                $table.as_mut_ptr(),
                $table.len(),
                $links.as_mut_ptr(),
                $links.len(),
                $schedule.as_mut_ptr(),
                $schedule.len(),
                $($index.as_mut_ptr(), $index.len(),)?
                answer.as_mut_ptr(),
            );
        }
        answer
    }};
}

/// Answers 0,number,offset,0 | 1,d,states,0 | 2,states,0,0 | 3,N,0,0 and fills the lent buffers.
pub fn search(job: &[u8], table: &mut [u8], links: &mut [u32], schedule: &mut [u8]) -> [u64; 4] {
    search_by!(handshake_search, job, table, links, schedule)
}

/// The same with an index, half of whose length N is then also at most; after a refusal it is as it was, after an answer anything may stand there.
pub fn search_indexed(
    job: &[u8],
    table: &mut [u8],
    links: &mut [u32],
    schedule: &mut [u8],
    index: &mut [u32],
) -> [u64; 4] {
    search_by!(handshake_search_indexed, job, table, links, schedule, index)
}

/// The plain search as an earlier commit's archive has it.
#[cfg(feature = "before")]
pub fn search_before(
    job: &[u8],
    table: &mut [u8],
    links: &mut [u32],
    schedule: &mut [u8],
) -> [u64; 4] {
    search_by!(before_search, job, table, links, schedule)
}

/// Answers 0,number,offset,0 | 1,0,0,0 reaches | 2,0,0,0 falls short | 3,i,reason,0 stuck at i, by a reason from 1 to 6.
pub fn replay(job: &[u8], schedule: &[u8]) -> [u64; 4] {
    let mut answer = [u64::MAX; 4];
    // SAFETY: as above.
    unsafe {
        handshake_replay(
            job.as_ptr(),
            job.len(),
            schedule.as_ptr(),
            schedule.len(),
            answer.as_mut_ptr(),
        );
    }
    answer
}

/// Answers 0,number,offset,0 | 1,0,0,0 FENCED | 2,thread,store,load OPEN.
pub fn fences(job: &[u8]) -> [u64; 4] {
    let mut answer = [u64::MAX; 4];
    // SAFETY: as above.
    unsafe { handshake_fences(job.as_ptr(), job.len(), answer.as_mut_ptr()) };
    answer
}
