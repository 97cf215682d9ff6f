//! A second reachability checker for store buffers, written apart from the proved one.
//!
//! It favours plainness over memory: growing vectors, hash maps and explicit level sets.

pub mod bench;
pub mod buffer;
pub mod classes;
pub mod dead_code;
pub mod dead_code_cases;
pub mod fence_cases;
pub mod fences;
pub mod hex;
pub mod index;
pub mod index_cases;
pub mod job;
pub mod job_cases;
pub mod job_folder;
pub mod listed;
pub mod long_threads;
pub mod machine;
pub mod random;
pub mod reason_cases;
pub mod reasons;
pub mod replay;
pub mod replay_cases;
pub mod search;
pub mod search_cases;
pub mod version_three;
pub mod version_three_fences;
pub mod version_three_jobs;
pub mod version_three_replays;
pub mod version_two;
pub mod version_two_fences;
pub mod version_two_jobs;
pub mod version_two_replays;

pub use bench::bench_lines;
pub use fences::fences;
pub use job::{decode, Job, Refusal};
pub use replay::replay;
pub use search::{search, search_indexed};
