//! Files that mean the same in both versions of the job file.

use second::listed::in_version;
use second::version_two;

/// Where a file says its version.
pub const VERSION_AT: usize = 2;

/// The other version of a file that says 1 or 2, if it means the same there: only CMPX and WFENCE, met before any other fault, are something else.
pub fn other_version(job: &[u8]) -> Option<u8> {
    let other = match job.get(VERSION_AT)? {
        1 => 2,
        2 => 1,
        _ => return None,
    };
    let of_one = version_two::of_job(&in_version(job, 1));
    (!of_one.contains(&version_two::IN_VERSION_ONE)).then_some(other)
}

#[cfg(test)]
mod tests {
    use super::*;
    use second::listed::{settled, with_byte, P1};

    fn of_both(job: &[u8]) -> [Option<u8>; 2] {
        [1, 2].map(|version| other_version(&in_version(job, version)))
    }

    #[test]
    fn a_file_without_the_new_operations_is_of_both_versions() {
        assert_eq!(of_both(&P1), [Some(2), Some(1)]);
        // A bad model, operation 12, and a byte left over.
        assert_eq!(of_both(&with_byte(&P1, 3, 3)), [Some(2), Some(1)]);
        assert_eq!(of_both(&with_byte(&P1, 10, 12)), [Some(2), Some(1)]);
        let longer = settled([&P1[..], &[0]].concat());
        assert_eq!(of_both(&longer), [Some(2), Some(1)]);
        assert_eq!(of_both(&[0, 1, 1]), [Some(2), Some(1)]);
    }

    #[test]
    fn a_new_operation_is_of_one_version_unless_another_fault_comes_first() {
        for op in [10, 11] {
            assert_eq!(of_both(&with_byte(&P1, 10, op)), [None, None]);
            let behind_a_fault = with_byte(&with_byte(&P1, 10, op), 4, 9);
            assert_eq!(of_both(&behind_a_fault), [Some(2), Some(1)]);
        }
    }

    #[test]
    fn another_version_or_none_has_no_other() {
        for version in [0, 3, 4, 255] {
            assert_eq!(other_version(&in_version(&P1, version)), None);
        }
        assert_eq!(other_version(&[]), None);
        assert_eq!(other_version(&[0, 1]), None);
    }
}
