//! Files about as long as their version byte lets a file be: refusal 1 looks at it before the version is judged.

use crate::versions::VERSION_AT;
use second::job::{longest_file, VERSIONS};

/// By length and version byte, with a right length field, so that nothing but the length can be at fault by refusal 1.
pub const OF_FILES: [&str; 13] = [
    "1109 in version 1",
    "1110 in version 1",
    "1389 in version 1",
    "1109 in version 2",
    "1110 in version 2",
    "1389 in version 2",
    "1110 in version 3",
    "1388 in version 3",
    "1389 in version 3",
    "1390 in version 3",
    "1109 in no version",
    "1110 in no version",
    "1389 in no version",
];

/// The lengths at the edges of both limits.
pub fn edges() -> [usize; 6] {
    let [narrow, wide] = [1, 3].map(longest_file);
    [narrow - 1, narrow, narrow + 1, wide - 1, wide, wide + 1]
}

/// The class that a file is in, if it is in one.
pub fn of_file(job: &[u8]) -> Option<&'static str> {
    let version = *job.get(VERSION_AT)?;
    let said = usize::from(u16::from_be_bytes([job[0], job[1]]));
    if said != job.len() - 2 {
        return None;
    }
    let version = if VERSIONS.contains(&version) {
        format!("version {version}")
    } else {
        "no version".to_string()
    };
    let class = format!("{} in {version}", job.len());
    OF_FILES.into_iter().find(|&name| name == class)
}

#[cfg(test)]
mod tests {
    use super::*;
    use second::listed::with_byte;
    use second::version_three_jobs::of_length;

    #[test]
    fn the_names_say_length_and_version() {
        assert_eq!(edges(), [1108, 1109, 1110, 1388, 1389, 1390]);
        assert_eq!(of_file(&of_length(2, 1109)), Some("1109 in version 2"));
        assert_eq!(of_file(&of_length(3, 1390)), Some("1390 in version 3"));
        for version in [0, 4, 255] {
            let file = of_length(version, 1110);
            assert_eq!(of_file(&file), Some("1110 in no version"));
        }
    }

    #[test]
    fn other_files_are_in_none() {
        assert_eq!(of_file(&[]), None);
        assert_eq!(of_file(&[0, 1, 1]), None);
        assert_eq!(of_file(&of_length(1, 1108)), None);
        assert_eq!(of_file(&with_byte(&of_length(3, 1389), 1, 0)), None);
    }
}
