//! The tool for a folder of jobs: what it makes, and what it finds wrong.

mod common;
use common::P1;
use second::hex::from_hex;
use second::job_folder::{bytes_of, check, make};
use std::fs;
use std::path::PathBuf;

const P4_TEXT: &str = "# a thread loads what it has stored
00 19         # length
01            # version
01            # model
01            # C
01            # T
01            # V
00            # x
02            # thread 0
05 00 00 01   # 0: STOREK x = 1

03 00 00 00   # 1: LOAD r0 x
00            # flag
02            # K
01 00 00 02   # thread 0 is at place 2
02 00 00 00   # register 0 of thread 0 is 0
";
const P4_OUTPUT: &str = "UNREACHABLE 5\nOPEN 0 0 1\nRELEASE\n";

/// A folder of its own for one test, gone again afterwards.
struct Folder(PathBuf);

impl Folder {
    fn new(test: &str) -> Folder {
        let path = std::env::temp_dir().join(format!("jobs-{test}-{}", std::process::id()));
        fs::create_dir_all(&path).unwrap();
        Folder(path)
    }

    /// One job that is as it should be.
    fn with_own_store(test: &str) -> Folder {
        let folder = Folder::new(test);
        folder.write("own.txt", P4_TEXT);
        folder.write("own.out", P4_OUTPUT);
        make(&folder.0).unwrap();
        folder
    }

    fn write(&self, file: &str, content: impl AsRef<[u8]>) {
        fs::write(self.0.join(file), content).unwrap();
    }

    fn remove(&self, file: &str) {
        fs::remove_file(self.0.join(file)).unwrap();
    }

    /// The only fault that the check finds, without the folder's name.
    fn fault(&self) -> String {
        let faults = check(&self.0).unwrap_err();
        assert_eq!(faults.len(), 1, "{faults:?}");
        faults[0].replace(&format!("{}/", self.0.display()), "")
    }
}

impl Drop for Folder {
    fn drop(&mut self) {
        fs::remove_dir_all(&self.0).unwrap();
    }
}

fn faulty_lines(text: &str) -> Vec<usize> {
    let faults = bytes_of(text).unwrap_err();
    faults.iter().map(|fault| fault.line).collect()
}

#[test]
fn a_text_spells_its_bytes() {
    assert_eq!(bytes_of("").unwrap(), []);
    assert_eq!(bytes_of("# 01 02\n\n  \n").unwrap(), []);
    assert_eq!(bytes_of("00 01 # length\n02#version").unwrap(), [0, 1, 2]);
    assert_eq!(bytes_of("aB\tFf\r\n").unwrap(), [0xAB, 0xFF]);
    let p4 = from_hex("0019 01 01 01 01 01 00 02 05000001 03000000 00 02 01000002 02000000");
    assert_eq!(bytes_of(P4_TEXT).unwrap(), p4.unwrap());
}

#[test]
fn wrong_words_are_named_by_line() {
    assert_eq!(
        faulty_lines("00\n5\n# zz\nG0\n+1\n0x1\n001\nlength 00"),
        [2, 4, 5, 6, 7, 8]
    );
    let fault = &bytes_of("\n0 1").unwrap_err()[0];
    assert_eq!(
        (fault.line, fault.advice.as_str()),
        (
            2,
            "'0' is no byte; write two hex digits for each byte and '#' before a comment"
        )
    );
}

#[test]
fn an_accepted_job_has_one_item_a_line() {
    assert_eq!(faulty_lines(P1), [1]);
    let joined = P4_TEXT.replace("01            # T\n01            # V", "01 01");
    assert_eq!(faulty_lines(&joined), [6]);
    let split = P4_TEXT.replace("05 00 00 01", "05 00\n00 01");
    assert_eq!(faulty_lines(&split), [10]);
    // A refused job has no items to go by.
    assert_eq!(bytes_of("00 01 02").unwrap(), [0, 1, 2]);
}

#[test]
fn make_writes_only_what_changed() {
    let folder = Folder::new("make");
    folder.write("own.txt", P4_TEXT);
    folder.write("none.txt", "# no byte");
    let jobs = ["none.job", "own.job"].map(|job| folder.0.join(job));
    assert_eq!(make(&folder.0), Ok((2, jobs.to_vec())));
    assert_eq!(fs::read(&jobs[0]).unwrap(), []);
    assert_eq!(fs::read(&jobs[1]).unwrap(), bytes_of(P4_TEXT).unwrap());
    assert_eq!(make(&folder.0), Ok((2, vec![])));
    folder.write("none.job", "x");
    assert_eq!(make(&folder.0), Ok((2, jobs[..1].to_vec())));
}

#[test]
fn make_names_every_wrong_line_and_makes_the_rest() {
    let folder = Folder::new("make-faults");
    folder.write("a.txt", "00\nxx");
    folder.write("b.txt", "0 0");
    folder.write("own.txt", P4_TEXT);
    let faults = make(&folder.0).unwrap_err();
    assert_eq!(faults.len(), 2, "{faults:?}");
    assert!(faults[0].contains("a.txt:2: 'xx' is no byte"), "{faults:?}");
    assert!(faults[1].contains("b.txt:1: '0' is no byte"), "{faults:?}");
    assert!(!folder.0.join("a.job").exists());
    assert!(folder.0.join("own.job").exists());
}

#[test]
fn a_folder_without_jobs_is_a_fault() {
    let folder = Folder::new("none");
    folder.write("README.md", "");
    assert!(make(&folder.0).unwrap_err()[0].contains("has no jobs"));
    assert!(folder.fault().contains("has no jobs"));
    let nowhere = folder.0.join("nowhere");
    assert!(check(&nowhere).unwrap_err()[0].contains("cannot be listed"));
}

#[test]
fn check_passes_what_agrees() {
    let folder = Folder::with_own_store("agrees");
    folder.write("README.md", "other files do not count");
    assert_eq!(check(&folder.0), Ok(1));
}

#[test]
fn check_misses_each_of_the_three_files() {
    let folder = Folder::with_own_store("missing");
    folder.remove("own.out");
    assert!(folder.fault().starts_with("own.out: is missing; "));
    folder.write("own.out", P4_OUTPUT);
    folder.remove("own.job");
    assert!(folder.fault().starts_with("own.job: is missing; "));
    make(&folder.0).unwrap();
    folder.remove("own.txt");
    assert!(folder.fault().starts_with("own.txt: is missing; "));
}

#[test]
fn check_sees_a_job_that_is_not_its_text() {
    let folder = Folder::with_own_store("other-job");
    let commented = P4_TEXT.replace("# length", "# how many bytes follow");
    folder.write("own.txt", commented);
    assert_eq!(check(&folder.0), Ok(1));
    // The search does not see another initial value here, so only the comparison finds it.
    folder.write("own.txt", P4_TEXT.replace("00            # x", "07"));
    assert!(folder
        .fault()
        .starts_with("own.job: is not what own.txt says"));
    folder.write("own.txt", "0");
    assert!(folder.fault().starts_with("own.txt:1: '0' is no byte"));
}

#[test]
fn check_names_the_first_other_line_of_an_output() {
    let folder = Folder::with_own_store("other-output");
    let said = |output: &str, fault: &str| {
        folder.write("own.out", output);
        let advice = "; look which of the two is wrong";
        assert_eq!(folder.fault(), format!("own.out:{fault}{advice}"));
    };
    said(
        "UNREACHABLE 5\nFENCED\nRELEASE\n",
        "2: has 'FENCED', the second checker has 'OPEN 0 0 1'",
    );
    said(
        "UNREACHABLE 5\nOPEN 0 0 1\nRELEASE",
        "4: has no such line, the second checker has ''",
    );
    said(
        "UNREACHABLE 5\nOPEN 0 0 1\nRELEASE\n\n",
        "5: has '', the second checker has no such line",
    );
    said("", "1: has '', the second checker has 'UNREACHABLE 5'");
}
