//! A folder of jobs: NAME.txt for people, NAME.job for the bench program, NAME.out what that prints.

use crate::bench::bench_lines;
use crate::job::{decode, Job};
use std::collections::BTreeSet;
use std::fs;
use std::io::ErrorKind;
use std::path::{Path, PathBuf};

const EXTENSIONS: [&str; 3] = ["txt", "job", "out"];

/// One sentence each: where, what is wrong, and what to do about it.
pub type Faults = Vec<String>;

/// A line of a text that cannot stand, and what to do about it.
#[derive(Clone, Debug, PartialEq, Eq)]
pub struct LineFault {
    /// Counted from 1, as editors do.
    pub line: usize,
    pub advice: String,
}

/// The bytes that a text spells: two hex digits each, the rest of a line from '#' on is for people.
pub fn bytes_of(text: &str) -> Result<Vec<u8>, Vec<LineFault>> {
    let mut bytes = Vec::new();
    let mut items = Vec::new();
    let mut faults = Vec::new();
    for (index, content) in text.lines().enumerate() {
        let line = index + 1;
        match line_bytes(content) {
            Ok(spelled) if spelled.is_empty() => {}
            Ok(spelled) => {
                items.push((line, spelled.len()));
                bytes.extend(spelled);
            }
            Err(advice) => faults.push(LineFault { line, advice }),
        }
    }
    if faults.is_empty() {
        faults.extend(misplaced_line(&items, &bytes));
    }
    if faults.is_empty() {
        Ok(bytes)
    } else {
        Err(faults)
    }
}

fn line_bytes(content: &str) -> Result<Vec<u8>, String> {
    let spelled = content.split('#').next().unwrap_or_default();
    spelled.split_whitespace().map(byte_from).collect()
}

fn byte_from(word: &str) -> Result<u8, String> {
    // The number parser would take a sign, so the digits are looked at first.
    let two_digits = word.len() == 2 && word.chars().all(|letter| letter.is_ascii_hexdigit());
    let byte = u8::from_str_radix(word, 16).ok();
    byte.filter(|_| two_digits).ok_or(format!(
        "'{word}' is no byte; write two hex digits for each byte and '#' before a comment"
    ))
}

/// In an accepted job each line with bytes holds one item; a refused job has no items to go by.
fn misplaced_line(items: &[(usize, usize)], bytes: &[u8]) -> Option<LineFault> {
    let sizes = item_sizes(&decode(bytes).ok()?);
    let (&(line, held), size) = items
        .iter()
        .zip(sizes)
        .find(|&(&(_, held), size)| held != size)?;
    Some(LineFault {
        line,
        advice: format!(
            "the line has {held} bytes and the item that begins here has {size}; \
             write one field, instruction or clause a line"
        ),
    })
}

/// The sizes of the fields, instructions and clauses of a job file, in order.
fn item_sizes(job: &Job) -> Vec<usize> {
    let [value, item] = [job.width().bytes(), job.width().item_bytes()];
    // Length; then version, model, C, T and V.
    let mut sizes = vec![2, 1, 1, 1, 1, 1];
    sizes.extend(job.initial.iter().map(|_| value));
    for program in &job.programs {
        sizes.push(1);
        sizes.extend(program.iter().map(|_| item));
    }
    // Flag and K.
    sizes.extend([1, 1]);
    sizes.extend(job.goal.clauses.iter().map(|_| item));
    sizes
}

/// Writes each NAME.job that is not what its NAME.txt says; gives the number of texts and the files written.
pub fn make(folder: &Path) -> Result<(usize, Vec<PathBuf>), Faults> {
    let names = names(folder, &EXTENSIONS[..1])?;
    let mut written = Vec::new();
    let mut faults = Vec::new();
    for name in &names {
        match make_job(folder, name) {
            Ok(job) => written.extend(job),
            Err(of_name) => faults.extend(of_name),
        }
    }
    if faults.is_empty() {
        Ok((names.len(), written))
    } else {
        Err(faults)
    }
}

fn make_job(folder: &Path, name: &str) -> Result<Option<PathBuf>, Faults> {
    let [text, job, _] = files(folder, name);
    let bytes = text_bytes(&text)?;
    // An unchanged file keeps its date.
    if fs::read(&job).map_or(false, |stored| stored == bytes) {
        return Ok(None);
    }
    match fs::write(&job, bytes) {
        Ok(()) => Ok(Some(job)),
        Err(fault) => {
            let job = job.display();
            Err(vec![format!(
                "{job}: cannot be written ({fault}); check the folder's rights"
            )])
        }
    }
}

/// The number of jobs if all three files of each are there and agree, else every fault.
pub fn check(folder: &Path) -> Result<usize, Faults> {
    let names = names(folder, &EXTENSIONS)?;
    let faults: Faults = names
        .iter()
        .flat_map(|name| faults_of(folder, name))
        .collect();
    if faults.is_empty() {
        Ok(names.len())
    } else {
        Err(faults)
    }
}

fn faults_of(folder: &Path, name: &str) -> Faults {
    let [text, job, output] = files(folder, name);
    let spelled = text_bytes(&text);
    let stored = read(&job, "run 'jobs make' on its folder");
    let said = read(&output, "write down what the bench program has to print");
    let mut faults = Vec::new();
    if let (Ok(spelled), Ok(stored)) = (&spelled, &stored) {
        faults.extend(other_job(&job, &text, spelled, stored));
    }
    if let (Ok(stored), Ok(said)) = (&stored, &said) {
        faults.extend(other_output(&output, said, &bench_lines(stored)));
    }
    for unread in [spelled.err(), stored.err(), said.err()] {
        faults.extend(unread.unwrap_or_default());
    }
    faults
}

fn other_job(job: &Path, text: &Path, spelled: &[u8], stored: &[u8]) -> Option<String> {
    (spelled != stored).then(|| {
        format!(
            "{}: is not what {} says; correct the text if it is wrong, then run 'jobs make' on the folder",
            job.display(),
            text.display()
        )
    })
}

/// Names the first line that differs.
fn other_output(output: &Path, said: &[u8], expected: &str) -> Option<String> {
    if said == expected.as_bytes() {
        return None;
    }
    let said = String::from_utf8_lossy(said);
    // Split, not lines, so that a missing or doubled last line feed is seen as well.
    let mut here = said.split('\n');
    let mut there = expected.split('\n');
    let mut line = 1;
    loop {
        let (mine, other) = (here.next(), there.next());
        if mine != other || mine.is_none() {
            return Some(format!(
                "{}:{line}: has {}, the second checker has {}; look which of the two is wrong",
                output.display(),
                shown(mine),
                shown(other)
            ));
        }
        line += 1;
    }
}

fn shown(line: Option<&str>) -> String {
    line.map_or("no such line".to_string(), |line| format!("'{line}'"))
}

fn text_bytes(text: &Path) -> Result<Vec<u8>, Faults> {
    let content = read(text, "write the job's bytes in hex, one item a line")?;
    bytes_of(&String::from_utf8_lossy(&content)).map_err(|faults| {
        faults
            .iter()
            .map(|fault| format!("{}:{}: {}", text.display(), fault.line, fault.advice))
            .collect()
    })
}

fn read(path: &Path, if_missing: &str) -> Result<Vec<u8>, Faults> {
    fs::read(path).map_err(|fault| {
        let path = path.display();
        vec![match fault.kind() {
            ErrorKind::NotFound => format!("{path}: is missing; {if_missing}"),
            _ => format!("{path}: cannot be read ({fault}); check its rights"),
        }]
    })
}

fn files(folder: &Path, name: &str) -> [PathBuf; 3] {
    EXTENSIONS.map(|extension| folder.join(format!("{name}.{extension}")))
}

/// The names that have a file with one of these extensions; none at all is a fault.
fn names(folder: &Path, extensions: &[&str]) -> Result<BTreeSet<String>, Faults> {
    let unreadable = |fault| {
        let folder = folder.display();
        vec![format!(
            "{folder}: cannot be listed ({fault}); give the folder of the jobs"
        )]
    };
    let mut names = BTreeSet::new();
    for entry in fs::read_dir(folder).map_err(unreadable)? {
        let path = entry.map_err(unreadable)?.path();
        let extension = path.extension().and_then(|extension| extension.to_str());
        if extension.map_or(false, |extension| extensions.contains(&extension)) {
            names.extend(path.file_stem().map(|stem| stem.to_string_lossy().into()));
        }
    }
    if names.is_empty() {
        let folder = folder.display();
        return Err(vec![format!(
            "{folder}: has no jobs; give the folder of the jobs"
        )]);
    }
    Ok(names)
}
