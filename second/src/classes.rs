//! Classes that cases and jobs are counted by, so that none of them can shrink away unnoticed.

/// The names of those classes that are met.
pub fn those_met(classes: &[(&'static str, bool)]) -> Vec<&'static str> {
    let met = classes.iter().filter(|(_, met)| *met);
    met.map(|&(class, _)| class).collect()
}

/// How many cases there are of each class, as one line.
pub fn counts_line(kind: &str, counts: &Counts) -> String {
    let classes = counts.of_classes.iter();
    let classes: String = classes
        .map(|(class, count)| format!("; {class}: {count}"))
        .collect();
    format!("{kind}: {} cases{classes}", counts.cases)
}

/// Of the cases of one kind.
#[derive(Clone, Debug, PartialEq, Eq)]
pub struct Counts {
    pub cases: usize,
    pub of_classes: Vec<(&'static str, usize)>,
}

impl Counts {
    /// `met` holds the classes of each case.
    pub fn new(classes: &[&'static str], met: &[Vec<&'static str>]) -> Counts {
        let count = |class| met.iter().filter(|of_case| of_case.contains(class)).count();
        Counts {
            cases: met.len(),
            of_classes: classes.iter().map(|class| (*class, count(class))).collect(),
        }
    }
}
