//! A mutant: one textual edit of an original, or of the oracle's own reading, taken by its name from the
//! list `mutants.list`.
use crate::edit::{count, stop};

pub struct Mutant {
    file: String,
    hunks: Vec<Hunk>,
}

#[derive(Default)]
struct Hunk {
    old: String,
    new: String,
}

/// The mutant that the environment names, if it names one. In the list a mutant is a block of
/// lines: `mutant NAME in FILE`, then the old lines behind `-` and the new ones behind `+`, again
/// for each further place.
pub fn named(list: &str) -> Option<Mutant> {
    println!("cargo:rerun-if-env-changed=RAKNADUV_MUTANT");
    let name = std::env::var("RAKNADUV_MUTANT").ok()?;
    let head = format!("mutant {name} in ");
    let mut lines = list.lines().skip_while(|l| !l.starts_with(&head));
    let Some(first) = lines.next() else {
        stop(&format!("mutants.list: no mutant {name}"));
    };
    let mut hunks: Vec<Hunk> = Vec::new();
    for line in lines.take_while(|l| !l.is_empty()) {
        if let Some(old) = line.strip_prefix('-') {
            if hunks.last().is_none_or(|h| !h.new.is_empty()) {
                hunks.push(Hunk::default());
            }
            let hunk = hunks.last_mut().unwrap();
            hunk.old += old;
            hunk.old += "\n";
        } else if let (Some(new), Some(hunk)) = (line.strip_prefix('+'), hunks.last_mut()) {
            hunk.new += new;
            hunk.new += "\n";
        } else {
            stop(&format!(
                "mutants.list: {name}: {line:?} is no part of an edit"
            ));
        }
    }
    let file = first[head.len()..].to_string();
    Some(Mutant { file, hunks })
}

impl Mutant {
    fn edits(&self, file: &str) -> &[Hunk] {
        if file.ends_with(&self.file) {
            &self.hunks
        } else {
            &[]
        }
    }

    pub fn apply(&self, file: &str, text: &mut String) {
        for Hunk { old, new } in self.edits(file) {
            if count(text, old) != 1 {
                stop(&format!(
                    "mutants.list: {old:?} does not stand once in {file}"
                ));
            }
            *text = text.replace(old, new);
        }
    }

    /// How often `part` stands in the new lines, and how often in the old ones.
    pub fn change(&self, file: &str, part: &str) -> (usize, usize) {
        self.edits(file).iter().fold((0, 0), |(more, less), h| {
            (more + count(&h.new, part), less + count(&h.old, part))
        })
    }
}
