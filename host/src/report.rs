//! What was compared, and what came of it.
use std::{collections::BTreeMap, fmt::Debug};

use crate::entries::{self, Entry};

/// How many of the differences outside the list are shown.
const SHOWN: u64 = 10;

struct Found {
    count: u64,
    smallest: String,
}

struct Group {
    level: &'static str,
    name: &'static str,
    count: u64,
    /// How many of them are listed differences.
    listed: u64,
}

#[derive(Default)]
pub struct Report {
    level: &'static str,
    groups: Vec<Group>,
    listed: BTreeMap<&'static str, Found>,
    unlisted: u64,
}

/// What one side answered, and what the entry of the list says that it answers.
pub struct Answer<T> {
    pub given: T,
    pub expected: T,
}

impl<T: PartialEq> Answer<T> {
    fn is_as_expected(&self) -> bool {
        self.given == self.expected
    }
}

/// A case of an entry of the list, and whether each side answers as the entry says.
pub struct Listed {
    pub entry: &'static str,
    pub ours: bool,
    pub rust: bool,
}

impl Listed {
    pub fn of<O: PartialEq, R: PartialEq>(
        entry: &'static str,
        ours: &Answer<O>,
        rust: &Answer<R>,
    ) -> Listed {
        Listed { entry, ours: ours.is_as_expected(), rust: rust.is_as_expected() }
    }
}

impl Report {
    /// The groups that follow belong to this level.
    pub fn level(&mut self, name: &'static str) {
        self.level = name;
    }

    /// The comparisons that follow belong to this group.
    pub fn group(&mut self, name: &'static str) {
        self.groups.push(Group { level: self.level, name, count: 0, listed: 0 });
    }

    pub fn same<T: PartialEq + Debug>(&mut self, input: impl Debug, ours: T, rust: T) {
        self.count();
        if ours != rust {
            self.differ(format!("{input:02x?}: ours {ours:02x?}, the Rust {rust:02x?}"));
        }
    }

    /// Both sides must answer as the entry says.
    pub fn listed<O: PartialEq + Debug, R: PartialEq + Debug>(
        &mut self,
        entry: &'static str,
        input: impl Debug,
        ours: Answer<O>,
        rust: Answer<R>,
    ) {
        self.held(Listed::of(entry, &ours, &rust), input, ours.given, rust.given);
    }

    /// The same where the answers were held to the entry before. An entry's first case is its smallest: `show` comes
    /// before the others.
    pub fn held(
        &mut self,
        Listed { entry, ours: ours_is, rust: rust_is }: Listed,
        input: impl Debug,
        ours: impl Debug,
        rust: impl Debug,
    ) {
        self.count().listed += 1;
        let as_listed = ours_is && rust_is;
        let case = || format!("{input:02x?}: ours {ours:02x?}, the Rust {rust:02x?}");
        if let (true, Some(found)) = (as_listed, self.listed.get_mut(entry)) {
            found.count += 1;
        } else if as_listed && entries::all().any(|listed| listed.id == entry) {
            self.listed.insert(entry, Found { count: 1, smallest: case() });
        } else {
            self.differ(format!("not as {entry} of docs/DIFFERENCES.md says: {}", case()));
        }
    }

    fn count(&mut self) -> &mut Group {
        let group = self.groups.last_mut().expect("a group");
        group.count += 1;
        group
    }

    fn differ(&mut self, case: String) {
        self.unlisted += 1;
        if self.unlisted <= SHOWN {
            let Group { level, name, .. } = self.groups.last().expect("a group");
            println!("DIFFERENCE in {level}, {name}: {case}");
        }
    }

    /// Prints the counts; whether nothing differed but what is listed.
    pub fn close(self) -> bool {
        for level in self.groups.chunk_by(|a, b| a.level == b.level) {
            println!("{}", level[0].level);
            for Group { name, count, .. } in level {
                println!("{count:>12}  {name}");
            }
            let count: u64 = level.iter().map(|group| group.count).sum();
            let listed: u64 = level.iter().map(|group| group.listed).sum();
            println!("{count:>12}  in all, {listed} of them listed differences");
        }
        println!("differences");
        for Entry { id, .. } in entries::all() {
            if let Some(Found { count, smallest }) = self.listed.get(id) {
                println!(
                    "{count:>12}  as {id} of docs/DIFFERENCES.md says; the smallest: {smallest}"
                );
            }
        }
        println!("{:>12}  outside docs/DIFFERENCES.md", self.unlisted);
        self.unlisted == 0
    }
}
