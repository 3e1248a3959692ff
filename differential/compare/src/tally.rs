//! What came out of many comparisons: counts by name, an example of what differs, and how all of it
//! is printed.

use std::collections::HashSet;

use crate::table::Table;

/// How many there were, the most that there were at once, or the different ones that there were.
#[derive(Clone)]
enum Count {
    Sum(u64),
    Most(u64),
    Different(HashSet<u64>),
}

/// Counts by name, in the order in which the names came up. What never did counts 0.
#[derive(Clone, Default)]
pub struct Counts(Vec<(&'static str, Count)>);

impl Counts {
    pub fn one(&mut self, name: &'static str) {
        self.join(name, Count::Sum(1));
    }

    /// So many, or one where something holds.
    pub fn add(&mut self, name: &'static str, many: impl Into<u64>) {
        self.join(name, Count::Sum(many.into()));
    }

    /// So many at once.
    pub fn most(&mut self, name: &'static str, many: usize) {
        self.join(name, Count::Most(many as u64));
    }

    /// One of those of which the different ones are counted.
    pub fn see(&mut self, name: &'static str, one: impl Into<u64>) {
        self.join(name, Count::Different([one.into()].into()));
    }

    /// One by the number of a condition.
    pub fn number(&mut self, number: u64) {
        const NAMES: [&str; 14] =
            ["0", "1", "2", "3", "4", "5", "6", "7", "8", "9", "10", "11", "12", "13"];
        self.one(NAMES[number as usize]);
    }

    fn join(&mut self, name: &'static str, count: Count) {
        let Some((_, known)) = self.0.iter_mut().find(|(known, _)| *known == name) else {
            return self.0.push((name, count));
        };
        match (known, count) {
            (Count::Sum(sum), Count::Sum(many)) => *sum += many,
            (Count::Most(most), Count::Most(many)) => *most = many.max(*most),
            (Count::Different(seen), Count::Different(others)) => seen.extend(others),
            _ => unreachable!("{name} is counted in one way"),
        }
    }

    pub fn of(&self, name: &str) -> u64 {
        match self.0.iter().find(|(known, _)| *known == name) {
            None => 0,
            Some((_, Count::Sum(many) | Count::Most(many))) => *many,
            Some((_, Count::Different(seen))) => seen.len() as u64,
        }
    }

    /// Prints a text in which a name in braces stands for its count.
    pub fn tell(&self, text: &str) {
        let mut parts = text.split('{');
        let before = parts.next().unwrap_or_default().to_owned();
        let told = parts.fold(before, |told, part| {
            let (name, after) = part.split_once('}').expect("a brace is closed");
            told + &self.of(name).to_string() + after
        });
        println!("{told}");
    }

    /// Prints which of these never was demanded, and says whether there is no such thing: without it
    /// nothing would show what is to be shown.
    pub fn all_demanded(&self, start: &str, names: &str) -> bool {
        let missing: Vec<&str> = names.split(" | ").filter(|name| self.of(name) == 0).collect();
        for name in &missing {
            let number = if name.parse::<u64>().is_ok() { "the number " } else { "" };
            println!("{start}: {number}{name}");
        }
        missing.is_empty()
    }
}

/// What came out for all of one kind. The name of a count is the head of its column in the table.
#[derive(Clone, Default)]
pub struct Row {
    pub name: String,
    pub counts: Counts,
    /// The shortest of those that differ, the first such: how long it is, and how to see it again.
    example: Option<(usize, String)>,
    /// Differences that are no failure, by their causes.
    pub known: Vec<Row>,
}

impl Row {
    pub fn new(name: impl Into<String>) -> Self {
        Self { name: name.into(), ..Self::default() }
    }

    /// The sum of some, without their examples.
    pub fn sum<'a>(rows: impl IntoIterator<Item = &'a Self>) -> Self {
        let mut sum = Self::new("all");
        rows.into_iter().for_each(|row| sum.extend(row));
        sum
    }

    pub fn extend(&mut self, other: &Self) {
        other.counts.0.iter().for_each(|(name, count)| self.counts.join(name, count.clone()));
        for line in &other.known {
            let known = self.known_as(&line.name);
            known.extend(line);
            if let Some((bytes, words)) = &line.example {
                known.keep(*bytes, || words.clone());
            }
        }
    }

    /// Counts a difference, seen by so many bytes.
    pub fn differs(&mut self, bytes: usize, words: impl FnOnce() -> String) {
        self.counts.one("differ");
        self.keep(bytes, words);
    }

    pub fn keep(&mut self, bytes: usize, words: impl FnOnce() -> String) {
        if self.is_beaten_by(bytes) {
            self.example = Some((bytes, words()));
        }
    }

    /// Whether so many bytes are less than the kept example has.
    pub fn is_beaten_by(&self, bytes: usize) -> bool {
        self.example.as_ref().is_none_or(|(kept, _)| bytes < *kept)
    }

    pub fn example(&self) -> Option<&String> {
        self.example.as_ref().map(|(_, words)| words)
    }

    /// Counts a difference of a known cause. One in which the call differs is the better example.
    pub fn knows(&mut self, cause: &str, another_call: bool, words: impl FnOnce() -> String) {
        let known = self.known_as(cause);
        known.counts.one("reports");
        known.counts.add("another call", another_call);
        known.keep(usize::from(!another_call), words);
    }

    fn known_as(&mut self, cause: &str) -> &mut Self {
        let place = self.known.iter().position(|known| known.name == cause);
        let place = place.unwrap_or_else(|| {
            self.known.push(Self::new(cause));
            self.known.len() - 1
        });
        &mut self.known[place]
    }

    /// How many differ for each cause that occurred, and one of them.
    pub fn known(&self) -> impl Iterator<Item = (&str, u64, &String)> {
        let many = |row: &Self| row.counts.of("reports");
        self.known.iter().filter_map(move |row| Some((&row.name[..], many(row), row.example()?)))
    }

    /// How many differ, once for each of their causes.
    pub fn known_sum(&self) -> u64 {
        self.known().map(|(_, many, _)| many).sum()
    }
}

/// What differs, with the shortest one of each row.
pub fn examples(command: &str, rows: &[Row]) -> Vec<String> {
    let words = |row: &Row| Some(format!("{command}: {}: {}", row.name, row.example()?));
    rows.iter().filter_map(words).collect()
}

/// Prints a line of each row with its counts, those that are the heads of the columns or, where that
/// is another name, stand after the head and a colon.
pub fn print_table<'a>(heads: &str, rows: impl IntoIterator<Item = &'a Row>) {
    let columns = heads.split(" | ").map(|head| head.split_once(": ").unwrap_or((head, head)));
    let (heads, names): (Vec<&str>, Vec<&str>) = columns.unzip();
    let mut table = Table::new(&heads.join(" | "), 1..names.len());
    for row in rows {
        let cells = names[1..].iter().map(|name| row.counts.of(name).to_string());
        table.row([row.name.clone()].into_iter().chain(cells).collect());
    }
    print!("{}", table.aligned());
}

/// Prints what came out of a command, and says whether it is as demanded.
pub fn verdict(command: &str, holds: bool) -> bool {
    println!("{command}: {}", if holds { "as demanded" } else { "FAILED" });
    holds
}
