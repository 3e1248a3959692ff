//! Column files that are written by parts: after every step our reply, how much is written and the whole
//! buffer, beside a model of the writer.

pub mod model;

use std::ops::Range;

use self::model::{Kind, Model, Step, steps_of};
use crate::builder::TYPICAL;
use crate::call::buffer;
use crate::exports;
use crate::files::drawn::{self, filling, usual};
use crate::files::file::{ABSENT, File, Parts, read};
use crate::files::fixed::SAMPLE;
use crate::files::listing::{found_in, text_of};
use crate::hexadecimal::digits;
use crate::lists::lists;
use crate::panics;
use crate::random::Random;
use crate::tally::{Row, examples, print_table, verdict};
use crate::umis::set::LONGEST;

const HEAD: &str = "writers | lists | steps | accepted: 0 | 1 | 2 | 3 | 4 | 12 | 13 | finished | \
                    listed | differ";

/// What must have been demanded: each number, each way to be out of turn, and what the limits decide.
const DEMANDED: &str = "0 | 1 | 2 | 3 | 4 | 12 | 13 | finished | listed | a column first | strings \
     first | a finish first | settings again | a column too many | strings before the last column | a \
     finish before the strings | a part after the strings | a part after the finish | a finish again | \
     65,536 bytes | a part that just fits | settings tried again | a column tried again | strings \
     tried again | no writer's number";

/// Numbers that are no writer's: those of refusals, and those that are larger than any.
const NO_WRITERS: [u64; 10] =
    [0, 1, 4, 12, 13, 255, 1 << 60, u64::MAX >> 1, u64::MAX - 1, u64::MAX];

/// All lists of up to so many of the chosen steps are compared.
const MOST_CHOSEN: u32 = 5;

/// Compares the chosen lists of steps and so many that are drawn, and says whether nothing differs.
pub fn run(many: u64, seed: u64) -> bool {
    println!("writers: ours beside a model, seed {seed}");
    panics::silence();
    let mut random = Random::new(seed);
    let rows =
        [named(), chosen(), limits(&mut random), no_writers(&mut random), drawn(many, &mut random)];
    let all = Row::sum(&rows);
    print_table(HEAD, rows.iter().chain([&all]));
    examples("writers", &rows).iter().for_each(|example| println!("{example}"));
    all.counts.tell(
        "writers: {lists} lists of {steps} steps: {0} accepted, refused {1} by 1, {2} by 2, {3} by 3, {4} \
         by 4, {12} by 12, {13} by 13; {finished} files finished, {65,536 bytes} of them of 65,536 \
         bytes, and {listed} of them listed; {no writer's number} steps by a number that is no \
         writer's; {differ} differ",
    );
    let demanded = all.counts.all_demanded("writers: never demanded", DEMANDED);
    verdict("writers", all.counts.of("differ") == 0 && demanded)
}

/// The sample that SCOPE names in its five steps, in buffers of every length; and the cases that it
/// names, each with its number.
fn named() -> Row {
    let mut row = Row::new("named in SCOPE");
    let sample = read(&SAMPLE).expect("it is a file");
    let steps = steps_of(&parts_of(&sample));
    for room in 0..SAMPLE.len() + 4 {
        row.compare_steps(&steps, room);
    }
    let head = || Step::new(Kind::Settings, [3, 90, 90, 0, 1, 0]);
    let column = |quality| Step::new(Kind::Column, [1, 0, 65, quality]);
    let none = || Step::new(Kind::Strings, [0]);
    let cases: [(&[Step], usize, u64); 12] = [
        (&[Step::new(Kind::Column, [])], 99, 13),
        (&[head(), head()], 99, 13),
        (&[head(), none()], 99, 13),
        (&[head(), Step::finish()], 99, 13),
        (&[head(), column(9), column(9)], 99, 13),
        (&[head(), column(9), none(), Step::finish(), Step::finish()], 99, 13),
        (&[head(), column(255)], 6, 4),
        (&[head(), column(9)], 9, 12),
        (&[head(), column(9)], 10, 0),
        (&[Step::new(Kind::Settings, [3, 90, 90, 2, 1, 0])], 0, 3),
        (&[Step::new(Kind::Settings, [3, 90, 90, 2, 1])], 0, 2),
        (&[Step::new(Kind::Settings, vec![0; LONGEST + 1])], 0, 1),
    ];
    for (steps, room, number) in cases {
        row.compare_steps(steps, room);
        let mut model = Model::new();
        let numbers: Vec<u64> = steps.iter().map(|step| model.step(step, room)).collect();
        if numbers.last() != Some(&number) {
            row.differs(0, || format!("{steps:?}: the model says {numbers:?}, named is {number}"));
        }
    }
    row
}

/// Every list of a few short steps, in a few rooms.
fn chosen() -> Row {
    let mut row = Row::new("every list of a few steps");
    let steps = [
        Step::new(Kind::Settings, [3, 90, 90, 0, 0, 0]),
        Step::new(Kind::Settings, [3, 45, 40, 1, 1, 0]),
        Step::new(Kind::Settings, [3, 90, 90, 2, 1, 0]),
        Step::new(Kind::Column, [0, 0]),
        Step::new(Kind::Column, [1, 0, 78, ABSENT]),
        Step::new(Kind::Strings, [0]),
        Step::new(Kind::Strings, []),
        Step::finish(),
    ];
    let places: Vec<usize> = (0..steps.len()).collect();
    for count in 0..=MOST_CHOSEN {
        for list in lists(&places, count) {
            let list: Vec<Step> = list.into_iter().map(|place| steps[place].clone()).collect();
            for room in [5, 7, 8, 9, 12] {
                row.compare_steps(&list, room);
            }
        }
    }
    row
}

/// Files of about 65,536 bytes: the limit is passed by a column, by the strings, or not at all; in rooms
/// that end at each part and beside it.
fn limits(random: &mut Random) -> Row {
    let mut row = Row::new("about 65,536 bytes");
    for length in LONGEST - 2..=LONGEST + 3 {
        let mut parts = filling(TYPICAL, LONGEST - 300, random);
        parts.fill(length, (b'A', 35));
        for strings in [parts.strings.clone(), vec![], vec![vec![b'A'; 255]; 2]] {
            let parts = Parts { strings, ..parts.clone() };
            let steps = steps_of(&parts);
            let ends: Vec<usize> = (1..=steps.len()).map(|many| bytes_of(&steps[..many])).collect();
            let last = ends.len() - 3;
            for end in [ends[0], ends[1], ends[last], ends[last + 1], length, 2 * LONGEST] {
                for room in [end - 1, end, end + 1] {
                    row.compare_steps(&steps, room);
                }
            }
        }
        // a column of its own that does not fit any more, and a last one that does
        let mut steps = steps_of(&parts);
        let deep = Step::new(Kind::Column, [&[0, 128][..], &[b'A'; LONGEST]].concat());
        steps.insert(1, deep);
        row.compare_steps(&steps, LONGEST);
    }
    row
}

fn bytes_of(steps: &[Step]) -> usize {
    steps.iter().map(|step| step.part.len()).sum()
}

/// Each step by a number that is no writer's: refused by 13, with nothing written.
fn no_writers(random: &mut Random) -> Row {
    let mut row = Row::new("numbers that are no writer's");
    let drawn: Vec<u64> = (0..100).map(|_| random.bits() | 1 << 63).collect();
    for number in (0..256).chain(NO_WRITERS).chain(drawn) {
        for kind in Kind::ALL {
            let step = Step::new(kind, [3, 90, 90, 0, 0, 0]);
            let (mut bytes, place) = buffer(20);
            let before = bytes.clone();
            let reply = step.ours(number, &mut bytes[place]);
            row.counts.one("no writer's number");
            if reply != model::OUT_OF_TURN || bytes != before {
                row.differs(8, || format!("{kind:?} by {number}: the reply {reply}, demanded 13"));
            }
        }
        if exports::written(number) != 0 {
            row.differs(8, || format!("{number} is no writer's, and has written something"));
        }
    }
    row
}

/// Steps of a drawn file, as they are or with others among them, in a room that is drawn too.
fn drawn(many: u64, random: &mut Random) -> Row {
    let mut row = Row::new("drawn");
    for _ in 0..many {
        let steps = disturbed(steps_of(&parts(random)), random);
        let all = bytes_of(&steps);
        let part = bytes_of(&steps[..random.index(steps.len() + 1)]);
        let room = match random.below(8) {
            0 => part,
            1 => part.saturating_sub(1),
            2 => random.index(all + 2),
            3 => all,
            _ => all + random.index(100),
        };
        row.compare_steps(&steps, room);
    }
    row
}

/// A file of a few columns most often.
fn parts(random: &mut Random) -> Parts {
    let mut parts = match random.below(8) {
        0 => drawn::with_empty_parts(random),
        1 => drawn::with_any_strings(random),
        _ => usual(random),
    };
    if random.below(200) == 0 {
        let length = LONGEST - 1 + random.index(4);
        parts = filling(TYPICAL, LONGEST - 300, random);
        parts.fill(length, (b'C', 20));
    }
    parts
}

/// Up to four changes: a step again or at another place, one left out, a damaged one before the sound
/// one or in its stead, one of another file.
fn disturbed(mut steps: Vec<Step>, random: &mut Random) -> Vec<Step> {
    for _ in 0..random.one_of(&[0, 0, 1, 2, 4]) {
        if steps.is_empty() {
            break;
        }
        let place = random.index(steps.len());
        let step = steps[place].clone();
        match random.below(7) {
            0 => steps.insert(random.index(steps.len() + 1), step),
            1 => drop(steps.remove(place)),
            2 => steps.insert(place, damaged(step, random)),
            3 => steps[place] = damaged(step, random),
            4 => steps.insert(place, Step { kind: random.one_of(&Kind::ALL), ..step }),
            5 => {
                let others = steps_of(&usual(random));
                let other = others[random.index(others.len())].clone();
                steps.insert(random.index(steps.len() + 1), other);
            }
            _ => steps.push(step),
        }
    }
    // the finish has no part
    steps.iter_mut().filter(|step| step.kind == Kind::Finish).for_each(|step| step.part.clear());
    steps
}

/// With a byte more, less or changed; often the last one, which is a quality or a count.
fn damaged(mut step: Step, random: &mut Random) -> Step {
    let part = &mut step.part;
    let place = if random.below(2) == 0 { part.len() } else { random.index(part.len() + 1) };
    match random.below(4) {
        0 => part.truncate(place.saturating_sub(1)),
        1 => part.insert(place, random.byte()),
        _ if part.is_empty() => (),
        2 => part[place.saturating_sub(1)] = ABSENT,
        _ => part[place.saturating_sub(1)] = random.byte(),
    }
    step
}

/// Both sides of a list of steps: the model, ours by its writer's number, and the buffer of either.
struct Sides {
    room: usize,
    place: Range<usize>,
    ours: Vec<u8>,
    demanded: Vec<u8>,
    writer: u64,
    model: Model,
}

impl Sides {
    fn new(room: usize) -> Self {
        let (ours, place) = buffer(room);
        let demanded = ours.clone();
        Self { room, place, ours, demanded, writer: exports::writer(), model: Model::new() }
    }

    /// Takes a step on both sides: the number that is demanded of it, 0 where it is accepted, and what is
    /// wrong, if anything is.
    fn step(&mut self, step: &Step) -> (u64, Option<String>) {
        let before = self.model.file.len();
        let number = self.model.step(step, self.room);
        let added = &self.model.file[before..];
        let start = self.place.start + before;
        self.demanded[start..start + added.len()].copy_from_slice(added);
        let reply = step.ours(self.writer, &mut self.ours[self.place.clone()]);
        if number == 0 {
            self.writer = reply;
        }
        let right = if number == 0 { reply >= 256 } else { reply == number };
        let (written, length) = (exports::written(self.writer), self.model.file.len() as u64);
        let same = self.ours == self.demanded;
        if right && written == length && same {
            return (number, None);
        }
        let buffers = if same { "the same buffer" } else { "another buffer" };
        let problem = format!(
            "the reply {reply}, demanded {number}; {written} bytes written, demanded {length}; {buffers}"
        );
        (number, Some(problem))
    }
}

/// Steps as they can be seen again.
fn words_of(steps: &[Step]) -> String {
    let words = |step: &Step| format!("{:?} {}", step.kind, digits(&step.part));
    steps.iter().map(words).collect::<Vec<String>>().join(", ")
}

impl Row {
    /// A list of steps, each with the writer and the buffer as the one before left them.
    fn compare_steps(&mut self, steps: &[Step], room: usize) {
        let (mut sides, mut refused) = (Sides::new(room), None);
        self.counts.one("lists");
        for (turn, step) in steps.iter().enumerate() {
            let before = sides.model.file.len();
            if let Some(name) = sides.model.out_of_turn(step.kind) {
                self.counts.one(name);
            }
            let (number, problem) = sides.step(step);
            let just_fits = before < room && sides.model.file.len() == room;
            self.counts.one("steps");
            self.counts.number(number);
            self.counts.add("a part that just fits", number == 0 && just_fits);
            self.count_second_try(step.kind, number, &mut refused);
            if let Some(problem) = problem {
                let steps = &steps[..=turn];
                let words = || format!("into {room} bytes, {}: {problem}", words_of(steps));
                return self.differs(bytes_of(steps), words);
            }
        }
        if sides.model.is_finished() {
            self.compare_finished(&sides.model, &sides.ours[sides.place]);
        }
    }

    /// A kind of part that was refused, not for its turn, and is then accepted.
    fn count_second_try(&mut self, kind: Kind, number: u64, refused: &mut Option<Kind>) {
        let again = number == 0 && *refused == Some(kind);
        self.counts.add("settings tried again", again && kind == Kind::Settings);
        self.counts.add("a column tried again", again && kind == Kind::Column);
        self.counts.add("strings tried again", again && kind == Kind::Strings);
        *refused = (number != 0 && number != model::OUT_OF_TURN).then_some(kind);
    }

    /// What the file says is what the accepted steps said, and its listing is that of their file.
    fn compare_finished(&mut self, model: &Model, ours: &[u8]) {
        self.counts.one("finished");
        self.counts.add("65,536 bytes", model.file.len() == LONGEST);
        let file = &ours[..model.file.len()];
        let says = read(file).map(|file| parts_of(&file).bytes());
        if says != Ok(model.accepted.bytes()) {
            return self.differs(file.len(), || format!("file {} reads otherwise", digits(file)));
        }
        // each takes its tables' time
        if self.counts.of("finished") % 16 != 1 {
            return;
        }
        let bytes = model.accepted.bytes();
        let Ok(found) = found_in(&bytes) else {
            return self
                .differs(file.len(), || format!("file {}: the Rust disagrees", digits(file)));
        };
        let answer = text_of(&found);
        let mut text = vec![0; answer.bytes.len()];
        let length = exports::list(file, &mut text);
        self.counts.one("listed");
        if length != answer.reply || text != answer.bytes {
            self.differs(file.len(), || format!("file {} is listed otherwise", digits(file)));
        }
    }
}

/// What a file says, as it can be put together again.
pub fn parts_of(file: &File) -> Parts {
    let column = |column: &&[u8]| column.chunks_exact(2).map(|pair| (pair[0], pair[1])).collect();
    let columns = file.columns.iter().map(column).collect();
    let strings = file.strings.iter().map(|string| string.to_vec()).collect();
    Parts::new(file.settings, columns, strings)
}

/// Writes what was read of a file into a buffer of its length: the bytes, or what is wrong.
pub fn rewritten(file: &File, length: usize) -> Result<Vec<u8>, String> {
    let (mut bytes, mut writer) = (vec![0; length], exports::writer());
    for (place, step) in steps_of(&parts_of(file)).iter().enumerate() {
        let reply = step.ours(writer, &mut bytes);
        if reply < 256 {
            return Err(format!("step {place}, {:?}, is refused by {reply}", step.kind));
        }
        writer = reply;
    }
    let written = exports::written(writer);
    if written == length as u64 { Ok(bytes) } else { Err(format!("{written} bytes are written")) }
}
