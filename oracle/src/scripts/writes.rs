//! What the writer of images (02, C-11) is handed: made counts and rows, and how long the lent buffer is. A third of the
//! inputs is spoiled, in one way or in several at once, so that the order of refusals shows.
//!
//! What an input shows is looked up in its bytes, by the rules of image.rs. Where one of `classes` is shown by none, or
//! not between a quarter and a half of the inputs are refused, there are no inputs, but an error that says so.

use crate::image::{self, past_limits, with_length, Broken, RawRows, Refused, Table};
use crate::image::{COUNTS_AT, KINDS, LARGEST, LARGEST_ACCEPTED, MODE, NONE};
use crate::image::{REACTOR, ROWS_AT, RULES, SCOPE, SMALLEST};
use crate::make;
use crate::parts::Parts;
use crate::rng::Rng;
use crate::text::ROWS;

/// Bytes of the nine counts.
const COUNTS: usize = ROWS_AT - COUNTS_AT;
/// Far more bytes than any image has, and one past what two bytes count.
const FAR: usize = 100_000;
const TWO_BYTES: usize = 65_536;

/// Counts, the bytes of all rows, and bytes in the lent buffer.
#[derive(Debug, Clone, PartialEq, Eq)]
pub struct Input {
    pub counts: Vec<u8>,
    pub rows: Vec<u8>,
    pub room: usize,
}

impl Input {
    /// What an image is made of, into so many bytes; the image has its counts at least.
    pub fn of(image: &[u8], room: usize) -> Self {
        Self {
            counts: image[COUNTS_AT..ROWS_AT].to_vec(),
            rows: image[ROWS_AT..].to_vec(),
            room,
        }
    }

    /// The image that these counts and rows would have, right or wrong.
    pub fn image(&self) -> Vec<u8> {
        with_length(&[&[1], &self.counts[..], &self.rows].concat())
    }
}

/// Inputs, and a few lines on what they show.
pub struct Made {
    pub inputs: Vec<Input>,
    pub summary: String,
}

// ---------------------------------------------------------------- making

/// What may be wrong, in the order in which it is refused.
#[derive(Debug, Clone, Copy, PartialEq, Eq)]
enum Fault {
    /// Counts that are not of 18 bytes.
    Length,
    /// A count past its limits.
    Count,
    /// Rows that don't fit the counts.
    Fit,
    /// A row that breaks a rule.
    Row,
    /// A buffer too short.
    Room,
}

use Fault::{Count, Fit, Length, Room, Row};

/// What is spoiled in the spoiled inputs, one after the other.
const SPOILED: [&[Fault]; 20] = [
    &[Length],
    &[Count],
    &[Count],
    &[Fit],
    &[Fit],
    &[Row],
    &[Row],
    &[Row],
    &[Room],
    &[Length, Count],
    &[Length, Row],
    &[Count, Count],
    &[Count, Fit],
    &[Count, Row],
    &[Count, Room],
    &[Fit, Row],
    &[Row, Row],
    &[Row, Room],
    &[Count, Row, Room],
    &[Count, Fit, Room],
];

/// All of it, into no room yet.
fn joined(parts: &Parts) -> Input {
    Input {
        counts: parts.counted(),
        rows: parts.rows.concat(),
        room: 0,
    }
}

/// A count past its limits: with its rows, or alone.
fn spoil_count(parts: &mut Parts, rng: &mut Rng) {
    let with_rows = rng.chance(50);
    let kind = rng.below(11) as usize;
    match KINDS.get(kind) {
        Some(&(most, _)) if with_rows => parts.resize(kind, most + 1 + rng.below(3) as usize),
        Some(&(most, _)) => {
            let most = most as u16;
            let more = most + 1 + rng.below(300) as u16;
            let swapped = most.swap_bytes();
            parts.counts[kind] = rng.pick(&[most + 1, most + 1, more, u16::MAX, swapped]);
        }
        // No scope, or no reactor.
        None if with_rows => parts.resize(kind - KINDS.len(), 0),
        None => parts.counts[kind - KINDS.len()] = 0,
    }
}

/// Rows that don't fit the counts any more.
fn spoil_fit(rows: &mut Vec<u8>, rng: &mut Rng) {
    let width = rng.pick(&KINDS).1.min(rows.len());
    let at = rng.below((rows.len() - width) as u64 + 1) as usize;
    match rng.below(8) {
        0 => drop(rows.pop()),
        1 => rows.push(rng.below(3) as u8),
        2 => drop(rows.drain(at..at + width)),
        3 => {
            let row = rows[at..at + width].to_vec();
            rows.splice(at..at, row);
        }
        4 => rows.clear(),
        5 => rows.resize(FAR, 0),
        6 => rows.resize(rows.len() + TWO_BYTES, 0),
        _ => rows.resize(rng.below(2 * rows.len() as u64 + 9) as usize, 1),
    }
}

/// An image that is accepted.
fn accepted(rng: &mut Rng) -> Vec<u8> {
    loop {
        let seed = rng.next();
        let image = match rng.below(40) {
            0 => make::largest().image(),
            1 => Table::smallest().image(),
            2..=9 => {
                let mut parts = Parts::from(&make::table(seed));
                let kind = rng.below(9) as usize;
                parts.resize(kind, KINDS[kind].0);
                parts.image()
            }
            10..=19 => make::table(seed).image(),
            _ => {
                let kind = rng.pick(&["valid", "nested", "edge"]);
                make::image(seed, kind).unwrap_or_default()
            }
        };
        if image::check(&image).is_ok() {
            return image;
        }
    }
}

/// How often a table is broken anew until it breaks the rule that is wanted.
const TRIES: usize = 400;

/// An image of which so many rules of rows were broken, and nothing else; mostly the first is the one that is wanted, with
/// its kind, and in the table's last row if that is wanted too.
fn with_broken_rows(rng: &mut Rng, breaks: usize, wanted: (usize, usize), last: bool) -> Vec<u8> {
    // One mode too many for its scopes.
    let mut image = make::too_many_modes().image();
    if rng.chance(5) {
        return image;
    }
    let table = make::table(rng.next());
    for _ in 0..TRIES {
        let mut broken = make::broken(&table, rng.next(), breaks);
        let (scopes, none) = (broken.len(SCOPE) as u64, u64::from(NONE));
        if rng.chance(10) && broken.len(REACTOR) < KINDS[REACTOR].0 {
            // A reactor of no scope's: its own row answers for a root that isn't there.
            broken.push_fields(REACTOR, &[rng.pick(&[scopes, none]), none]);
        }
        if rng.chance(10) && broken.len(MODE) < KINDS[MODE].0 {
            // A mode that no scope names: likewise for a scope or a reactor.
            let reactors = broken.len(REACTOR) as u64;
            let further = [[scopes, 0], [none, 0], [0, reactors], [0, none]];
            broken.push_fields(MODE, &rng.pick(&further));
        }
        let tried = broken.image();
        let Some(first) = RawRows::new(&tried).broken().next() else {
            continue;
        };
        let end = first.place + KINDS[first.kind].1;
        let found = (first.kind, first.rule) == wanted && (!last || end == tried.len());
        image = tried;
        if found {
            break;
        }
    }
    image
}

fn made(rng: &mut Rng, index: usize) -> Input {
    let spoiled = match index % 3 {
        0 => SPOILED[index / 3 % SPOILED.len()],
        _ => &[],
    };
    let times = |fault| spoiled.iter().filter(|&&other| other == fault).count();
    let image = match times(Row) {
        0 => accepted(rng),
        breaks => {
            let rules =
                (0..9).flat_map(|kind| (0..RULES[kind].len()).map(move |rule| (kind, rule)));
            let rules: Vec<_> = rules.collect();
            let wanted = rng.pick(&rules);
            let last = wanted.0 == 8 && rng.chance(50);
            with_broken_rows(rng, breaks, wanted, last)
        }
    };
    let mut parts = Parts::of(&image);
    for _ in 0..times(Count) {
        spoil_count(&mut parts, rng);
    }
    let mut input = joined(&parts);
    if times(Fit) > 0 {
        spoil_fit(&mut input.rows, rng);
    }
    if times(Length) > 0 {
        let other = rng.below(99) as usize;
        let length = rng.pick(&[0, 17, 19, 40, other]);
        let counts = input.counts.iter().copied().cycle();
        input.counts = counts.take(length).collect();
    }
    let needed = ROWS_AT + input.rows.len();
    let less = rng.below(needed as u64) as usize;
    let more = needed + 2 + rng.below(40) as usize;
    input.room = match times(Room) {
        0 => rng.pick(&[
            needed,
            needed,
            needed + 1,
            more,
            needed.max(LARGEST),
            needed + TWO_BYTES,
        ]),
        _ => rng.pick(&[0, 4, ROWS_AT - 1, needed - 1, needed - 1, less]),
    };
    input
}

// ---------------------------------------------------------------- what an input shows

/// An input, what the writer answers, and each fault that there is, also those that another one keeps from being answered.
struct Seen<'i> {
    input: &'i Input,
    answer: Result<usize, Refused>,
    /// Places of the counts past their limits.
    past: Vec<usize>,
    /// Bytes of rows more than the counts ask for.
    more_rows: Option<i64>,
    /// Rows that break a rule, if all rows that the counts ask for are there.
    broken: Vec<Broken>,
    /// Bytes of the buffer more than the image needs.
    more_room: i64,
    faults: Vec<Fault>,
}

impl<'i> Seen<'i> {
    fn of(input: &'i Input) -> Self {
        let answer = image::write(&input.counts, &input.rows, &mut vec![0; input.room]);
        let past: Vec<usize> = past_limits(&input.counts).collect();
        let difference = |one: usize, other: usize| one as i64 - other as i64;
        let image = ROWS_AT + input.rows.len();
        let (mut more_rows, mut broken) = (None, Vec::new());
        if let Some(counts) = input.counts.get(..COUNTS) {
            let first = Input {
                counts: counts.to_vec(),
                ..input.clone()
            };
            let more = difference(image, image::starts(counts)[9]);
            more_rows = Some(more);
            if more >= 0 {
                broken = RawRows::new(&first.image()).broken().collect();
            }
        }
        let more_room = difference(input.room, image);
        let faults = [
            (Length, input.counts.len() != COUNTS),
            (Count, !past.is_empty()),
            (Fit, more_rows.unwrap_or(0) != 0),
            (Row, !broken.is_empty()),
            (Room, more_room < 0),
        ];
        let there = faults.iter().filter(|(_, there)| *there);
        Self {
            input,
            answer,
            past,
            more_rows,
            broken,
            more_room,
            faults: there.map(|(fault, _)| *fault).collect(),
        }
    }

    /// Whether the first fault is what is answered, and at its place.
    fn first_is_answered(&self) -> bool {
        let refused = |number, place| Err(Refused { number, place });
        self.answer
            == match self.faults.first() {
                None => Ok(ROWS_AT + self.input.rows.len()),
                Some(Count) => refused(3, self.past[0]),
                Some(Row) => refused(4, self.broken[0].place),
                Some(Length | Fit | Room) => refused(1, 0),
            }
    }

    /// The fault that decides, if there is one.
    fn decided_by(&self, fault: Fault) -> bool {
        self.faults.first() == Some(&fault)
    }

    fn count(&self, kind: usize) -> usize {
        match self.input.counts.get(2 * kind..2 * kind + 2) {
            Some(count) => image::number(count) as usize,
            None => 0,
        }
    }
}

/// What must be shown: a heading, a name, and whether an input shows it.
struct Class {
    heading: String,
    name: String,
    shown: Box<dyn Fn(&Seen<'_>) -> bool>,
}

impl Class {
    fn new(heading: &str, name: &str, shown: impl Fn(&Seen<'_>) -> bool + 'static) -> Self {
        Self {
            heading: heading.to_string(),
            name: name.to_string(),
            shown: Box::new(shown),
        }
    }
}

/// A name, and what must hold of an input.
type Named = (&'static str, fn(&Seen<'_>) -> bool);

/// Everything that must be shown.
fn classes() -> Vec<Class> {
    let mut classes = lengths();
    classes.extend(counts());
    classes.extend(fits());
    classes.extend(rows());
    classes.extend(rooms());
    classes.extend(written());
    classes.extend(several());
    classes
}

fn lengths() -> Vec<Class> {
    let class = |length: usize| {
        let shown = move |seen: &Seen<'_>| seen.input.counts.len() == length;
        Class::new(
            "1, counts not of 18 bytes",
            &format!("{length} bytes"),
            shown,
        )
    };
    [0, 17, 19, 40].map(class).into()
}

fn counts() -> Vec<Class> {
    let at = |kind: usize| {
        let place = COUNTS_AT + 2 * kind;
        let name = format!("{} at {place}", ROWS[kind].0);
        let refused = Refused { number: 3, place };
        (name, move |seen: &Seen<'_>| seen.answer == Err(refused))
    };
    let mut classes = Vec::new();
    for (kind, &(most, _)) in KINDS.iter().enumerate() {
        let (name, answered) = at(kind);
        let shown = move |seen: &Seen<'_>| answered(seen) && seen.count(kind) > most;
        classes.push(Class::new("3, a count past its limit", &name, shown));
    }
    for kind in [SCOPE, REACTOR] {
        let (name, answered) = at(kind);
        let shown = move |seen: &Seen<'_>| answered(seen) && seen.count(kind) == 0;
        classes.push(Class::new("3, none where one is needed", &name, shown));
    }
    let heading = "a count at its limit, not refused for it";
    for (kind, &(most, _)) in KINDS.iter().enumerate() {
        let shown = move |seen: &Seen<'_>| seen.past.is_empty() && seen.count(kind) == most;
        classes.push(Class::new(heading, ROWS[kind].0, shown));
    }
    classes
}

/// Whether a row of several bytes has so many.
fn is_width(bytes: i64) -> bool {
    bytes > 1 && KINDS.iter().any(|&(_, width)| width as i64 == bytes)
}

fn fits() -> Vec<Class> {
    type Measure = fn(i64, usize) -> bool;
    let fits: [(&str, Measure); 7] = [
        ("a byte short", |more, _| more == -1),
        ("a byte long", |more, _| more == 1),
        ("a row short", |more, _| is_width(-more)),
        ("a row long", |more, _| is_width(more)),
        ("none at all", |_, rows| rows == 0),
        ("100,000 bytes", |_, rows| rows == FAR),
        ("65,536 bytes long", |more, _| more == TWO_BYTES as i64),
    ];
    let class = |(name, measure): (&str, Measure)| {
        let shown = move |seen: &Seen<'_>| {
            seen.decided_by(Fit) && measure(seen.more_rows.unwrap_or(0), seen.input.rows.len())
        };
        Class::new("1, rows that don't fit the counts", name, shown)
    };
    fits.map(class).into()
}

fn rows() -> Vec<Class> {
    let mut classes = Vec::new();
    for (kind, rules) in RULES.iter().enumerate() {
        for (rule, (name, _)) in rules.iter().enumerate() {
            let first = move |broken: &Broken| (broken.kind, broken.rule) == (kind, rule);
            let heading = format!("4, a row of kind {}", ROWS[kind].0);
            let shown = move |seen: &Seen<'_>| seen.decided_by(Row) && first(&seen.broken[0]);
            classes.push(Class::new(&heading, name, shown));
        }
    }
    let places: [Named; 3] = [
        ("the first of its kind", |seen| seen.broken[0].row == 0),
        ("a later one", |seen| seen.broken[0].row > 0),
        ("the table's last", |seen| {
            let Broken { place, kind, .. } = seen.broken[0];
            place + KINDS[kind].1 == ROWS_AT + seen.input.rows.len()
        }),
    ];
    classes.extend(places.map(|(name, place)| {
        let shown = move |seen: &Seen<'_>| seen.decided_by(Row) && place(seen);
        Class::new("4, which row", name, shown)
    }));
    classes
}

fn rooms() -> Vec<Class> {
    let rooms: [Named; 3] = [
        ("of 0 bytes", |seen| seen.input.room == 0),
        ("a byte short", |seen| seen.more_room == -1),
        ("of less", |seen| seen.more_room < -1 && seen.input.room > 0),
    ];
    let class = |(name, room): Named| {
        let shown = move |seen: &Seen<'_>| seen.decided_by(Room) && room(seen);
        Class::new("1, a buffer too short", name, shown)
    };
    rooms.map(class).into()
}

fn written() -> Vec<Class> {
    let written: [Named; 6] = [
        ("into a buffer that fits", |seen| seen.more_room == 0),
        ("a byte longer", |seen| seen.more_room == 1),
        ("longer", |seen| seen.more_room > 1),
        ("65,536 bytes longer", |seen| {
            seen.more_room == TWO_BYTES as i64
        }),
        ("33 bytes, the smallest", |seen| seen.answer == Ok(SMALLEST)),
        ("3,283 bytes, the largest", |seen| {
            seen.answer == Ok(LARGEST_ACCEPTED)
        }),
    ];
    let class = |(name, which): Named| {
        let shown = move |seen: &Seen<'_>| seen.answer.is_ok() && which(seen);
        Class::new("written", name, shown)
    };
    written.map(class).into()
}

fn several() -> Vec<Class> {
    let heading = "several faults, the first is answered";
    // Those of two that are both answered 1 at 0 show no order.
    let together: [(&str, &'static [Fault]); 9] = [
        ("counts' length, a count", &[Length, Count]),
        ("counts' length, a row", &[Length, Row]),
        ("a count, rows that don't fit", &[Count, Fit]),
        ("a count, a row", &[Count, Row]),
        ("a count, the buffer", &[Count, Room]),
        ("rows that don't fit, a row", &[Fit, Row]),
        ("a row, the buffer", &[Row, Room]),
        ("a count, a row, the buffer", &[Count, Row, Room]),
        (
            "a count, rows that don't fit, the buffer",
            &[Count, Fit, Room],
        ),
    ];
    let class = |(name, faults)| {
        let shown = move |seen: &Seen<'_>| seen.faults == faults;
        Class::new(heading, name, shown)
    };
    let mut classes: Vec<Class> = together.map(class).into();
    classes.push(Class::new(heading, "two counts", |seen| {
        seen.decided_by(Count) && seen.past.len() > 1
    }));
    classes.push(Class::new(heading, "two rows", |seen| {
        seen.decided_by(Row) && seen.broken.len() > 1
    }));
    classes
}

/// So many inputs.
pub fn make(seed: u64, count: usize) -> Result<Made, String> {
    let mut rng = Rng::new(seed);
    let inputs: Vec<Input> = (0..count).map(|index| made(&mut rng, index)).collect();
    let summary = summary(&inputs)?;
    Ok(Made { inputs, summary })
}

/// How many inputs show each class; an error where they don't show enough.
fn summary(inputs: &[Input]) -> Result<String, String> {
    let classes = classes();
    let mut shown = vec![0; classes.len()];
    let mut by_number = [0; 5];
    for input in inputs {
        let seen = Seen::of(input);
        if !seen.first_is_answered() {
            let (answer, faults) = (seen.answer, seen.faults);
            return Err(format!("{faults:?} is answered {answer:?}: {input:?}"));
        }
        for (class, shown) in classes.iter().zip(&mut shown) {
            *shown += usize::from((class.shown)(&seen));
        }
        by_number[seen
            .answer
            .map_or_else(|refused| usize::from(refused.number), |_| 0)] += 1;
    }
    let refused = inputs.len() - by_number[0];
    let mut lines = format!(
        "{} inputs, {} written, {refused} refused, 1: {}, 3: {}, 4: {}",
        inputs.len(),
        by_number[0],
        by_number[1],
        by_number[3],
        by_number[4]
    );
    let mut heading = "";
    for (class, shown) in classes.iter().zip(&shown) {
        if *shown == 0 {
            return Err(format!(
                "none of {} inputs shows \"{}: {}\"",
                inputs.len(),
                class.heading,
                class.name
            ));
        }
        lines += &match class.heading == heading {
            true => format!("; {}: {shown}", class.name),
            false => format!("\n  {}: {}: {shown}", class.heading, class.name),
        };
        heading = &class.heading;
    }
    match inputs.len() <= 4 * refused && 2 * refused <= inputs.len() {
        true => Ok(lines),
        false => Err(format!(
            "not between a quarter and a half of {} inputs are refused, but {refused}",
            inputs.len()
        )),
    }
}
