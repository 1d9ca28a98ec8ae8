//! The table image: check with number and place, the rows decoded once (01, "The table image"), and the writer of images
//! (02, C-11). The rules of counts and rows stand here once, for both; so do 01's limits, which all else cites.

// ---------------------------------------------------------------- limits

/// Most bytes of an image, its length field included.
pub const LARGEST: usize = 3287;
/// Bytes of the largest image that is accepted: the first scope has no parent, so there is one mode less. And of the smallest.
pub const LARGEST_ACCEPTED: usize = LARGEST - KINDS[MODE].1;
pub const SMALLEST: usize = ROWS_AT + KINDS[SCOPE].1 + KINDS[REACTOR].1;
/// Most rows and bytes a row of the nine kinds, in the image's order.
pub const KINDS: [(usize, usize); 9] = [
    (32, 6),
    (16, 4),
    (32, 4),
    (128, 1),
    (64, 3),
    (256, 4),
    (64, 6),
    (64, 4),
    (64, 14),
];
/// Greatest level of a reaction.
pub const MAX_LEVEL: u8 = 15;
/// Greatest offset of a tag.
pub const MAX_OFFSET: u64 = (1 << 62) - 1;
/// Greatest microstep of a tag.
pub const MAX_MICROSTEP: u32 = u32::MAX;
/// Most events that wait, and most values and buckets that are held.
pub const MOST: usize = 256;
/// Most bytes after a record's length.
pub const LONGEST: usize = 512;
/// Most reactions that a record names.
pub const MOST_REACTIONS: usize = 128;

/// The nine kinds of rows.
pub const SCOPE: usize = 0;
pub const REACTOR: usize = 1;
pub const MODE: usize = 2;
pub const REACTION: usize = 3;
pub const ACTION: usize = 4;
pub const TRIGGER: usize = 5;
pub const STARTUP: usize = 6;
pub const RESET: usize = 7;
pub const TIMER: usize = 8;

/// The key that means "none".
pub const NONE: u16 = 65535;
/// Place of the first count and of the first row.
pub const COUNTS_AT: usize = 5;
pub const ROWS_AT: usize = 23;

// ---------------------------------------------------------------- an accepted table

/// A tag as the bytes give it; its offset may be beyond the limit.
#[derive(Debug, Clone, Copy, PartialEq, Eq, PartialOrd, Ord, Hash)]
pub struct RawTag {
    pub offset: u64,
    pub microstep: u32,
}

impl RawTag {
    pub const ZERO: Self = Self {
        offset: 0,
        microstep: 0,
    };

    pub fn new(offset: u64, microstep: u32) -> Self {
        Self { offset, microstep }
    }

    pub fn within_limits(self) -> bool {
        self.offset <= MAX_OFFSET
    }

    /// As it stands in images and records.
    pub fn bytes(self) -> Vec<u8> {
        let (offset, microstep) = (self.offset.to_be_bytes(), self.microstep.to_be_bytes());
        [&offset[..], &microstep].concat()
    }
}

#[derive(Debug, Clone, Copy)]
pub struct Scope {
    pub parent: Option<usize>,
    pub reactor: usize,
    pub mode: Option<usize>,
}

#[derive(Debug, Clone, Copy)]
pub struct Reactor {
    pub root: usize,
    pub initial: Option<usize>,
}

#[derive(Debug, Clone, Copy)]
pub struct Mode {
    pub scope: usize,
    pub reactor: usize,
}

#[derive(Debug, Clone, Copy)]
pub struct Action {
    pub scope: usize,
    pub logical: bool,
}

#[derive(Debug, Clone, Copy)]
pub struct Startup {
    pub scope: usize,
    pub action: usize,
    pub reaction: usize,
}

#[derive(Debug, Clone, Copy)]
pub struct Timer {
    pub action: usize,
    pub tag: RawTag,
}

/// An accepted table.
#[derive(Debug, Clone, Default)]
pub struct Table {
    pub scopes: Vec<Scope>,
    pub reactors: Vec<Reactor>,
    pub modes: Vec<Mode>,
    /// Level of each reaction.
    pub levels: Vec<u8>,
    pub actions: Vec<Action>,
    /// (action, reaction)
    pub triggers: Vec<(usize, usize)>,
    pub startups: Vec<Startup>,
    /// (scope, reaction)
    pub resets: Vec<(usize, usize)>,
    pub timers: Vec<Timer>,
}

/// Why an image was refused: number and place.
#[derive(Debug, Clone, Copy, PartialEq, Eq)]
pub struct Refused {
    pub number: u8,
    pub place: usize,
}

impl std::fmt::Display for Refused {
    fn fmt(&self, f: &mut std::fmt::Formatter<'_>) -> std::fmt::Result {
        write!(f, "table refused {} {}", self.number, self.place)
    }
}

fn refused<T>(number: u8, place: usize) -> Result<T, Refused> {
    Err(Refused { number, place })
}

/// Big-endian number in all of these bytes.
pub fn number(bytes: &[u8]) -> u64 {
    bytes
        .iter()
        .fold(0, |value, &byte| (value << 8) | u64::from(byte))
}

/// Bytes behind their length in four.
pub fn with_length(bytes: &[u8]) -> Vec<u8> {
    [&(bytes.len() as u32).to_be_bytes()[..], bytes].concat()
}

/// Takes a day apart into its checked table and the bytes of its records. An image that is cut short or over the
/// largest is refused before anything in it is looked at.
pub fn open(day: &[u8]) -> Result<(Table, &[u8]), Refused> {
    if day.len() < 4 {
        return refused(1, 0);
    }
    let length = number(&day[..4]) as usize + 4;
    if length > LARGEST || length > day.len() {
        return refused(1, 0);
    }
    let (image, records) = day.split_at(length);
    Ok((check(image)?, records))
}

/// Checks an image in 01's order and decodes it.
pub fn check(image: &[u8]) -> Result<Table, Refused> {
    if image.len() < COUNTS_AT || number(&image[..4]) != image.len() as u64 - 4 {
        return refused(1, 0);
    }
    if image[4] != 1 {
        return refused(2, 4);
    }
    if image.len() < ROWS_AT {
        return refused(1, 0);
    }
    if let Some(place) = past_limits(&image[COUNTS_AT..ROWS_AT]).next() {
        return refused(3, place);
    }
    let rows = RawRows::new(image);
    if rows.end() != image.len() {
        return refused(1, 0);
    }
    if let Some(broken) = rows.broken().next() {
        return refused(4, broken.place);
    }
    Ok(rows.decode())
}

/// Fills the front of a buffer with the image of these counts (nine of two bytes) and rows (the bytes of all, in the image's
/// order), and says how many bytes it used; bytes past them stay. Refusals in 02's order; the buffer then keeps every byte.
pub fn write(counts: &[u8], rows: &[u8], buffer: &mut [u8]) -> Result<usize, Refused> {
    // An image that ends before its counts do, or has more of them, is refused before any of them is looked at.
    if counts.len() != ROWS_AT - COUNTS_AT {
        return refused(1, 0);
    }
    // The reader's 3.
    if let Some(place) = past_limits(counts).next() {
        return refused(3, place);
    }
    // 1 for rows that don't fit the counts.
    if ROWS_AT + rows.len() != starts(counts)[9] {
        return refused(1, 0);
    }
    // The reader's 4, at the place where the row stands in the image.
    let image = with_length(&[&[1], counts, rows].concat());
    if let Some(broken) = RawRows::new(&image).broken().next() {
        return refused(4, broken.place);
    }
    // 1 for a buffer too short.
    let Some(front) = buffer.get_mut(..image.len()) else {
        return refused(1, 0);
    };
    front.copy_from_slice(&image);
    Ok(image.len())
}

/// The counts in these bytes.
fn numbers(counts: &[u8]) -> impl Iterator<Item = usize> + '_ {
    counts.chunks_exact(2).map(|count| number(count) as usize)
}

/// The places in an image of those counts that are past their limits: too many, or no scope or no reactor.
pub fn past_limits(counts: &[u8]) -> impl Iterator<Item = usize> + '_ {
    let past = |(kind, count): (usize, usize)| {
        count > KINDS[kind].0 || ((kind == SCOPE || kind == REACTOR) && count == 0)
    };
    (0..KINDS.len())
        .zip(numbers(counts))
        .filter(move |&row| past(row))
        .map(|(kind, _)| COUNTS_AT + 2 * kind)
}

/// Places of each kind's first row in an image with these counts, and the end.
pub fn starts(counts: &[u8]) -> [usize; 10] {
    let mut starts = [ROWS_AT; 10];
    for (kind, count) in numbers(counts).take(KINDS.len()).enumerate() {
        starts[kind + 1] = starts[kind] + count * KINDS[kind].1;
    }
    starts
}

/// The rows while they are being checked.
pub struct RawRows<'a> {
    image: &'a [u8],
    counts: [usize; 9],
    /// Place of each kind's first row, and the end.
    starts: [usize; 10],
}

/// A row that breaks a rule: its place, its kind, its number in it, and which of the kind's `RULES`.
#[derive(Debug, Clone, Copy, PartialEq, Eq)]
pub struct Broken {
    pub place: usize,
    pub kind: usize,
    pub row: usize,
    pub rule: usize,
}

impl<'a> RawRows<'a> {
    /// Of an image that has its counts at least.
    pub fn new(image: &'a [u8]) -> Self {
        let counted = &image[COUNTS_AT..ROWS_AT];
        let mut counts = [0; 9];
        counts
            .iter_mut()
            .zip(numbers(counted))
            .for_each(|(at, count)| *at = count);
        Self {
            image,
            counts,
            starts: starts(counted),
        }
    }

    /// Where the rows end.
    pub fn end(&self) -> usize {
        self.starts[9]
    }

    /// The rows that break a rule, in order. All of them stand in the image.
    pub fn broken(&self) -> impl Iterator<Item = Broken> + '_ {
        let rows = (0..9).flat_map(|kind| (0..self.counts[kind]).map(move |row| (kind, row)));
        rows.filter_map(move |(kind, row)| {
            let rows = self;
            let breaks = |(_, keeps): &Rule| !keeps(Row { rows, kind, row });
            let rule = RULES[kind].iter().position(breaks)?;
            let place = self.place(kind, row);
            Some(Broken {
                place,
                kind,
                row,
                rule,
            })
        })
    }

    fn place(&self, kind: usize, row: usize) -> usize {
        self.starts[kind] + row * KINDS[kind].1
    }

    /// What each row of a kind becomes.
    fn each<T>(&self, kind: usize, decoded: impl Fn(Row<'_>) -> T) -> Vec<T> {
        let rows = self;
        (0..self.counts[kind])
            .map(|row| decoded(Row { rows, kind, row }))
            .collect()
    }

    fn decode(&self) -> Table {
        Table {
            scopes: self.each(SCOPE, |row| Scope {
                parent: row.optional(0),
                reactor: row.index(2),
                mode: row.optional(4),
            }),
            reactors: self.each(REACTOR, |row| Reactor {
                root: row.index(0),
                initial: row.optional(2),
            }),
            modes: self.each(MODE, |row| Mode {
                scope: row.index(0),
                reactor: row.index(2),
            }),
            levels: self.each(REACTION, |row| row.byte(0)),
            actions: self.each(ACTION, |row| Action {
                scope: row.index(0),
                logical: row.byte(2) == 1,
            }),
            triggers: self.each(TRIGGER, |row| (row.index(0), row.index(2))),
            startups: self.each(STARTUP, |row| Startup {
                scope: row.index(0),
                action: row.index(2),
                reaction: row.index(4),
            }),
            resets: self.each(RESET, |row| (row.index(0), row.index(2))),
            timers: self.each(TIMER, |row| Timer {
                action: row.index(0),
                tag: row.tag(2),
            }),
        }
    }
}

/// One row while it is being checked.
#[derive(Clone, Copy)]
pub struct Row<'r> {
    rows: &'r RawRows<'r>,
    kind: usize,
    row: usize,
}

impl Row<'_> {
    /// So many bytes of it from there on.
    fn bytes(&self, at: usize, count: usize) -> &[u8] {
        let place = self.rows.place(self.kind, self.row) + at;
        &self.rows.image[place..place + count]
    }

    fn byte(self, at: usize) -> u8 {
        self.bytes(at, 1)[0]
    }

    fn key(self, at: usize) -> u16 {
        number(self.bytes(at, 2)) as u16
    }

    /// The key there as an index.
    fn index(self, at: usize) -> usize {
        usize::from(self.key(at))
    }

    /// The same where it may be none.
    fn optional(self, at: usize) -> Option<usize> {
        (!self.is_none(at)).then_some(self.index(at))
    }

    fn tag(self, at: usize) -> RawTag {
        let offset = number(self.bytes(at, 8));
        RawTag::new(offset, number(self.bytes(at + 8, 4)) as u32)
    }

    fn is_none(self, at: usize) -> bool {
        self.key(at) == NONE
    }

    /// Whether the key there is one of that kind.
    fn has(self, at: usize, kind: usize) -> bool {
        self.index(at) < self.rows.counts[kind]
    }

    /// The row of that kind that the key there names.
    fn named(self, at: usize, kind: usize) -> Self {
        let row = self.index(at);
        Self { kind, row, ..self }
    }

    /// Whether the key there is this row's number.
    fn is(self, at: usize, row: Self) -> bool {
        self.index(at) == row.row
    }

    /// Whether a scope lies strictly under another. A parent that is not lower, or none, ends the walk.
    fn lies_under(self, above: u16) -> bool {
        self.index(0) < self.row && (self.key(0) == above || self.named(0, SCOPE).lies_under(above))
    }
}

/// What is wrong with a row that breaks a rule, and whether a row keeps it; it keeps those before it.
type Rule = (&'static str, fn(Row<'_>) -> bool);

/// The rules of each kind's rows, in order. A scope row answers also for the mode it names: agreement, and lying under the
/// reactor's root scope.
pub const RULES: [&[Rule]; 9] = [
    &[
        ("a parent that is not lower", |row| {
            row.is_none(0) || row.index(0) < row.row
        }),
        ("no such reactor", |row| row.has(2, REACTOR)),
        ("no such mode", |row| row.is_none(4) || row.has(4, MODE)),
        ("a mode and no parent", |row| {
            row.is_none(4) || !row.is_none(0)
        }),
        ("a mode of another scope", |row| {
            row.is_none(4) || row.named(4, MODE).is(0, row)
        }),
        ("a mode of another reactor", |row| {
            row.is_none(4) || row.named(4, MODE).key(2) == row.key(2)
        }),
        ("a mode not under its reactor's root", |row| {
            row.is_none(4) || row.lies_under(row.named(2, REACTOR).key(0))
        }),
    ],
    &[
        ("no such root scope", |row| row.has(0, SCOPE)),
        ("no such initial mode", |row| {
            row.is_none(2) || row.has(2, MODE)
        }),
        ("an initial mode of another reactor", |row| {
            row.is_none(2) || row.named(2, MODE).is(2, row)
        }),
    ],
    &[
        ("no such scope", |row| row.has(0, SCOPE)),
        ("no such reactor", |row| row.has(2, REACTOR)),
        ("a scope that doesn't name it back", |row| {
            row.named(0, SCOPE).is(4, row)
        }),
    ],
    &[("a level over 15", |row| row.byte(0) <= MAX_LEVEL)],
    &[
        ("no such scope", |row| row.has(0, SCOPE)),
        ("logical neither 0 nor 1", |row| row.byte(2) <= 1),
    ],
    &[
        ("no such action", |row| row.has(0, ACTION)),
        ("no such reaction", |row| row.has(2, REACTION)),
    ],
    &[
        ("no such scope", |row| row.has(0, SCOPE)),
        ("no such action", |row| row.has(2, ACTION)),
        ("no such reaction", |row| row.has(4, REACTION)),
    ],
    &[
        ("no such scope", |row| row.has(0, SCOPE)),
        ("no such reaction", |row| row.has(2, REACTION)),
    ],
    &[
        ("no such action", |row| row.has(0, ACTION)),
        ("a tag beyond the limits", |row| row.tag(2).within_limits()),
    ],
];

impl Table {
    /// Whether some scope names a mode.
    pub fn is_modal(&self) -> bool {
        self.scopes.iter().any(|scope| scope.mode.is_some())
    }

    /// The scope whose queue takes a push of an action; none for the root's.
    pub fn queue_of(&self, action: usize) -> Option<usize> {
        let Action { scope, logical } = self.actions[action];
        let has_parent = self.scopes[scope].parent.is_some();
        (logical && has_parent && self.is_modal()).then_some(scope)
    }

    /// Whether a scope is `above` or lies under it.
    pub fn in_subtree(&self, scope: usize, above: usize) -> bool {
        let mut at = Some(scope);
        while let Some(scope) = at {
            if scope == above {
                return true;
            }
            at = self.scopes[scope].parent;
        }
        false
    }
}
