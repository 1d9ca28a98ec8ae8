//! The fact lines of the proved program `explained`, read as they come: the table, then one record after another. Nothing is computed here but the
//! place of a record in the file, by adding up the bytes before it. An answer at odds with its sources is not taken.

use std::io::BufRead;

/// No scope, mode, action or parent; also the root's queue.
pub const NONE: u64 = 65535;

/// An offset in days, or in hours, minutes, seconds and nanoseconds.
#[derive(Clone, Copy, Default)]
pub struct Time {
    pub days: u64,
    pub hours: u64,
    pub minutes: u64,
    pub seconds: u64,
    pub nanoseconds: u64,
}

impl Time {
    /// How many of its small units are nothing: 3 for whole hours, 0 where there are nanoseconds.
    pub fn roundness(&self) -> usize {
        [self.nanoseconds, self.seconds, self.minutes]
            .iter()
            .take_while(|part| **part == 0)
            .count()
    }
}

#[derive(Clone, Copy, PartialEq, Eq, PartialOrd, Ord, Default)]
pub struct Tag {
    pub offset: u64,
    pub microstep: u64,
}

/// A tag of a queue, and what it is on the global scale.
#[derive(Clone, Copy)]
pub struct Place {
    pub queue: u64,
    pub tag: Tag,
    pub active: bool,
    pub image: Option<Tag>,
    pub held: bool,
}

#[derive(Clone, Copy, PartialEq)]
pub struct Scope {
    pub active: bool,
    pub allowed: bool,
    pub activation: Tag,
    pub activation_local: Tag,
    pub suspended: Tag,
}

/// A global tag on a scope's scale.
#[derive(Clone, Copy)]
pub struct Local {
    pub scope: u64,
    pub tag: Option<Tag>,
}

/// A kind's count, its limits and where it stands.
#[derive(Clone, Copy)]
pub struct Count {
    pub total: u64,
    pub least: u64,
    pub most: u64,
    pub place: u64,
}

/// The times that a part of the facts has told.
#[derive(Default, Clone)]
pub struct Times(Vec<(u64, Time)>);

impl Times {
    pub fn get(&self, offset: u64) -> Option<Time> {
        if offset == 0 {
            return Some(Time::default());
        }
        let found = self.0.iter().rev().find(|told| told.0 == offset);
        found.map(|told| told.1)
    }

    /// Those of some offsets alone.
    fn keep(&mut self, offsets: impl Iterator<Item = u64>, told: &Times) {
        let kept: Vec<(u64, Time)> = offsets
            .filter_map(|offset| {
                let time = told.get(offset).or_else(|| self.get(offset))?;
                Some((offset, time))
            })
            .collect();
        self.0 = kept;
    }
}

/// The image: its rows, or why it is refused.
#[derive(Default)]
pub struct Table {
    pub answer: String,
    pub counts: Vec<Count>,
    /// Kind, number and fields.
    pub rows: Vec<(u64, u64, [u64; 3])>,
    /// What the length says, and how many bytes there are.
    pub image: (u64, u64),
    /// The check's step, and what it looked at.
    pub refusal: (u64, u64),
    /// Kind, row, rule, and of a missing key its place in the row and the kind it names.
    pub fault: [u64; 5],
    pub bytes: Vec<u64>,
    /// Each timer's offset as it were with its lowest byte first.
    pub turned: Vec<u64>,
    pub modes: Vec<u64>,
    pub scopes: Vec<Scope>,
    pub times: Times,
}

impl Table {
    pub fn accepted(&self) -> bool {
        self.answer == "table ok"
    }

    pub fn row(&self, kind: u64, i: u64) -> [u64; 3] {
        self.rows
            .iter()
            .find(|row| (row.0, row.1) == (kind, i))
            .map_or([NONE; 3], |row| row.2)
    }

    pub fn total(&self, kind: usize) -> u64 {
        self.counts.get(kind).map_or(0, |count| count.total)
    }

    /// Whether a scope is another or lies under it.
    pub fn inside(&self, mut scope: u64, outer: u64) -> bool {
        // a parent is lower than its scope
        while scope != outer {
            let parent = self.row(0, scope)[0];
            if parent >= scope {
                return false;
            }
            scope = parent;
        }
        true
    }

    /// Whether a record asks for a reset of what a scope lies in.
    pub fn resets(&self, record: &Record, scope: u64) -> bool {
        let [op, _, mode, kind, ..] = record.call;
        op == 5 && kind == 1 && self.inside(scope, self.row(2, mode)[0])
    }

    /// The timers that a transition by reset to a mode starts: their numbers and fields.
    pub fn started(&self, mode: u64) -> impl Iterator<Item = (u64, [u64; 3])> + '_ {
        let outer = self.row(2, mode)[0];
        let timers = self.rows.iter().filter(|row| row.0 == 8);
        timers
            .filter(move |row| self.inside(self.row(4, row.2[0])[0], outer))
            .map(|row| (row.1, row.2))
    }
}

/// One record: what it asks, what stood before it, its answer, and what stands after it.
#[derive(Default)]
pub struct Record {
    /// The place of its first byte in the file.
    pub place: u64,
    pub bytes: u64,
    pub version: u64,
    pub op: u64,
    /// Op or 0, action or reactor, mode, terminal or reset, offset, microstep.
    pub call: [u64; 6],
    pub keys: Vec<u64>,
    /// The kind and the key that is lacking.
    pub lacks: [u64; 2],
    pub locals: Vec<Local>,
    pub queues: Vec<Place>,
    pub takes: Vec<Place>,
    /// What the length says and how many bytes there are, where the run ends here.
    pub cut: Option<(u64, u64)>,
    /// How many bytes of the file are not read, from this record on.
    pub unread: u64,
    pub answer: String,
    /// Events, ordinary ones, values, buckets.
    pub held: [u64; 4],
    pub into: Option<Place>,
    pub modes: Vec<u64>,
    pub scopes: Vec<Scope>,
    pub queues_after: Vec<Place>,
    pub times: Times,
}

impl Record {
    pub fn tag(&self) -> Tag {
        Tag {
            offset: self.call[4],
            microstep: self.call[5],
        }
    }

    pub fn accepted(&self) -> bool {
        self.answer == "ok"
    }

    /// The word behind a name in the answer.
    pub fn said(&self, name: &str) -> Option<&str> {
        self.answer
            .split(' ')
            .skip_while(|word| *word != name)
            .nth(1)
    }

    /// Whether an event in the ready one was held back, by the answer's own word.
    pub fn held_back(&self) -> bool {
        self.said("held") == Some("1")
    }

    /// The answer's word and the places that it took from say the same, or the program that finds the facts is wrong.
    fn agrees(&self) -> bool {
        self.held_back() == self.takes.iter().any(|place| place.held)
    }

    /// An accepted transition: what stands now is other than before.
    pub fn turns(&self) -> bool {
        self.call[0] == 5 && self.accepted()
    }
}

/// What stands: modes, scopes, the times of their clocks, and how much is held.
#[derive(Clone)]
pub struct State {
    pub modes: Vec<u64>,
    pub scopes: Vec<Scope>,
    pub held: [u64; 4],
    pub times: Times,
}

impl State {
    pub fn of(table: &Table) -> Self {
        State {
            modes: table.modes.clone(),
            scopes: table.scopes.clone(),
            held: [0; 4],
            times: table.times.clone(),
        }
    }

    /// The state after a record.
    pub fn follow(&mut self, record: &Record) {
        self.held = record.held;
        if record.turns() {
            self.modes.clone_from(&record.modes);
            self.scopes.clone_from(&record.scopes);
            let clocks = record.scopes.iter();
            let offsets = clocks.flat_map(|scope| {
                [scope.activation, scope.activation_local, scope.suspended].map(|tag| tag.offset)
            });
            self.times.keep(offsets, &record.times);
        }
    }
}

/// The words of a line as numbers; what is missing is 0.
fn numbers<const N: usize>(words: &[u64]) -> [u64; N] {
    std::array::from_fn(|i| words.get(i).copied().unwrap_or(0))
}

fn tag(offset: u64, microstep: u64) -> Tag {
    Tag { offset, microstep }
}

fn time(words: &[u64]) -> (u64, Time) {
    let [offset, days, hours, minutes, seconds, nanoseconds] = numbers(words);
    let time = Time {
        days,
        hours,
        minutes,
        seconds,
        nanoseconds,
    };
    (offset, time)
}

fn place(words: &[u64]) -> Place {
    let [queue, offset, microstep, active, found, image, step, held] = numbers(words);
    Place {
        queue,
        tag: tag(offset, microstep),
        active: active == 1,
        image: (found == 1).then(|| tag(image, step)),
        held: held == 1,
    }
}

fn scope(words: &[u64]) -> Scope {
    let [_, active, _, allowed, g, g_step, l, l_step, s, s_step] = numbers(words);
    Scope {
        active: active == 1,
        allowed: allowed == 1,
        activation: tag(g, g_step),
        activation_local: tag(l, l_step),
        suspended: tag(s, s_step),
    }
}

/// The facts, a part at a time.
pub struct Facts<R> {
    input: R,
    line: Vec<u8>,
    words: Vec<u64>,
    /// Where the next record stands in the file.
    place: u64,
}

impl<R: BufRead> Facts<R> {
    pub fn new(input: R) -> Self {
        Facts {
            input,
            line: Vec::new(),
            words: Vec::new(),
            place: 0,
        }
    }

    /// The next line into the hand, its numbers taken out; whether there is one.
    fn next(&mut self) -> std::io::Result<bool> {
        self.line.clear();
        if self.input.read_until(b'\n', &mut self.line)? == 0 {
            return Ok(false);
        }
        if self.line.last() == Some(&b'\n') {
            self.line.pop();
        }
        self.words.clear();
        if !self.line.starts_with(b"answer") {
            for word in self.line.split(|byte| *byte == b' ').skip(1) {
                let number = word
                    .iter()
                    .fold(0u64, |number, digit| number * 10 + u64::from(digit - b'0'));
                self.words.push(number);
            }
        }
        Ok(true)
    }

    fn name(&self) -> &[u8] {
        let end = self.line.iter().position(|byte| *byte == b' ');
        &self.line[..end.unwrap_or(self.line.len())]
    }

    /// What stands behind the name.
    fn rest(&self) -> String {
        let start = (self.name().len() + 1).min(self.line.len());
        String::from_utf8_lossy(&self.line[start..]).into_owned()
    }

    /// The facts broke off.
    fn broken() -> std::io::Error {
        std::io::Error::new(std::io::ErrorKind::UnexpectedEof, "they break off")
    }

    /// The facts of one record contradict each other.
    fn at_odds(place: u64) -> std::io::Error {
        let words = format!(
            "of the record at byte {place} they do not agree on whether an event was held back"
        );
        std::io::Error::new(std::io::ErrorKind::InvalidData, words)
    }

    pub fn table(&mut self) -> std::io::Result<Table> {
        let mut table = Table::default();
        while self.next()? {
            let [first, second, third, fourth, fifth] = numbers(&self.words);
            match self.name() {
                b"answer" => table.answer = self.rest(),
                b"count" => table.counts.push(Count {
                    total: second,
                    least: third,
                    most: fourth,
                    place: fifth,
                }),
                b"row" => table.rows.push((first, second, [third, fourth, fifth])),
                b"turned" => table.turned.push(second),
                b"image" => table.image = (first, second),
                b"refusal" => table.refusal = (first, second),
                b"fault" => table.fault = numbers(&self.words),
                b"byte" => table.bytes.push(second),
                b"mode" => table.modes.push(second),
                b"scope" => table.scopes.push(scope(&self.words)),
                b"time" => table.times.0.push(time(&self.words)),
                b"records" => {
                    self.place = table.image.1;
                    return Ok(table);
                }
                _ => {}
            }
        }
        // a refused table has no records
        if table.answer.starts_with("table refused") {
            return Ok(table);
        }
        Err(Self::broken())
    }

    /// The next record, if there is one.
    pub fn record(&mut self) -> std::io::Result<Option<Record>> {
        if !self.next()? {
            return Ok(None);
        }
        let mut record = Record::default();
        self.begin(&mut record);
        while self.next()? {
            if self.name() == b"end" {
                if !record.agrees() {
                    return Err(Self::at_odds(record.place));
                }
                return Ok(Some(record));
            }
            self.take(&mut record);
        }
        Err(Self::broken())
    }

    fn begin(&mut self, record: &mut Record) {
        record.place = self.place;
        if self.name() == b"cut" {
            let [said, there] = numbers(&self.words);
            record.cut = Some((said, there));
            return;
        }
        [record.bytes, record.version, record.op] = numbers(&self.words);
        self.place += record.bytes;
    }

    fn take(&mut self, record: &mut Record) {
        let words = &self.words;
        let [first, second, third, fourth] = numbers(words);
        match self.name() {
            b"answer" => record.answer = self.rest(),
            b"time" => record.times.0.push(time(words)),
            b"call" => record.call = numbers(words),
            b"key" => record.keys.push(second),
            b"lacks" => record.lacks = [second, third],
            b"local" => record.locals.push(Local {
                scope: first,
                tag: (second == 1).then(|| tag(third, fourth)),
            }),
            b"queue" if record.answer.is_empty() => record.queues.push(place(words)),
            b"queue" => record.queues_after.push(place(words)),
            b"take" => record.takes.push(place(words)),
            b"held" => record.held = numbers(words),
            b"into" => record.into = Some(place(words)),
            b"mode" => record.modes.push(second),
            b"scope" => record.scopes.push(scope(words)),
            // the bytes that were looked at are not read either: its length's four, where they are there, and its own
            b"unread" => {
                let (said, there) = record.cut.unwrap_or_default();
                record.unread = first + there + if said > 0 { 4 } else { 0 };
            }
            _ => {}
        }
    }

    /// Whether more facts are at hand without waiting for them.
    pub fn at_hand(&self) -> bool
    where
        R: Buffered,
    {
        self.input.holds()
    }
}

/// A reader that can say whether it holds bytes already.
pub trait Buffered {
    fn holds(&self) -> bool;
}

impl<T: std::io::Read> Buffered for std::io::BufReader<T> {
    fn holds(&self) -> bool {
        !self.buffer().is_empty()
    }
}

#[cfg(test)]
pub mod tests {
    use super::*;

    /// What a pop at 30 minutes, step 1, takes: a root event, and events of scope 1, which was entered at 30 minutes: one due at the entry itself, so
    /// moved to its next step, and one due at that step by itself.
    pub const ROOT: &str = "take 65535 1800000000000 1 1 1 1800000000000 1 0";
    pub const MOVED: &str = "take 1 0 0 1 1 1800000000000 1 1";
    pub const DUE: &str = "take 1 0 1 1 1 1800000000000 1 0";

    /// A day of one pop that takes these, with this word on held in its answer.
    pub fn popped(takes: &[&str], held: &str) -> std::io::Result<(Table, Record)> {
        let text = format!(
            "answer table ok\nscope 0 1 1 1 0 0 0 0 0 0\nscope 1 1 1 0 1800000000000 0 0 0 0 0\ntime 1800000000000 0 0 30 0 0\nrecords\n\
             record 6 1 6\ncall 6 0 0 0 0 0\n{}\n\
             answer ready 1800000000000 1 terminal 0 work 1 network 0 held {held} reactions 0:3 actions 3\nheld 0 0 0 0\nend\n",
            takes.join("\n")
        );
        let mut facts = Facts::new(text.as_bytes());
        let table = facts.table()?;
        let record = facts.record()?;
        Ok((table, record.expect("a record")))
    }

    #[test]
    fn held_is_the_answer_s_word() {
        for (takes, held) in [
            (&[MOVED][..], "1"),
            (&[DUE], "0"),
            (&[ROOT], "0"),
            (&[ROOT, MOVED], "1"),
            (&[ROOT, DUE], "0"),
            (&[MOVED, DUE], "1"),
        ] {
            let (_, record) = popped(takes, held).unwrap();
            assert_eq!(record.held_back(), held == "1", "{takes:?}");
            assert_eq!(record.said("network"), Some("0"));
            assert_eq!(record.said("reactions"), Some("0:3"));
        }
    }

    #[test]
    fn an_answer_at_odds_with_its_places_is_no_fact() {
        for (takes, held) in [
            (&[MOVED][..], "0"),
            (&[DUE], "1"),
            (&[ROOT], "1"),
            (&[ROOT, MOVED], "0"),
            (&[ROOT, DUE], "1"),
        ] {
            let error = popped(takes, held).err().expect("refused facts");
            assert!(
                error.to_string().contains("held back"),
                "{takes:?}: {error}"
            );
        }
    }
}
