//! The facts of a day as a picture: a band for each part's mode, one for each scope while it is active, and in the rows of the queues the
//! timers where they start, the pushes where they are due and the events where they became ready. Every moment named has a column of its own; the
//! axis is not to scale, and the picture says so.

use crate::facts::{Record, Scope, State, Table, Tag, NONE};
use crate::words::Teller;
use std::collections::BTreeMap;
use std::fmt::Write;

/// A picture shows at most so many records.
pub const MOST: usize = 400;
const LEFT: f64 = 96.0;
const TOP: f64 = 112.0;
const ROW: f64 = 22.0;
const BOTTOM: f64 = 220.0;
/// The bands of modes, and of active scopes; what is pushed, ready, held back or refused.
const MODES: [&str; 6] = [
    "#1a5fa8", "#b45a00", "#2e7d32", "#6a3d9a", "#00695c", "#8d6e00",
];
const ACTIVE: &str = "#dbe7f3";
const INK: &str = "#222222";
const ALARM: &str = "#c01818";
const TIMER: &str = "#2e7d32";
/// At most so many moments have their time written below.
const LABELS: usize = 40;
/// A line of words has so many letters.
const LETTERS: usize = 130;

fn escaped(words: &str) -> String {
    words
        .replace('&', "&amp;")
        .replace('<', "&lt;")
        .replace('>', "&gt;")
}

/// Where a record's push is due: on the global scale if its scope is active, else where it was asked for.
fn due(record: &Record) -> Tag {
    match record.into {
        Some(place) if place.active => place.image.unwrap_or(record.tag()),
        _ => record.tag(),
    }
}

fn ready(record: &Record) -> Option<Tag> {
    let mut words = record.answer.strip_prefix("ready ")?.split(' ');
    Some(Tag {
        offset: words.next()?.parse().ok()?,
        microstep: words.next()?.parse().ok()?,
    })
}

fn is_push(record: &Record) -> bool {
    (1..=4).contains(&record.call[0])
}

/// The moment that a record is drawn at.
fn moment(record: &Record) -> Option<Tag> {
    match record.call[0] {
        _ if record.cut.is_some() => None,
        0 => None,
        6 => ready(record),
        _ if is_push(record) && record.answer == "ok" => Some(due(record)),
        _ => Some(record.tag()),
    }
}

/// The records that are drawn, each with its words, and what stood before the first.
pub struct Shown<'a> {
    pub table: &'a Table,
    pub before: &'a State,
    pub records: &'a [(Record, String)],
}

/// What a row is for.
#[derive(Clone, Copy, PartialEq)]
enum Row {
    Part(usize),
    Root,
    Scope(usize),
}

fn queue_row(queue: u64) -> Row {
    if queue == NONE {
        Row::Root
    } else {
        Row::Scope(queue as usize)
    }
}

/// The rows that have something to show: parts that are ever in a mode, the root, and scopes that are ever active or have an event.
fn rows(shown: &Shown) -> Vec<Row> {
    let records = || shown.records.iter().map(|(record, _)| record);
    let turns = || records().filter(|record| record.turns());
    let moded = |part: usize| {
        let mut states =
            std::iter::once(&shown.before.modes).chain(turns().map(|record| &record.modes));
        states.any(|modes| modes.get(part).is_some_and(|mode| *mode != NONE))
    };
    let woken = |i: usize| {
        let mut states =
            std::iter::once(&shown.before.scopes).chain(turns().map(|record| &record.scopes));
        states.any(|scopes| scopes.get(i).is_some_and(|scope| scope.active))
    };
    let used = |i: usize| {
        records().any(|record| {
            let mut places = record.into.iter().chain(&record.takes);
            places.any(|place| place.queue == i as u64)
                || started(shown.table, record).any(|(_, scope)| scope == i)
        })
    };
    let parts = (0..shown.before.modes.len())
        .filter(|part| moded(*part))
        .map(Row::Part);
    let scopes = (0..shown.before.scopes.len())
        .filter(|i| woken(*i) || used(*i))
        .map(Row::Scope);
    parts
        .chain(std::iter::once(Row::Root))
        .chain(scopes)
        .collect()
}

/// The timers that a record starts, each with its scope.
fn started<'a>(table: &'a Table, record: &Record) -> impl Iterator<Item = (u64, usize)> + 'a {
    let resets = record.turns() && record.call[3] == 1;
    table
        .started(record.call[2])
        .filter(move |_| resets)
        .map(|(i, fields)| (i, table.row(4, fields[0])[0] as usize))
}

struct Picture<'a> {
    shown: &'a Shown<'a>,
    columns: Vec<Tag>,
    step: f64,
    rows: Vec<Row>,
    out: String,
}

impl Picture<'_> {
    fn x(&self, tag: Tag) -> f64 {
        let at = self.columns.binary_search(&tag).unwrap_or_else(|at| at);
        LEFT + self.step * (at as f64 + 0.5)
    }

    fn end(&self) -> f64 {
        LEFT + self.step * self.columns.len().max(1) as f64
    }

    /// The top of a row, if it is drawn.
    fn y(&self, row: Row) -> Option<f64> {
        let at = self.rows.iter().position(|other| *other == row)?;
        Some(TOP + ROW * at as f64)
    }

    /// Below the last row.
    fn low(&self) -> f64 {
        TOP + ROW * self.rows.len() as f64
    }

    fn text(&mut self, x: f64, y: f64, more: &str, words: &str) {
        let _ = writeln!(
            self.out,
            "<text x=\"{x:.1}\" y=\"{y:.1}\" {more}>{}</text>",
            escaped(words)
        );
    }

    fn band(&mut self, row: Row, from: f64, to: f64, colour: &str, title: &str) {
        let Some(y) = self.y(row).map(|y| y + 3.0) else {
            return;
        };
        let width = (to - from).max(1.0);
        let height = ROW - 6.0;
        let _ = writeln!(
            self.out,
            "<rect x=\"{from:.1}\" y=\"{y:.1}\" width=\"{width:.1}\" height=\"{height:.1}\" fill=\"{colour}\"><title>{}</title></rect>",
            escaped(title)
        );
    }

    fn dot(&mut self, row: Row, x: f64, style: &str, title: &str) {
        let Some(y) = self.y(row).map(|y| y + ROW / 2.0) else {
            return;
        };
        let _ = writeln!(
            self.out,
            "<circle cx=\"{x:.1}\" cy=\"{y:.1}\" r=\"4.5\" {style}><title>{}</title></circle>",
            escaped(title)
        );
    }

    /// The names of the rows, and a line for each.
    fn frame(&mut self) {
        let end = self.end();
        for (at, row) in self.rows.clone().into_iter().enumerate() {
            let name = match row {
                Row::Part(part) => format!("part {part}"),
                Row::Root => "root queue".to_string(),
                Row::Scope(i) => format!("scope {i}"),
            };
            let y = TOP + ROW * (at as f64 + 0.5);
            self.text(8.0, y + 4.0, "", &name);
            let _ = writeln!(self.out, "<line x1=\"{LEFT}\" y1=\"{y:.1}\" x2=\"{end:.1}\" y2=\"{y:.1}\" stroke=\"#cccccc\"/>");
        }
    }

    /// What holds from one moment to another: each part's mode, and the active scopes.
    fn state(&mut self, modes: &[u64], scopes: &[Scope], from: f64, to: f64) {
        for (part, mode) in modes.iter().enumerate() {
            if let (false, Some(top)) = (*mode == NONE, self.y(Row::Part(part))) {
                let colour = MODES[*mode as usize % MODES.len()];
                self.band(
                    Row::Part(part),
                    from,
                    to,
                    colour,
                    &format!("part {part} is in mode {mode}"),
                );
                let y = top + ROW / 2.0 + 4.0;
                if to - from > 50.0 {
                    self.text(from + 3.0, y, "fill=\"#ffffff\"", &format!("mode {mode}"));
                } else if to - from > 14.0 {
                    self.text(from + 3.0, y, "fill=\"#ffffff\"", &mode.to_string());
                }
            }
        }
        for (i, scope) in scopes.iter().enumerate() {
            if scope.active {
                self.band(
                    Row::Scope(i),
                    from,
                    to,
                    ACTIVE,
                    &format!("scope {i} is active"),
                );
            }
        }
    }

    /// The bands, from one accepted transition to the next that is later.
    fn bands(&mut self) {
        let shown = self.shown;
        let (mut modes, mut scopes) = (&shown.before.modes, &shown.before.scopes);
        let mut from = LEFT;
        let records = shown.records.iter().map(|(record, _)| record);
        for record in records.filter(|record| record.turns()) {
            let to = self.x(record.tag()).max(from);
            self.state(modes, scopes, from, to);
            (modes, scopes, from) = (&record.modes, &record.scopes, to);
        }
        let end = self.end();
        self.state(modes, scopes, from, end);
    }

    /// A timer's start: a triangle that points to later.
    fn start(&mut self, row: Row, x: f64, title: &str) {
        let Some(y) = self.y(row).map(|y| y + ROW / 2.0) else {
            return;
        };
        let (tip, top, low) = (x + 8.0, y - 5.0, y + 5.0);
        let _ = writeln!(
            self.out,
            "<path d=\"M{x:.1} {top:.1} L{tip:.1} {y:.1} L{x:.1} {low:.1} Z\" fill=\"{TIMER}\"><title>{}</title></path>",
            escaped(title)
        );
    }

    fn marks(&mut self) {
        let shown = self.shown;
        for (record, words) in shown.records {
            let Some(tag) = moment(record) else { continue };
            let x = self.x(tag);
            if record.answer.starts_with("refused") {
                let y = TOP - 6.0;
                let _ = writeln!(
                    self.out,
                    "<text x=\"{x:.1}\" y=\"{y:.1}\" fill=\"{ALARM}\" text-anchor=\"middle\">x<title>{}</title></text>",
                    escaped(words)
                );
            } else if record.call[0] == 5 {
                let (top, low) = (TOP, self.low());
                let _ = writeln!(
                    self.out,
                    "<line x1=\"{x:.1}\" y1=\"{top:.1}\" x2=\"{x:.1}\" y2=\"{low:.1}\" stroke=\"{INK}\" stroke-dasharray=\"3 3\"><title>{}</title></line>",
                    escaped(words)
                );
                for (timer, scope) in started(shown.table, record) {
                    let title = format!("timer {timer} starts: {words}");
                    self.start(Row::Scope(scope), x, &title);
                }
            } else if record.call[0] == 6 {
                // red where the answer says held, in the rows of what was moved
                let held = record.held_back();
                for place in &record.takes {
                    let edge = if held && place.held { ALARM } else { INK };
                    self.dot(
                        queue_row(place.queue),
                        x,
                        &format!("fill=\"{edge}\""),
                        words,
                    );
                }
            } else if let Some(place) = record.into {
                let dashes = if place.active {
                    ""
                } else {
                    " stroke-dasharray=\"2 2\""
                };
                let edge = if place.held { ALARM } else { INK };
                self.dot(
                    queue_row(place.queue),
                    x - 2.0,
                    &format!("fill=\"#ffffff\" stroke=\"{edge}\"{dashes}"),
                    words,
                );
            }
        }
    }

    /// The times below, as many as there is room for.
    fn labels(&mut self, times: &BTreeMap<Tag, String>) {
        let every = self.columns.len() / LABELS + 1;
        let low = self.low();
        for tag in self.columns.clone().into_iter().step_by(every) {
            let (x, y) = (self.x(tag), low + 8.0);
            let turned = format!("transform=\"rotate(60 {x:.1} {y:.1})\" font-size=\"9\"");
            self.text(x, y, &turned, times.get(&tag).map_or("", String::as_str));
        }
    }
}

/// Words in lines that fit.
fn wrapped(words: &str) -> Vec<String> {
    let mut lines = vec![String::new()];
    for word in words.split(' ') {
        let last = lines.len() - 1;
        if !lines[last].is_empty() && lines[last].len() + word.len() >= LETTERS {
            lines.push(word.to_string());
        } else {
            if !lines[last].is_empty() {
                lines[last].push(' ');
            }
            lines[last].push_str(word);
        }
    }
    lines
}

const LEGEND: &str = "Coloured: the mode that is current. Shaded: the scope is active. Triangle: a timer starts. Ring: pushed, due there (dashed: asleep). Dot: ready. Red: held back; x refused.";
const NO_SCALE: &str =
    "NO SCALE OF TIME: every moment has a column of its own, however far the next; the times stand below.";

const BOLD: &str = "font-weight=\"bold\"";

/// The picture of a day under its head; what it leaves out is said.
pub fn drawn(shown: &Shown, head: &[String], left_out: Option<String>) -> String {
    let teller = Teller::new(shown.table);
    let mut times = BTreeMap::new();
    for (record, _) in shown.records {
        if let Some(tag) = moment(record) {
            times.insert(tag, teller.time(&record.times, tag));
        }
    }
    let columns: Vec<Tag> = times.keys().copied().collect();
    let step = (1100.0 / columns.len().max(1) as f64).clamp(5.0, 48.0);
    let mut picture = Picture {
        shown,
        step,
        columns,
        rows: rows(shown),
        out: String::new(),
    };
    let width = (picture.end() + 120.0).max(980.0);
    let height = picture.low() + BOTTOM;
    let _ = writeln!(
        picture.out,
        "<svg xmlns=\"http://www.w3.org/2000/svg\" width=\"{width:.0}\" height=\"{height:.0}\" viewBox=\"0 0 {width:.0} {height:.0}\" font-family=\"sans-serif\" font-size=\"11\" fill=\"{INK}\">"
    );
    let _ = writeln!(
        picture.out,
        "<rect width=\"100%\" height=\"100%\" fill=\"#ffffff\"/>"
    );
    let first = head.first().map_or("", String::as_str);
    if !shown.table.accepted() {
        for (i, line) in wrapped(first).iter().enumerate() {
            let y = 24.0 + 20.0 * i as f64;
            picture.text(8.0, y, &format!("font-size=\"13\" fill=\"{ALARM}\""), line);
        }
    } else {
        picture.text(8.0, 18.0, "font-size=\"13\"", first);
        for (i, line) in wrapped(LEGEND).iter().enumerate() {
            picture.text(8.0, 36.0 + 15.0 * i as f64, "", line);
        }
        picture.text(8.0, 70.0, BOLD, NO_SCALE);
        picture.text(8.0, 88.0, BOLD, left_out.as_deref().unwrap_or(""));
        picture.frame();
        picture.bands();
        picture.marks();
        picture.labels(&times);
    }
    picture.out.push_str("</svg>\n");
    picture.out
}

#[cfg(test)]
mod tests {
    use super::*;
    use crate::facts::tests::{popped, DUE, MOVED, ROOT};

    /// The colours of a pop's dots, in the order of taking.
    fn coloured((table, record): (Table, Record)) -> Vec<String> {
        let table = &table;
        let shown = Shown {
            table,
            before: &State::of(table),
            records: &[(record, String::new())],
        };
        let picture = drawn(&shown, &[], None);
        let circles = picture.lines().filter(|line| line.starts_with("<circle"));
        circles
            .map(|line| {
                line.split('"')
                    .skip_while(|word| !word.ends_with("fill="))
                    .nth(1)
                    .unwrap_or("")
                    .to_string()
            })
            .collect()
    }

    #[test]
    fn what_was_held_back_is_red() {
        for (takes, held, colours) in [
            (&[MOVED][..], "1", &[ALARM][..]),
            (&[DUE], "0", &[INK]),
            (&[ROOT, MOVED], "1", &[INK, ALARM]),
            (&[ROOT, DUE], "0", &[INK, INK]),
        ] {
            assert_eq!(coloured(popped(takes, held).unwrap()), colours);
        }
    }

    #[test]
    fn no_dot_is_red_where_the_answer_says_not_held() {
        let (table, mut record) = popped(&[MOVED], "1").unwrap();
        record.answer = record.answer.replace("held 1", "held 0");
        assert_eq!(coloured((table, record)), [INK]);
    }
}
