//! `oracle picture TEXT SVG`: a day of rising tags as a picture, run by the plain machine once the published Rust has
//! agreed on the states. Global time goes to the right, the local time of every scope that has local events upward.
//! The comments behind `scope` and `action` rows are their names; the text's first line is the title.

use std::fmt::Write;

use crate::deep;
use crate::image::{self, RawTag, Table};
use crate::plain::{Outcome, Plain, State};
use crate::records::{split, Op};
use crate::text;

const MINUTE: f64 = 60e9;
/// Width and height of the picture, and of its margins: left, top, right, bottom.
const SIZE: (f64, f64) = (960.0, 672.0);
const MARGINS: (f64, f64, f64, f64) = (64.0, 164.0, 24.0, 128.0);
/// One colour for each drawn scope, and that of what is held back or dropped.
const COLOURS: [&str; 4] = ["#1a5fa8", "#b45a00", "#2e7d32", "#6a3d9a"];
const ALARM: &str = "#c01818";
const INK: &str = "#222222";
/// Minutes between the lines of the grid.
const GRID: f64 = 10.0;

/// What became of an event.
#[derive(Clone, Copy)]
enum End {
    Waits,
    Ready(RawTag),
    Dropped(RawTag),
}

/// An event in a scope: its local tag never changes, its global one may.
struct Track {
    scope: usize,
    action: Option<usize>,
    local: RawTag,
    /// Where it was due on the global scale, one after another.
    due: Vec<RawTag>,
    /// Where it would have been due if it were not held back, in minutes.
    would: Option<f64>,
    end: End,
}

/// A piece of a scope's clock, in minutes.
struct Piece {
    scope: usize,
    /// The scope of its reactor's current mode.
    current: Option<usize>,
    from: (f64, f64),
    to: (f64, f64),
    kind: Kind,
}

#[derive(Clone, Copy, PartialEq)]
enum Kind {
    Runs,
    Stands,
    SetBack,
}

/// A transition: when, and what it says.
struct Turn {
    at: f64,
    words: String,
}

/// What is drawn.
struct Run {
    title: String,
    actions: Vec<String>,
    names: Vec<String>,
    /// The drawn scopes.
    scopes: Vec<usize>,
    tracks: Vec<Track>,
    pieces: Vec<Piece>,
    turns: Vec<Turn>,
    /// The last minute drawn, on both scales.
    last: (f64, f64),
}

fn minutes(tag: RawTag) -> f64 {
    tag.offset as f64 / MINUTE
}

/// "30 min", "30 min, step 1".
fn words(tag: RawTag) -> String {
    match tag.microstep {
        0 => format!("{} min", minutes(tag)),
        step => format!("{} min, step {step}", minutes(tag)),
    }
}

/// The comments behind the rows of a kind, as many as there are rows.
fn names(text: &str, kind: &str, count: usize) -> Vec<String> {
    text.lines()
        .filter(|line| line.split_whitespace().next() == Some(kind))
        .map(|line| line.split_once('#').map_or(kind, |(_, name)| name.trim()))
        .map(escaped)
        .chain(std::iter::repeat(kind.to_string()))
        .take(count)
        .collect()
}

fn escaped(words: &str) -> String {
    words
        .replace('&', "&amp;")
        .replace('<', "&lt;")
        .replace('>', "&gt;")
}

/// Where a scope's clock stands at a moment.
fn reading(state: &State, scope: usize, now: RawTag) -> f64 {
    let clock = state.clocks[scope];
    match clock.to_local(now) {
        Ok(local) if state.active[scope] => minutes(local),
        _ => minutes(clock.suspended),
    }
}

/// The picture of a day's text.
pub fn picture(text: &str) -> Result<String, String> {
    let day = text::assemble(text)?;
    deep::agree(&day)?;
    let (table, records) = image::open(&day).map_err(|refused| refused.to_string())?;
    let ops: Vec<Op> = split(records).into_iter().map(|record| record.op).collect();
    Ok(drawn(&run(text, &table, &ops)))
}

/// A day being run, and what is drawn of it so far.
struct Drawing<'t> {
    table: &'t Table,
    /// Names of the scopes.
    names: Vec<String>,
    plain: Plain<'t>,
    tracks: Vec<Track>,
    /// The tracks of the events that wait, in their order; the root's have none.
    waiting: Vec<Option<usize>>,
    pieces: Vec<Piece>,
    turns: Vec<Turn>,
    /// Each scope's last point.
    points: Vec<(f64, f64)>,
}

fn run(text: &str, table: &Table, ops: &[Op]) -> Run {
    let mut drawing = Drawing {
        table,
        names: names(text, "scope", table.scopes.len()),
        plain: Plain::new(table),
        tracks: Vec::new(),
        waiting: Vec::new(),
        pieces: Vec::new(),
        turns: Vec::new(),
        points: vec![(0.0, 0.0); table.scopes.len()],
    };
    for op in ops {
        drawing.step(op);
    }
    drawing.finish(text)
}

impl Drawing<'_> {
    fn step(&mut self, op: &Op) {
        let before = self.plain.state.clone();
        let outcome = self.plain.step(op);
        if matches!(outcome, Outcome::Refused(_)) {
            return;
        }
        self.leave(op, &outcome, &before);
        self.arrive();
        self.note_due(matches!(op, Op::Action { .. }));
        if let Op::Transition {
            mode, reset, tag, ..
        } = *op
        {
            self.turn(usize::from(mode), reset, tag, &before);
        }
    }

    /// What left, and how.
    fn leave(&mut self, op: &Op, outcome: &Outcome, before: &State) {
        let (left, end): (Vec<bool>, End) = match (op, outcome) {
            (
                Op::Transition {
                    mode,
                    reset: true,
                    tag,
                    ..
                },
                _,
            ) => {
                let target = self.table.modes[usize::from(*mode)].scope;
                let inside = |scope: usize| self.table.in_subtree(scope, target);
                let left = before.events.iter();
                let left = left.map(|event| event.scope.is_some_and(inside));
                (left.collect(), End::Dropped(*tag))
            }
            (_, Outcome::Popped(Some(ready))) => {
                let mut rest = self.plain.state.events.iter().peekable();
                let left = before.events.iter();
                let left = left.map(|event| rest.next_if(|other| *other == event).is_none());
                (left.collect(), End::Ready(ready.tag()))
            }
            _ => return,
        };
        let mut stayed = Vec::new();
        for (track, gone) in std::mem::take(&mut self.waiting).into_iter().zip(left) {
            match track {
                Some(at) if gone => self.tracks[at].end = end,
                _ if gone => {}
                _ => stayed.push(track),
            }
        }
        self.waiting = stayed;
    }

    /// Tracks for what waits now.
    fn arrive(&mut self) {
        for event in &self.plain.state.events[self.waiting.len()..] {
            self.waiting.push(event.scope.map(|_| self.tracks.len()));
            self.tracks.extend(event.scope.map(|scope| Track {
                scope,
                action: event.action.map(|(action, _)| action),
                local: event.tag,
                due: Vec::new(),
                would: None,
                end: End::Waits,
            }));
        }
    }

    /// Where events are due now: known in an active scope, and asked for by a push in any.
    fn note_due(&mut self, pushed: bool) {
        let state = &self.plain.state;
        for (event, at) in state.events.iter().zip(&self.waiting) {
            let (Some(at), Some(scope)) = (*at, event.scope) else {
                continue;
            };
            let (active, clock) = (state.active[scope], state.clocks[scope]);
            let track = &mut self.tracks[at];
            let asked = event.action.filter(|_| pushed && track.due.is_empty());
            let mapped = clock.to_global(event.tag).ok().filter(|_| active);
            let due = match active {
                true => mapped.map(|mapped| mapped.tag),
                false => asked.map(|(_, stored)| stored),
            };
            if due.is_some() && due != track.due.last().copied() {
                track.due.extend(due);
                if mapped.is_some_and(|mapped| mapped.held) {
                    track.would =
                        Some(minutes(clock.global) + minutes(event.tag) - minutes(clock.local));
                }
            }
        }
    }

    /// The clocks up to a transition, and over it.
    fn turn(&mut self, mode: usize, reset: bool, tag: RawTag, before: &State) {
        let kind = if reset { "reset" } else { "history" };
        let name = &self.names[self.table.modes[mode].scope];
        self.turns.push(Turn {
            at: minutes(tag),
            words: format!("{}: {name} ({kind})", words(tag)),
        });
        for scope in 0..self.points.len() {
            let point = |state: &State| (minutes(tag), reading(state, scope, tag));
            let (here, next) = (point(before), point(&self.plain.state));
            self.piece(scope, before, here);
            self.pieces.push(Piece {
                scope,
                current: self.current(scope, before),
                from: here,
                to: next,
                kind: Kind::SetBack,
            });
            self.points[scope] = next;
        }
    }

    /// The scope of the current mode of a scope's reactor.
    fn current(&self, scope: usize, state: &State) -> Option<usize> {
        state.modes[self.table.scopes[scope].reactor].map(|mode| self.table.modes[mode].scope)
    }

    /// A scope's clock from its last point on.
    fn piece(&mut self, scope: usize, state: &State, to: (f64, f64)) {
        let kind = match state.active[scope] {
            true => Kind::Runs,
            false => Kind::Stands,
        };
        self.pieces.push(Piece {
            scope,
            current: self.current(scope, state),
            from: self.points[scope],
            to,
            kind,
        });
    }

    fn finish(mut self, text: &str) -> Run {
        let due = self.tracks.iter().flat_map(|track| &track.due);
        let seen = due.map(|&due| minutes(due));
        let seen = seen.chain(self.turns.iter().map(|turn| turn.at));
        let end = next_line(seen.fold(0.0, f64::max));
        let now = RawTag::new((end * MINUTE) as u64, 0);
        let last = self.plain.state.clone();
        for scope in 0..self.points.len() {
            self.piece(scope, &last, (end, reading(&last, scope, now)));
        }
        let mut scopes: Vec<usize> = (0..self.table.scopes.len()).collect();
        scopes.retain(|&scope| self.tracks.iter().any(|track| track.scope == scope));
        let drawn = self.pieces.iter();
        let drawn = drawn.filter(|piece| scopes.contains(&piece.scope));
        let top = drawn.map(|piece| piece.to.1).fold(0.0, f64::max);
        Run {
            title: text::about(text)
                .first()
                .map_or(String::new(), |line| escaped(line)),
            actions: names(text, "action", self.table.actions.len()),
            last: (end, next_line(top)),
            names: self.names,
            scopes,
            tracks: self.tracks,
            pieces: self.pieces,
            turns: self.turns,
        }
    }
}

/// The grid's next line after a minute.
fn next_line(minute: f64) -> f64 {
    (minute / GRID).floor() * GRID + GRID
}

/// Writes a line of the picture; writing to a string cannot fail.
macro_rules! put {
    ($out:expr, $($words:tt)*) => {
        let _ = writeln!($out, $($words)*);
    };
}

fn x(run: &Run, minute: f64) -> f64 {
    MARGINS.0 + minute / run.last.0 * (SIZE.0 - MARGINS.0 - MARGINS.2)
}

fn y(run: &Run, minute: f64) -> f64 {
    SIZE.1 - MARGINS.3 - minute / run.last.1 * (SIZE.1 - MARGINS.1 - MARGINS.3)
}

fn line(out: &mut String, from: (f64, f64), to: (f64, f64), style: &str) {
    put!(
        out,
        "<line x1=\"{:.1}\" y1=\"{:.1}\" x2=\"{:.1}\" y2=\"{:.1}\" {style}/>",
        from.0,
        from.1,
        to.0,
        to.1
    );
}

/// Words on a white edge, so that a line behind them does not hide them.
fn label(out: &mut String, at: (f64, f64), style: &str, words: &str) {
    put!(out, "<text x=\"{:.1}\" y=\"{:.1}\" paint-order=\"stroke\" stroke=\"#ffffff\" stroke-width=\"4\" {style}>{words}</text>", at.0, at.1);
}

/// Due there once, or asked for.
fn asked(out: &mut String, at: (f64, f64), colour: &str) {
    put!(out, "<circle cx=\"{:.1}\" cy=\"{:.1}\" r=\"4.5\" fill=\"#ffffff\" stroke=\"{colour}\" stroke-width=\"1.5\"/>", at.0, at.1);
}

/// Handed out.
fn handed(out: &mut String, at: (f64, f64), colour: &str) {
    put!(
        out,
        "<circle cx=\"{:.1}\" cy=\"{:.1}\" r=\"5.5\" fill=\"{colour}\"/>",
        at.0,
        at.1
    );
}

/// Handed out at the step after an entry.
fn held(out: &mut String, at: (f64, f64)) {
    put!(
        out,
        "<path d=\"M {:.1} {:.1} l 7 7 l -7 7 l -7 -7 z\" fill=\"{ALARM}\"/>",
        at.0,
        at.1 - 7.0
    );
}

/// Dropped.
fn cross(out: &mut String, at: (f64, f64)) {
    put!(out, "<path d=\"M {:.1} {:.1} l 11 11 m 0 -11 l -11 11\" stroke=\"{ALARM}\" stroke-width=\"2.5\" fill=\"none\"/>", at.0 - 5.5, at.1 - 5.5);
}

fn stroke(colour: &str, kind: Kind) -> String {
    let (width, dashes) = match kind {
        Kind::Runs => (3.0, ""),
        Kind::Stands => (2.0, " stroke-dasharray=\"7 5\""),
        Kind::SetBack => (1.5, " stroke-dasharray=\"1.5 4\""),
    };
    format!("stroke=\"{colour}\" stroke-width=\"{width}\"{dashes}")
}

fn drawn(run: &Run) -> String {
    let mut out = String::new();
    put!(out, "<svg xmlns=\"http://www.w3.org/2000/svg\" viewBox=\"0 0 {0} {1}\" width=\"{0}\" height=\"{1}\" font-family=\"sans-serif\" font-size=\"12\" fill=\"{INK}\">", SIZE.0, SIZE.1);
    put!(out, "<title>{}</title>", run.title);
    put!(
        out,
        "<rect width=\"100%\" height=\"100%\" fill=\"#ffffff\"/>"
    );
    put!(
        out,
        "<text x=\"{:.1}\" y=\"22\" font-size=\"15\" font-weight=\"bold\">{}</text>",
        MARGINS.0,
        run.title
    );
    grid(&mut out, run);
    for (at, scope) in run.scopes.iter().enumerate() {
        for piece in run
            .pieces
            .iter()
            .filter(|piece| piece.scope == *scope && piece.from != piece.to)
        {
            let place = |point: (f64, f64)| (x(run, point.0), y(run, point.1));
            line(
                &mut out,
                place(piece.from),
                place(piece.to),
                &stroke(COLOURS[at % COLOURS.len()], piece.kind),
            );
        }
    }
    for track in &run.tracks {
        event(&mut out, run, track);
    }
    legend(&mut out, run);
    out.push_str("</svg>\n");
    out
}

/// Where the first drawn scope stands still, the lines at every ten minutes, the axes and the transitions.
fn grid(out: &mut String, run: &Run) {
    let (top, bottom) = (y(run, run.last.1), y(run, 0.0));
    standing(out, run, top, bottom);
    grid_lines(out, run, top, bottom);
    let axis = format!("stroke=\"{INK}\"");
    line(
        out,
        (x(run, 0.0), bottom),
        (x(run, run.last.0), bottom),
        &axis,
    );
    line(out, (x(run, 0.0), top), (x(run, 0.0), bottom), &axis);
    put!(out, "<text x=\"{:.1}\" y=\"{:.1}\" text-anchor=\"middle\">global time: minutes since the day began</text>", x(run, run.last.0 / 2.0), bottom + 36.0);
    put!(out, "<text transform=\"translate(20 {:.1}) rotate(-90)\" text-anchor=\"middle\">local time: minutes on the mode's own clock</text>", (top + bottom) / 2.0);
    for turn in &run.turns {
        line(
            out,
            (x(run, turn.at), top - 6.0),
            (x(run, turn.at), bottom),
            "stroke=\"#888888\" stroke-width=\"0.8\"",
        );
        put!(
            out,
            "<text transform=\"translate({:.1} {:.1}) rotate(-42)\" font-size=\"11\">{}</text>",
            x(run, turn.at),
            top - 10.0,
            turn.words
        );
    }
}

/// Where the first drawn scope stands still.
fn standing(out: &mut String, run: &Run, top: f64, bottom: f64) {
    let first = run.scopes.first();
    for piece in &run.pieces {
        let width = x(run, piece.to.0) - x(run, piece.from.0);
        if Some(&piece.scope) == first && piece.kind == Kind::Stands && width > 0.0 {
            put!(out, "<rect x=\"{:.1}\" y=\"{top:.1}\" width=\"{width:.1}\" height=\"{:.1}\" fill=\"#eeeeee\"/>", x(run, piece.from.0), bottom - top);
            let name = piece
                .current
                .map_or("off", |scope| run.names[scope].as_str());
            label(
                out,
                (x(run, piece.from.0) + width / 2.0, top + 18.0),
                "text-anchor=\"middle\" fill=\"#666666\"",
                name,
            );
        }
    }
}

/// The lines at every ten minutes, with their minutes.
fn grid_lines(out: &mut String, run: &Run, top: f64, bottom: f64) {
    let thin = "stroke=\"#dddddd\"";
    for step in 0..=(run.last.0 / GRID) as usize {
        let minute = step as f64 * GRID;
        line(out, (x(run, minute), top), (x(run, minute), bottom), thin);
        put!(
            out,
            "<text x=\"{:.1}\" y=\"{:.1}\" text-anchor=\"middle\">{minute}</text>",
            x(run, minute),
            bottom + 17.0
        );
    }
    for step in 0..=(run.last.1 / GRID) as usize {
        let minute = step as f64 * GRID;
        line(
            out,
            (x(run, 0.0), y(run, minute)),
            (x(run, run.last.0), y(run, minute)),
            thin,
        );
        put!(
            out,
            "<text x=\"{:.1}\" y=\"{:.1}\" text-anchor=\"end\">{minute}</text>",
            MARGINS.0 - 8.0,
            y(run, minute) + 4.0
        );
    }
}

/// An event's way: it stays at its local time while its global time moves.
fn event(out: &mut String, run: &Run, track: &Track) {
    let colour = run
        .scopes
        .iter()
        .position(|&scope| scope == track.scope)
        .map_or(INK, |at| COLOURS[at % COLOURS.len()]);
    let height = y(run, minutes(track.local));
    let place = |tag: RawTag| (x(run, minutes(tag)), height);
    let way = format!("stroke=\"{colour}\" stroke-width=\"1.2\"");
    let last = match track.end {
        End::Ready(tag) | End::Dropped(tag) => Some(tag),
        End::Waits => track.due.last().copied(),
    };
    let (Some(&first), Some(last)) = (track.due.first(), last) else {
        return;
    };
    line(out, place(first), place(last), &way);
    for &due in track.due.iter().filter(|&&due| due != last) {
        asked(out, place(due), colour);
    }
    ending(out, run, track, place(last), colour);
}

/// What became of an event, at the end of its way.
fn ending(out: &mut String, run: &Run, track: &Track, end: (f64, f64), colour: &str) {
    let name = track
        .action
        .map_or("event", |action| run.actions[action].as_str());
    // Below the clock's line; above it where the picture ends.
    let (beside, side) = match end.0 > SIZE.0 - 110.0 {
        true => ((end.0 - 9.0, end.1 - 7.0), "end"),
        false => ((end.0 + 9.0, end.1 + 16.0), "start"),
    };
    let plain = format!("text-anchor=\"{side}\" fill=\"{colour}\"");
    match (&track.end, track.would) {
        (End::Ready(tag), Some(would)) => {
            let foot = (end.0 + 50.0, y(run, 0.0) - 21.0);
            let thin = format!("stroke=\"{ALARM}\" stroke-width=\"0.8\"");
            let alarm = format!("text-anchor=\"{side}\" fill=\"{ALARM}\"");
            let below = format!("held back to {}", words(*tag));
            line(out, end, (foot.0 - 4.0, foot.1 - 4.0), &thin);
            asked(out, (x(run, would), end.1), ALARM);
            held(out, end);
            label(out, foot, &alarm, &format!("{name}: would be {would} min,"));
            label(out, (foot.0, foot.1 + 14.0), &alarm, &below);
        }
        (End::Ready(tag), None) => {
            handed(out, end, colour);
            label(out, beside, &plain, &format!("{name} {}", words(*tag)));
        }
        (End::Dropped(_), _) => {
            let (before, style) = ((end.0 - 9.0, end.1 - 8.0), "text-anchor=\"end\"");
            let style = format!("{style} fill=\"{ALARM}\"");
            cross(out, end);
            label(out, before, &style, &format!("{name} dropped"));
        }
        (End::Waits, _) => {
            asked(out, end, colour);
            label(out, beside, &plain, &format!("{name} waits"));
        }
    }
}

fn legend(out: &mut String, run: &Run) {
    let foot = SIZE.1 - 62.0;
    let columns = [0.0, 225.0, 450.0, 620.0];
    let place = |at: usize, row: usize| (MARGINS.0 + columns[at], foot + row as f64 * 22.0);
    let words = |out: &mut String, at: (f64, f64), words: &str| {
        put!(
            out,
            "<text x=\"{:.1}\" y=\"{:.1}\">{words}</text>",
            at.0 + 34.0,
            at.1 + 4.0
        );
    };
    let sample =
        |out: &mut String, at: (f64, f64), style: &str| line(out, at, (at.0 + 26.0, at.1), style);
    for (at, &scope) in run.scopes.iter().enumerate() {
        sample(
            out,
            place(0, at),
            &stroke(COLOURS[at % COLOURS.len()], Kind::Runs),
        );
        words(
            out,
            place(0, at),
            &format!("clock of \"{}\", running", run.names[scope]),
        );
    }
    let marks: [(Kind, &str); 2] = [
        (Kind::Stands, "standing still"),
        (Kind::SetBack, "set back to zero by a reset"),
    ];
    for (row, (kind, what)) in marks.into_iter().enumerate() {
        sample(out, place(1, row), &stroke(INK, kind));
        words(out, place(1, row), what);
    }
    let middle = |at: (f64, f64)| (at.0 + 13.0, at.1);
    asked(out, middle(place(2, 0)), INK);
    words(out, place(2, 0), "was due here at first");
    handed(out, middle(place(2, 1)), INK);
    words(out, place(2, 1), "handed out (ready)");
    held(out, middle(place(3, 0)));
    words(out, place(3, 0), "held back to the entry's next step");
    cross(out, middle(place(3, 1)));
    words(out, place(3, 1), "dropped by a reset");
    put!(out, "<text x=\"{:.1}\" y=\"{:.1}\" font-size=\"11\" fill=\"#666666\">An event keeps its local time: when its mode was off meanwhile, it moves straight to the right.</text>", MARGINS.0, foot + 50.0);
}
