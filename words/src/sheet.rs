//! A table as a sheet: one row a line, as a spreadsheet writes CSV. It is read into the rows' numbers, and what is wrong is said by line and
//! column; and rows are listed in the same form. No rule of the table is looked at here: that is the proved writer's.

use crate::facts::{Table, NONE};
use crate::units;
use std::collections::HashMap;
use std::fmt;

/// A field of a row.
struct Field {
    name: &'static str,
    holds: Holds,
}

enum Holds {
    /// A key of a row of this kind, and whether it may be none.
    Key(usize, bool),
    /// A number up to this one.
    Number(u64),
    /// Nanoseconds, or a sum with units.
    Time,
}

struct Kind {
    name: &'static str,
    fields: &'static [Field],
}

const fn key(name: &'static str, kind: usize) -> Field {
    Field {
        name,
        holds: Holds::Key(kind, false),
    }
}

const fn key_or_none(name: &'static str, kind: usize) -> Field {
    Field {
        name,
        holds: Holds::Key(kind, true),
    }
}

const fn number(name: &'static str, most: u64) -> Field {
    Field {
        name,
        holds: Holds::Number(most),
    }
}

const fn kind(name: &'static str, fields: &'static [Field]) -> Kind {
    Kind { name, fields }
}

const SCOPE: usize = 0;
const REACTOR: usize = 1;
const MODE: usize = 2;
const REACTION: usize = 3;
const ACTION: usize = 4;
pub const TIMER: usize = 8;

/// The kinds of rows in the image's order, by document 01's names, with their fields.
const KINDS: [Kind; 9] = [
    kind(
        "scope",
        &[
            key_or_none("PARENT", SCOPE),
            key("REACTOR", REACTOR),
            key_or_none("MODE", MODE),
        ],
    ),
    kind(
        "reactor",
        &[key("ROOT", SCOPE), key_or_none("INITIAL", MODE)],
    ),
    kind("mode", &[key("SCOPE", SCOPE), key("REACTOR", REACTOR)]),
    kind("reaction", &[number("LEVEL", 255)]),
    kind("action", &[key("SCOPE", SCOPE), number("LOGICAL", 255)]),
    kind(
        "trigger",
        &[key("ACTION", ACTION), key("REACTION", REACTION)],
    ),
    kind(
        "startup",
        &[
            key("SCOPE", SCOPE),
            key("ACTION", ACTION),
            key("REACTION", REACTION),
        ],
    ),
    kind("reset", &[key("SCOPE", SCOPE), key("REACTION", REACTION)]),
    kind(
        "timer",
        &[
            key("ACTION", ACTION),
            Field {
                name: "TIME",
                holds: Holds::Time,
            },
            number("MICROSTEP", 4_294_967_295),
        ],
    ),
];

impl Kind {
    /// "an action row", "a mode row".
    fn row(&self) -> String {
        let article = if self.name.starts_with('a') {
            "an"
        } else {
            "a"
        };
        format!("{article} {} row", self.name)
    }

    /// "scope,PARENT,REACTOR,MODE".
    fn form(&self) -> String {
        let names = self.fields.iter().map(|field| field.name);
        std::iter::once(self.name)
            .chain(names)
            .collect::<Vec<_>>()
            .join(",")
    }
}

/// More rows than any table has, and as many as the maker's input holds.
const MOST_ROWS: usize = 2727;
/// No sheet is longer, comments included.
pub const MOST_BYTES: usize = 1 << 24;
/// How many wrong cells are told at once.
const TOLD: usize = 10;

/// What is wrong with a cell; lines and columns count from 1.
#[derive(Debug)]
pub struct Wrong {
    line: usize,
    column: usize,
    words: String,
}

impl fmt::Display for Wrong {
    fn fmt(&self, out: &mut fmt::Formatter) -> fmt::Result {
        // a spreadsheet's name of the cell: its columns are A to Z, then AA
        let mut letters = String::new();
        let mut left = self.column;
        while left > 0 {
            letters.insert(0, char::from(b'A' + ((left - 1) % 26) as u8));
            left = (left - 1) / 26;
        }
        let Wrong {
            line,
            column,
            words,
        } = self;
        write!(
            out,
            "line {line}, column {column} (cell {letters}{line}): {words}"
        )
    }
}

/// One row: its line in the sheet and its numbers, 0 for a field that its kind does not have.
#[derive(Debug)]
pub struct Row {
    pub line: usize,
    pub fields: [u64; 3],
}

/// The rows of each kind, in order.
#[derive(Debug, Default)]
pub struct Sheet {
    pub rows: [Vec<Row>; 9],
}

/// A line that is a row: its cells behind the kind's.
struct Line {
    line: usize,
    cells: Vec<String>,
}

/// Where a name stands: its row's number and line.
type Names = HashMap<(usize, String), (u64, usize)>;

impl Sheet {
    /// The rows of a sheet, or what is wrong with it, in the order of its lines.
    pub fn read(bytes: &[u8]) -> Result<Sheet, Vec<String>> {
        let (lines, names) = rows_of(bytes).map_err(told)?;
        let mut sheet = Sheet::default();
        let mut wrong = Vec::new();
        for (k, lines) in lines.iter().enumerate() {
            for Line { line, cells } in lines {
                let mut fields = [0; 3];
                for (i, field) in KINDS[k].fields.iter().enumerate() {
                    let text = cells.get(i).map_or("", String::as_str);
                    match value(&KINDS[k], field, text, &names) {
                        Ok(value) => fields[i] = value,
                        Err(words) => wrong.push(Wrong {
                            line: *line,
                            column: i + 2,
                            words,
                        }),
                    }
                }
                sheet.rows[k].push(Row {
                    line: *line,
                    fields,
                });
            }
        }
        if wrong.is_empty() {
            Ok(sheet)
        } else {
            Err(told(wrong))
        }
    }

    /// The maker's input: nine counts, then each row's three numbers, eight bytes each with the highest first.
    pub fn numbers(&self) -> Vec<u8> {
        let counts = self.rows.iter().map(|rows| rows.len() as u64);
        let fields = self.rows.iter().flatten().flat_map(|row| row.fields);
        counts.chain(fields).flat_map(u64::to_be_bytes).collect()
    }

    /// The rows as the facts tell those of an image: kind, number and fields.
    pub fn facts(&self) -> Vec<(u64, u64, [u64; 3])> {
        let kinds = self.rows.iter().enumerate();
        kinds
            .flat_map(|(k, rows)| {
                let rows = rows.iter().enumerate();
                rows.map(move |(i, row)| (k as u64, i as u64, row.fields))
            })
            .collect()
    }
}

/// Each wrong cell in words, by lines; the first ones alone where there are many.
fn told(mut wrong: Vec<Wrong>) -> Vec<String> {
    wrong.sort_by_key(|wrong| (wrong.line, wrong.column));
    let mut words: Vec<String> = wrong.iter().take(TOLD).map(Wrong::to_string).collect();
    if wrong.len() > TOLD {
        words.push(format!("and {} more", wrong.len() - TOLD));
    }
    words
}

/// The lines that are rows, by their kinds, and the rows' names.
fn rows_of(bytes: &[u8]) -> Result<([Vec<Line>; 9], Names), Vec<Wrong>> {
    let mut found: [Vec<Line>; 9] = Default::default();
    let mut names = Names::new();
    let mut wrong = Vec::new();
    let mut total = 0;
    for (i, bytes) in lines(text_of(bytes).map_err(|wrong| vec![wrong])?).enumerate() {
        let line = i + 1;
        let mut say = |column, words| {
            wrong.push(Wrong {
                line,
                column,
                words,
            })
        };
        let mut cells = match cells(bytes) {
            Ok(cells) => cells,
            Err((column, words)) => {
                say(column, words);
                continue;
            }
        };
        let Some(last) = cells.iter().rposition(|cell| !cell.is_empty()) else {
            continue;
        };
        if cells[0].starts_with('#') {
            continue;
        }
        cells.truncate(last + 1);
        let name = cells.remove(0);
        let Some(k) = KINDS
            .iter()
            .position(|kind| kind.name.eq_ignore_ascii_case(&name))
        else {
            say(1, no_kind(&name));
            continue;
        };
        total += 1;
        if total > MOST_ROWS {
            say(
                1,
                format!("this is row {total} of the sheet, and no table has so many"),
            );
            return Err(wrong);
        }
        let width = KINDS[k].fields.len();
        if let Some(name) = cells.get(width).filter(|name| !name.is_empty()) {
            if !name.starts_with(char::is_alphabetic) {
                let words =
                    "is no name: a name begins with a letter, and a comment has a line of its own";
                say(width + 2, format!("{} {words}", shown(name)));
            } else if let Some((_, other)) = names.get(&(k, name.clone())) {
                say(
                    width + 2,
                    format!(
                        "the name {} stands twice: the {} of line {other} has it",
                        shown(name),
                        KINDS[k].name
                    ),
                );
            } else {
                names.insert((k, name.clone()), (found[k].len() as u64, line));
            }
        }
        let mut further = cells.iter().enumerate().skip(width + 1);
        if let Some((i, cell)) = further.find(|(_, cell)| !cell.is_empty()) {
            let words = format!(
                "{} is a cell too many: {} is {} and perhaps a name",
                shown(cell),
                KINDS[k].row(),
                KINDS[k].form()
            );
            say(i + 2, words);
        }
        found[k].push(Line { line, cells });
    }
    if wrong.is_empty() {
        Ok((found, names))
    } else {
        Err(wrong)
    }
}

fn no_kind(name: &str) -> String {
    let kinds: Vec<&str> = KINDS.iter().map(|kind| kind.name).collect();
    let kinds = format!("{} and {}", kinds[..8].join(", "), kinds[8]);
    if name.is_empty() {
        return format!("the kind is missing: the kinds are {kinds}");
    }
    format!(
        "there is no kind {}: the kinds are {kinds}; a comment begins with #",
        shown(name)
    )
}

/// A cell's text in quotes, cut where it is long.
fn shown(text: &str) -> String {
    match text.char_indices().nth(40) {
        Some((end, _)) => format!("{:?}..", &text[..end]),
        None => format!("{text:?}"),
    }
}

/// The number that a cell gives a field.
fn value(kind: &Kind, field: &Field, text: &str, names: &Names) -> Result<u64, String> {
    let name = field.name;
    if text.is_empty() {
        let none = match field.holds {
            Holds::Key(_, true) => "; none is -",
            _ => "",
        };
        return Err(format!(
            "{name} is missing: {} is {}{none}",
            kind.row(),
            kind.form()
        ));
    }
    match field.holds {
        Holds::Key(_, true) if text == "-" => Ok(NONE),
        _ if text == "-" => Err(format!("{name} cannot be none")),
        Holds::Key(kind, _) if text.starts_with(char::is_alphabetic) => named(kind, text, names),
        Holds::Key(_, none) => whole(name, text, NONE).unwrap_or_else(|| {
            let none = if none { ", and none is -" } else { "" };
            Err(format!(
                "{} is no number and no name: a name begins with a letter{none}",
                shown(text)
            ))
        }),
        Holds::Number(most) => whole(name, text, most).unwrap_or_else(|| {
            Err(format!(
                "{} is no number, and {name} has to be a number",
                shown(text)
            ))
        }),
        Holds::Time => units::nanoseconds(text),
    }
}

/// The number of the row that has a name.
fn named(kind: usize, text: &str, names: &Names) -> Result<u64, String> {
    if let Some((row, _)) = names.get(&(kind, text.to_string())) {
        return Ok(*row);
    }
    let other = (0..KINDS.len()).find_map(|other| {
        let (_, line) = names.get(&(other, text.to_string()))?;
        Some(format!("; the {} of line {line} has it", KINDS[other].name))
    });
    Err(format!(
        "no {} has the name {}{}",
        KINDS[kind].name,
        shown(text),
        other.unwrap_or_default()
    ))
}

/// A number of digits alone, if its field holds it; nothing where it is none.
fn whole(name: &str, text: &str, most: u64) -> Option<Result<u64, String>> {
    if !text.bytes().all(|byte| byte.is_ascii_digit()) {
        return None;
    }
    let fits = text.parse().ok().filter(|number| *number <= most);
    Some(fits.ok_or_else(|| no_room(text.trim_start_matches('0'), name, most)))
}

/// A number whose field has fewer bytes than it needs; what the table allows is the writer's to say.
pub fn no_room(text: &str, name: &str, most: u64) -> String {
    let bytes = (64 - most.leading_zeros()) / 8;
    let s = if bytes == 1 { "" } else { "s" };
    format!("{text} does not fit into the {bytes} byte{s} of {name}")
}

// ---- the text

/// The bytes behind a byte order mark; what a spreadsheet saves in another form than text is said at once.
fn text_of(bytes: &[u8]) -> Result<&[u8], Wrong> {
    let wrong = |words: &str| Wrong {
        line: 1,
        column: 1,
        words: words.to_string(),
    };
    if bytes.len() > MOST_BYTES {
        return Err(wrong("the sheet has more than 16 megabytes"));
    }
    if bytes.starts_with(b"\xff\xfe") || bytes.starts_with(b"\xfe\xff") {
        return Err(wrong(
            "this is text in UTF-16: save the sheet as CSV in UTF-8",
        ));
    }
    // the length of every table has these two bytes in front, and no text has
    if bytes.starts_with(b"\0\0") {
        return Err(wrong(
            "this is a table image or a gate day, and no sheet: ./table list makes a sheet of it",
        ));
    }
    if bytes.starts_with(b"PK\x03\x04") {
        return Err(wrong(
            "this is a spreadsheet's own file: save the sheet as CSV",
        ));
    }
    Ok(bytes.strip_prefix(b"\xef\xbb\xbf").unwrap_or(bytes))
}

/// The lines, which end with LF, CR LF or CR.
fn lines(mut rest: &[u8]) -> impl Iterator<Item = &[u8]> {
    std::iter::from_fn(move || {
        if rest.is_empty() {
            return None;
        }
        let ends = |byte: &u8| matches!(byte, b'\n' | b'\r');
        let end = rest.iter().position(ends).unwrap_or(rest.len());
        let (line, behind) = rest.split_at(end);
        let ending = if behind.starts_with(b"\r\n") { 2 } else { 1 };
        rest = behind.get(ending..).unwrap_or(&[]);
        Some(line)
    })
}

/// The cells of a line without blanks around them; none of a comment. What parts them is the first comma, semicolon or tab outside of quotes.
fn cells(line: &[u8]) -> Result<Vec<String>, (usize, String)> {
    let mut cells = Vec::new();
    if unblank(line).starts_with(b"#") {
        return Ok(cells);
    }
    let parts = |byte: u8, known: Option<u8>| match known {
        Some(known) => byte == known,
        None => matches!(byte, b',' | b';' | b'\t'),
    };
    let mut separator = None;
    let mut rest = line;
    loop {
        let column = cells.len() + 1;
        let mut bytes = Vec::new();
        let mut end = 0;
        if let Some(quoted) = unblank(rest).strip_prefix(b"\"") {
            rest = unquoted(quoted, &mut bytes).ok_or_else(|| {
                let words =
                    "the quotes are not closed in this line, and no cell has a line break in it";
                (column, words.to_string())
            })?;
            rest = unblank(rest);
            if rest.first().is_some_and(|byte| !parts(*byte, separator)) {
                return Err((
                    column,
                    "something stands behind the closing quotes".to_string(),
                ));
            }
        } else {
            end = rest
                .iter()
                .position(|byte| parts(*byte, separator))
                .unwrap_or(rest.len());
            bytes.extend(&rest[..end]);
        }
        let text = String::from_utf8(bytes).map_err(|_| {
            let words = "this is no text in UTF-8: save the sheet as CSV in UTF-8";
            (column, words.to_string())
        })?;
        cells.push(text.trim().to_string());
        let Some((byte, behind)) = rest[end..].split_first() else {
            return Ok(cells);
        };
        separator = Some(*byte);
        rest = behind;
    }
}

fn unblank(bytes: &[u8]) -> &[u8] {
    let front = bytes.iter().take_while(|byte| **byte == b' ').count();
    &bytes[front..]
}

/// What stands up to the closing quotes, where two quotes are one; what is behind them.
fn unquoted<'a>(mut rest: &'a [u8], bytes: &mut Vec<u8>) -> Option<&'a [u8]> {
    loop {
        let end = rest.iter().position(|byte| *byte == b'"')?;
        bytes.extend(&rest[..end]);
        rest = &rest[end + 1..];
        match rest.strip_prefix(b"\"") {
            Some(behind) => {
                bytes.push(b'"');
                rest = behind;
            }
            None => return Some(rest),
        }
    }
}

// ---- listed

/// The rows of an accepted table as a sheet; a comment has the fields' names of each kind, and one the time of each timer in units.
pub fn listed(table: &Table) -> String {
    let mut lines = String::new();
    let mut last = None;
    for (k, i, fields) in &table.rows {
        let kind = &KINDS[*k as usize];
        if last != Some(k) {
            lines += &format!("# {}\n", kind.form());
            last = Some(k);
        }
        if *k == TIMER as u64 {
            lines += &format!("# timer {i}: {}\n", units::in_units(fields[1]));
        }
        lines += kind.name;
        for (field, value) in kind.fields.iter().zip(fields) {
            match field.holds {
                Holds::Key(_, true) if *value == NONE => lines += ",-",
                _ => lines += &format!(",{value}"),
            }
        }
        lines += "\n";
    }
    lines
}

#[cfg(test)]
mod tests {
    use super::*;

    fn row(text: &str) -> Vec<String> {
        cells(text.as_bytes()).unwrap()
    }

    #[test]
    fn a_line_is_parted_as_spreadsheets_do() {
        for line in [
            "mode,1,0,open",
            "mode;1;0;open",
            "mode\t1\t0\topen",
            " mode , 1 ,0\u{a0}, open ",
            "\"mode\",\"1\",\"0\",\"open\"",
            " \"mode\" ; \"1\";0 ; \"open\" ",
        ] {
            assert_eq!(row(line), ["mode", "1", "0", "open"], "{line}");
        }
        assert_eq!(row("mode,1,0,,"), ["mode", "1", "0", "", ""]);
        assert_eq!(row("mode,\"a;b, c\",d;e"), ["mode", "a;b, c", "d;e"]);
        assert_eq!(
            row("mode;\"a, \"\"b\"\"\";12\" c"),
            ["mode", "a, \"b\"", "12\" c"]
        );
        assert_eq!(row("  # a \"comment, not closed"), [""; 0]);
        assert_eq!(row(""), [""]);
    }

    #[test]
    fn lines_end_in_three_ways() {
        let text = b"a\n\nb\r\nc\rd\r\n\re";
        let lines: Vec<&[u8]> = lines(text).collect();
        let expected: [&[u8]; 7] = [b"a", b"", b"b", b"c", b"d", b"", b"e"];
        assert_eq!(lines, expected);
    }

    #[test]
    fn rows_are_numbered_by_kind_and_named_from_anywhere() {
        let text = "timer,the pass,1h,0\nScope,-,lane,-,gate\n\n,,\n# a comment\nreactor,gate,-,lane\naction,gate,1,\"the pass\"\n";
        let sheet = Sheet::read(text.as_bytes()).unwrap();
        let expected = [
            (0, 0, [NONE, 0, NONE]),
            (1, 0, [0, NONE, 0]),
            (4, 0, [0, 1, 0]),
            (8, 0, [0, 3_600_000_000_000, 0]),
        ];
        assert_eq!(sheet.facts(), expected);
        let lines: Vec<usize> = sheet.rows.iter().flatten().map(|row| row.line).collect();
        assert_eq!(lines, [2, 6, 7, 1]);
        let numbers = sheet.numbers();
        assert_eq!(numbers.len(), 8 * (9 + 3 * 4));
        assert_eq!(
            numbers[..16],
            [0, 0, 0, 0, 0, 0, 0, 1, 0, 0, 0, 0, 0, 0, 0, 1]
        );
    }

    #[test]
    fn a_cell_has_a_spreadsheet_s_name() {
        for (column, name) in [(1, "A7"), (26, "Z7"), (27, "AA7"), (703, "AAA7")] {
            let words = String::new();
            let wrong = Wrong {
                line: 7,
                column,
                words,
            };
            assert!(wrong.to_string().contains(&format!("(cell {name})")));
        }
    }
}
