//! Days to be run: the recorded ones of a folder, made ones, and damaged copies of both.

use std::path::{Path, PathBuf};

use crate::answers::joined;
use crate::image::{self, LONGEST, MOST_REACTIONS};
use crate::make::{make, KINDS};
use crate::records::split;
use crate::rng::Rng;
use crate::text::{assemble, record};

/// Longest recorded day that damaged copies are made of.
pub const SHORT: usize = 4000;

/// A day to be run, with its name and perhaps its recorded answers; for a made one, how many seeds come before its own.
#[derive(Clone)]
pub struct Case {
    pub name: String,
    pub day: Vec<u8>,
    pub recorded: Option<Vec<u8>>,
    pub before: u64,
}

impl Case {
    pub fn new(name: String, day: Vec<u8>) -> Self {
        Self {
            name,
            day,
            recorded: None,
            before: 0,
        }
    }
}

/// Files of a folder with this ending, in order.
fn files(folder: &Path, ending: &str) -> Result<Vec<PathBuf>, String> {
    let mut files: Vec<PathBuf> = std::fs::read_dir(folder)
        .map_err(|error| format!("cannot read {}: {error}", folder.display()))?
        .filter_map(|entry| entry.ok().map(|entry| entry.path()))
        .filter(|path| path.extension().is_some_and(|end| end == ending))
        .collect();
    files.sort();
    Ok(files)
}

pub fn recorded(folder: &Path) -> Result<Vec<Case>, String> {
    let read = |path: &Path| {
        std::fs::read(path).map_err(|error| format!("cannot read {}: {error}", path.display()))
    };
    let mut cases = Vec::new();
    for path in files(folder, "day")? {
        cases.push(Case {
            recorded: Some(read(&path.with_extension("answers"))?),
            ..Case::new(path.display().to_string(), read(&path)?)
        });
    }
    let small = folder.join("small");
    for path in if small.is_dir() {
        files(&small, "txt")?
    } else {
        Vec::new()
    } {
        let text = String::from_utf8_lossy(&read(&path)?).into_owned();
        let day = assemble(&text).map_err(|words| format!("{}: {words}", path.display()))?;
        cases.push(Case::new(path.display().to_string(), day));
    }
    Ok(cases)
}

pub fn made(seed: u64, kind: &str) -> Case {
    Case::new(
        format!("seed {seed} kind {kind}"),
        make(seed, kind).unwrap_or_default(),
    )
}

// ---------------------------------------------------------------- damage

/// What becomes of bytes of a day, or is put before one.
#[derive(Debug, Clone, Copy, PartialEq, Eq)]
enum Way {
    Dropped,
    Changed,
    /// The day ends there.
    Cut,
    Doubled,
    /// All the same: 0, or 255 as in memory that was wiped.
    Wiped(u8),
    /// So many zeros before a byte.
    Zeros,
    /// `garbage` of these before a byte.
    Garbage(&'static [u8]),
    /// A record before a byte that is just well formed, or just not.
    Record,
}

use Way::{Changed, Cut, Doubled, Dropped, Garbage, Record, Wiped, Zeros};

/// The ways of a damage at one byte.
const AT_ONE_BYTE: [Way; 4] = [Dropped, Changed, Cut, Doubled];

/// The bytes of a pop: garbage of these has a record here and there.
const POP: &[u8] = &[0, 0, 0, 2, 1, 6];

/// All ways, some of them more often.
const WAYS: [Way; 14] = [
    Dropped,
    Dropped,
    Dropped,
    Changed,
    Changed,
    Cut,
    Doubled,
    Wiped(0),
    Wiped(255),
    Zeros,
    Garbage(&[]),
    Garbage(POP),
    Record,
    Record,
];

impl Way {
    /// Does it to so many bytes from a place on; what was done, in words.
    fn damage(self, day: &mut Vec<u8>, at: usize, length: usize, rng: &mut Rng) -> String {
        let there = at..day.len().min(at + length);
        let bytes = match there.len() {
            0 | 1 => format!("byte {at}"),
            _ => format!("bytes {at} to {}", there.end - 1),
        };
        match self {
            Dropped => {
                day.drain(there);
                format!("{bytes} dropped")
            }
            Changed => {
                for byte in &mut day[there] {
                    *byte ^= 1 + rng.below(255) as u8;
                }
                format!("{bytes} changed")
            }
            Cut => {
                day.truncate(at);
                format!("byte {at} cut")
            }
            Doubled => {
                let twice = day[there].to_vec();
                day.splice(at..at, twice);
                format!("{bytes} doubled")
            }
            Wiped(value) => {
                day[there].fill(value);
                format!("{bytes} made {value}")
            }
            Zeros => {
                day.splice(at..at, vec![0; length]);
                format!("{length} zeros before byte {at}")
            }
            Garbage(of) => {
                day.splice(at..at, garbage(of, length, rng));
                format!("{length} bytes of garbage before byte {at}")
            }
            Record => {
                let (record, words) = odd_record(rng);
                day.splice(at..at, record);
                format!("{words} before byte {at}")
            }
        }
    }
}

/// So many bytes drawn from these, or from all where there are none.
fn garbage(of: &[u8], length: usize, rng: &mut Rng) -> Vec<u8> {
    let mut drawn = || match of {
        [] => rng.below(256) as u8,
        _ => rng.pick(of),
    };
    (0..length).map(|_| drawn()).collect()
}

/// So many keys that a plain record has a byte too many, and a network one just as many as it may.
pub const KEYS_PAST_LONGEST: usize = (LONGEST - NETWORK) / 2;
/// Bytes of a network record without keys, behind its length.
const NETWORK: usize = 16;

/// A record at the limits of keys and bytes or wrong in one field, or as it should be; and its words.
fn odd_record(rng: &mut Rng) -> (Vec<u8>, String) {
    let (most, past) = (MOST_REACTIONS, KEYS_PAST_LONGEST);
    let count = rng.pick(&[0, 1, most, most + 1, past - 1, past, past]);
    let keys = joined(&vec![1; count]);
    let line = match rng.below(8) {
        0 | 1 => format!("plain 5 0 1 {keys}"),
        2 | 3 => format!("network 5 0 {keys}"),
        4 => format!("act 0 5 0 1 {keys}"),
        5 => "control 5 0".to_string(),
        6 => "transition 0 0 history 5 0".to_string(),
        _ => "pop".to_string(),
    };
    let mut bytes = record(&line.split(' ').collect::<Vec<_>>()).unwrap_or_default();
    let wrong = match rng.below(12) {
        0 => Some((3, bytes[3].wrapping_add(1))),
        1 => Some((3, bytes[3].wrapping_sub(1))),
        2 => Some((4, rng.pick(&[0, 2]))),
        3 => Some((5, rng.pick(&[0, 7]))),
        // The flag of a plain one, of an action's and of a transition.
        4 => Some((rng.pick(&[18, 20, 10]), 2)),
        _ => None,
    };
    let mut words = match count {
        0 | 1 => line,
        _ => line.replace(&keys, &format!("({count} keys)")),
    };
    if let Some((at, byte)) = wrong.filter(|&(at, _)| at < bytes.len()) {
        bytes[at] = byte;
        words += &format!(", its byte {at} {byte},");
    }
    (bytes, words)
}

/// Damaged copies of short days, each at one byte: places and ways spread evenly, each drawn within its stretch.
pub fn damaged(seed: u64, count: usize, bases: &[Case]) -> Vec<Case> {
    let ways = AT_ONE_BYTE.len();
    let total: usize = bases.iter().map(|base| base.day.len() * ways).sum();
    let count = count.min(total);
    let mut rng = Rng::new(seed);
    let mut cases = Vec::new();
    let (mut base, mut before) = (0, 0);
    for index in 0..count {
        let stretch = index * total / count..(index + 1) * total / count;
        let drawn = stretch.start + rng.below(stretch.len() as u64) as usize;
        while drawn - before >= bases[base].day.len() * ways {
            before += bases[base].day.len() * ways;
            base += 1;
        }
        let (at, way) = ((drawn - before) / ways, (drawn - before) % ways);
        let mut day = bases[base].day.clone();
        let words = AT_ONE_BYTE[way].damage(&mut day, at, 1, &mut rng);
        cases.push(Case::new(format!("{}, {words}", bases[base].name), day));
    }
    cases
}

// ---------------------------------------------------------------- damaged days to rescue

/// A record of each op, and two alike behind one another.
const EACH: &str = "scope - 0 -; scope 0 0 0; reactor 0 -; mode 1 0; reaction 0; action 0 1; plain 5 0 0 0; network 6 0 0; \
    control 7 0; act 0 8 0 1 -; transition 0 0 history 9 0; pop; pop";
/// Most bytes of the small days that are damaged at every byte.
const SMALL: usize = 500;
/// Seeds of made days that are damaged.
const SEEDS: u64 = 12;
/// Bytes of a long day, and those that a program reads at a time.
const LONG: usize = 210_000;
const BUFFER: usize = 65_536;
/// Long days of each sort, and one more for so many days.
const LONG_SORTS: usize = 6;
/// Their kinds before they are damaged.
const LONG_BASES: [&str; 3] = ["long-3", "long-20", "long-170"];
const LONG_EVERY: usize = 250;

/// Damaged days to be rescued, and how many of them are damaged at one byte and how many are long: the first and the last.
pub struct Damaged {
    pub cases: Vec<Case>,
    pub at_one_byte: usize,
    pub long: usize,
}

/// So many damaged days, by a seed. Two fifths of them at most are small ones, damaged at one byte: at every byte in every
/// way if there is room for it. Others are recorded or made ones, damaged at one place or several, and some are long.
pub fn to_rescue(seed: u64, count: usize, folder: &Path) -> Result<Damaged, String> {
    let mut rng = Rng::new(seed);
    let mut bases = recorded(folder)?;
    bases.retain(|base| base.day.len() <= SHORT);
    bases.push(Case::new(
        "a record of each op".to_string(),
        assemble(EACH)?,
    ));
    // The last, and the shortest of the others.
    let mut small = bases.clone();
    small.rotate_right(1);
    small[1..].sort_by_key(|base| base.day.len());
    let mut bytes = 0;
    small.retain(|base| {
        bytes += base.day.len();
        bytes <= SMALL
    });
    // Those of a bad image come to nothing, and some are recorded.
    let kinds = KINDS.iter().filter(|&&kind| kind != "badimg");
    let seeds = seed..seed.saturating_add(SEEDS);
    bases.extend(kinds.flat_map(|kind| seeds.clone().map(move |seed| made(seed, kind))));
    let mut cases = damaged(seed, count * 2 / 5, &small);
    let at_one_byte = cases.len();
    let long = (count - at_one_byte).min(LONG_SORTS + count / LONG_EVERY);
    let short = count - at_one_byte - long;
    cases.extend((0..short).map(|_| damaged_short(&bases, &mut rng)));
    cases.extend((0..long).map(|index| damaged_long(seed, index, &mut rng)));
    Ok(Damaged {
        cases,
        at_one_byte,
        long,
    })
}

/// Where the bytes behind the image begin; 0 if it is refused.
fn image_end(day: &[u8]) -> usize {
    image::open(day).map_or(0, |(_, records)| day.len() - records.len())
}

/// Where to damage a day: seldom in its image, right behind it or at the end, often near a record's first byte, or anywhere
/// behind the image.
fn place(day: &[u8], rng: &mut Rng) -> usize {
    let end = image_end(day);
    let around = |at: usize, rng: &mut Rng| (at + rng.below(9) as usize).saturating_sub(4);
    let drawn = match rng.below(20) {
        0 => rng.below(end as u64 + 1) as usize,
        1 => end,
        2 => around(day.len(), rng),
        3..=11 => {
            let mut starts = vec![end];
            for record in split(&day[end..]) {
                starts.push(starts[starts.len() - 1] + record.bytes.len());
            }
            around(rng.pick(&starts), rng)
        }
        _ => end + rng.below((day.len() - end) as u64 + 1) as usize,
    };
    drawn.min(day.len())
}

impl Case {
    /// Damaged in some way at a place, and named so.
    fn damage(&mut self, at: usize, rng: &mut Rng) {
        let (few, block) = (1 + rng.below(40) as usize, 1 + rng.below(800) as usize);
        let way = rng.pick(&WAYS);
        let length = match way {
            Zeros => rng.pick(&[1, 3, few, block, 5000]),
            _ => rng.pick(&[1, 1, 1, 1, 2, 4, few, block]),
        };
        let at = match way {
            Zeros | Garbage(_) | Record => at.min(self.day.len()),
            // There is such a byte, if any.
            _ => at.min(self.day.len().saturating_sub(1)),
        };
        let words = way.damage(&mut self.day, at, length, rng);
        self.name += &format!(", {words}");
    }

    /// Other bytes in the place of all records.
    fn replace(&mut self, bytes: &[u8], words: &str) {
        self.day.truncate(image_end(&self.day));
        self.day.extend(bytes);
        let length = bytes.len();
        self.name += &format!(", in its records' place {length} bytes of {words}");
    }
}

fn damaged_short(bases: &[Case], rng: &mut Rng) -> Case {
    let base = &bases[rng.below(bases.len() as u64) as usize];
    let mut case = Case::new(base.name.clone(), base.day.clone());
    if rng.chance(4) {
        let of: &[u8] = rng.pick(&[&[], &[0], POP]);
        let length = rng.below(3000) as usize;
        case.replace(&garbage(of, length, rng), "garbage");
        return case;
    }
    for _ in 0..rng.pick(&[1, 1, 1, 2, 2, 3, 6]) {
        let at = place(&case.day, rng);
        case.damage(at, rng);
    }
    case
}

/// A day of several buffers, of each sort in turn: damaged near the end of each buffer, to which some bytes are carried over
/// from the one before; zeros over more than a buffer; garbage; a byte behind each of many pops; and the longest records, of
/// which one has only its first bytes in the first buffer.
fn damaged_long(seed: u64, index: usize, rng: &mut Rng) -> Case {
    let kind = LONG_BASES[index % LONG_BASES.len()];
    let mut case = made(seed.saturating_add(index as u64), kind);
    case.day.truncate(LONG);
    match index % LONG_SORTS {
        0 | 1 => {
            for end in (BUFFER..LONG).step_by(BUFFER) {
                let at = (end + rng.below(1000) as usize).saturating_sub(1700 * end / LONG);
                case.damage(at, rng);
            }
        }
        2 => {
            let at = BUFFER - rng.below(3000) as usize;
            let words = Wiped(0).damage(&mut case.day, at, BUFFER + 1000, rng);
            case.name += &format!(", {words}");
        }
        3 => case.replace(&garbage(POP, LONG, rng), "garbage"),
        4 => {
            let byte = 1 + rng.below(255) as u8;
            let pops = [POP, &[byte]].concat().repeat(LONG / (POP.len() + 1));
            case.replace(&pops, &format!("pops, {byte} behind each"));
        }
        _ => {
            let keys = joined(&[1; MOST_REACTIONS]);
            let longest = record(&["act", "0", "5", "0", "1", &keys]).unwrap_or_default();
            let inside = [longest.len() - 1, 1, 4, 5][index / LONG_SORTS % 4];
            let front = (BUFFER - inside - image_end(&case.day)) % longest.len();
            let records = longest.repeat(LONG / longest.len());
            let words = format!("the longest records, {front} bytes before them; {inside} bytes of one in the first buffer");
            case.replace(&[vec![255; front], records].concat(), &words);
        }
    }
    case
}
