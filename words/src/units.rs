//! A time as a fitter writes it: whole nanoseconds, or whole numbers with units, from the largest to the smallest.

use crate::sheet::no_room;

/// Each unit with its nanoseconds.
const UNITS: [(&str, u64); 6] = [
    ("h", 3_600_000_000_000),
    ("min", 60_000_000_000),
    ("s", 1_000_000_000),
    ("ms", 1_000_000),
    ("us", 1_000),
    ("ns", 1),
];

/// The nanoseconds of "3600000000000", "1h" or "1h30min"; blanks may stand between the parts.
pub fn nanoseconds(text: &str) -> Result<u64, String> {
    let most = || no_room(text, "TIME", u64::MAX);
    if text.bytes().all(|byte| byte.is_ascii_digit()) {
        return text.parse().map_err(|_| most());
    }
    if text.contains(['E', 'e']) && text.parse::<f64>().is_ok() {
        return Err(format!(
            "{text:?} is what a spreadsheet makes of a long number: write the time with a unit, such as 1h30min"
        ));
    }
    let mut left = 0;
    let mut total: u64 = 0;
    let mut rest = text;
    while !rest.is_empty() {
        let number = front(rest, |letter| letter.is_ascii_digit());
        let unit = front(rest[number.len()..].trim_start(), char::is_alphabetic);
        if number.is_empty() || (unit.is_empty() && number.len() < rest.len()) {
            return Err(format!(
                "{text:?} is no time: a time is whole nanoseconds, or whole numbers with units, such as 1h30min"
            ));
        }
        if unit.is_empty() {
            return Err(format!(
                "behind {number} a unit is missing: {}",
                units("or")
            ));
        }
        let Some(place) = UNITS.iter().position(|known| known.0 == unit) else {
            return Err(format!(
                "there is no unit {unit:?}: the units are {}",
                units("and")
            ));
        };
        if place < left {
            return Err(format!(
                "{text} has its units in another order: the largest comes first, each once"
            ));
        }
        left = place + 1;
        let part = number.parse().ok();
        total = part
            .and_then(|part: u64| part.checked_mul(UNITS[place].1))
            .and_then(|part| total.checked_add(part))
            .ok_or_else(most)?;
        rest = rest[number.len()..].trim_start()[unit.len()..].trim_start();
    }
    Ok(total)
}

/// The same the other way: "1h", "12min3s"; `nanoseconds` gives the number again.
pub fn in_units(mut nanoseconds: u64) -> String {
    let mut words = String::new();
    for (unit, scale) in UNITS {
        if nanoseconds >= scale {
            words += &format!("{}{unit}", nanoseconds / scale);
            nanoseconds %= scale;
        }
    }
    if words.is_empty() {
        words += "0ns";
    }
    words
}

/// The characters at the front that pass a test.
fn front(text: &str, test: impl Fn(char) -> bool) -> &str {
    &text[..text.find(|letter| !test(letter)).unwrap_or(text.len())]
}

fn units(and: &str) -> String {
    let names = UNITS.map(|unit| unit.0);
    format!("{} {and} {}", names[..5].join(", "), names[5])
}

#[cfg(test)]
mod tests {
    use super::*;

    #[test]
    fn times_are_read() {
        let hour = 3_600_000_000_000;
        for (text, time) in [
            ("0", 0),
            ("0ns", 0),
            ("007", 7),
            ("3600000000000", hour),
            ("1h", hour),
            ("60min", hour),
            ("3600s", hour),
            ("1h30min", hour + hour / 2),
            ("1 h 30 min", hour + hour / 2),
            ("500ms", 500_000_000),
            ("3us", 3_000),
            ("7ns", 7),
            ("1h1min1s1ms1us1ns", hour + 61_001_001_001),
            ("18446744073709551615", u64::MAX),
            ("5124095h34min33s709ms551us615ns", u64::MAX),
        ] {
            assert_eq!(nanoseconds(text), Ok(time), "{text}");
        }
    }

    #[test]
    fn what_is_no_time_is_refused() {
        for (text, words) in [
            ("1m", "there is no unit \"m\""),
            ("1H", "there is no unit \"H\""),
            ("1h30", "behind 30 a unit is missing"),
            ("30min1h", "the largest comes first"),
            ("1h1h", "the largest comes first"),
            ("1.5h", "is no time"),
            ("-1", "is no time"),
            ("h", "is no time"),
            ("3.6E+12", "what a spreadsheet makes of a long number"),
            ("3E12", "what a spreadsheet makes of a long number"),
            ("18446744073709551616", "does not fit"),
            ("5124096h", "does not fit"),
            ("5124095h34min33s709ms551us616ns", "does not fit"),
            ("99999999999999999999h", "does not fit"),
        ] {
            let said = nanoseconds(text).unwrap_err();
            assert!(said.contains(words), "{text}: {said}");
        }
    }

    #[test]
    fn units_are_read_back() {
        let mut time: u64 = 1;
        for _ in 0..5000 {
            // every size of number
            time = time
                .wrapping_mul(6_364_136_223_846_793_005)
                .wrapping_add(1_442_695_040_888_963_407);
            for time in [time, time >> 13, time >> 29, time >> 47, time >> 58] {
                assert_eq!(nanoseconds(&in_units(time)), Ok(time));
            }
        }
        assert_eq!(in_units(3_600_000_000_000), "1h");
        assert_eq!(in_units(720_000_000_007), "12min7ns");
        assert_eq!(in_units(0), "0ns");
    }
}
