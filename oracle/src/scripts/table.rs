//! `oracle table SEED COUNT SCRIPT ANSWERS`: images with what 01 answers of each. `oracle table days FOLDER SCRIPT
//! ANSWERS`: the images of recorded days with the answers that were recorded (those that the bench refuses before it looks
//! inside, cut short or over the largest, are left out).
//!
//! A script: for each image its number of bytes 4, then the bytes. The answers: for each image the number of refusal 1
//! (0 if it is accepted) and the place 4. The check has no bound of length here; the bench's is in `image::open`.
//!
//! First one made image is cut at every byte, once with its length field as it was and once with one that fits. The
//! others are images of made days, of every kind: valid, at the limits, one rule or two broken at a time; or such an image with a
//! byte or two changed, cut somewhere, or random bytes behind a length that fits.

use std::path::Path;

use super::{Bytes, Written};
use crate::image::{self, with_length};
use crate::make;
use crate::rng::Rng;

/// The image that a day begins with, or what there is of it.
fn image_of(day: &[u8]) -> Vec<u8> {
    let end = match day.get(..4) {
        Some(length) => (image::number(length) as usize).saturating_add(4),
        None => day.len(),
    };
    day[..end.min(day.len())].to_vec()
}

/// The same with a length field that fits.
fn fitted(mut image: Vec<u8>) -> Vec<u8> {
    if let Some(rest) = image.get(4..) {
        image = with_length(rest);
    }
    image
}

fn made(rng: &mut Rng, seed: u64, index: usize) -> Vec<u8> {
    let kind = rng.pick(&["badimg", "badimg", "valid", "nested", "edge"]);
    let seed = seed.wrapping_mul(1_000_003).wrapping_add(index as u64);
    let mut image = match kind {
        "badimg" => image_of(&make::make(seed, kind).unwrap_or_default()),
        _ => make::image(seed, kind).unwrap_or_default(),
    };
    match rng.below(8) {
        0 | 1 => {
            for _ in 0..1 + rng.below(2) {
                if !image.is_empty() {
                    let at = rng.below(image.len() as u64) as usize;
                    image[at] = rng.below(256) as u8;
                }
            }
            image
        }
        2 => {
            let end = rng.below(image.len() as u64 + 1) as usize;
            image.truncate(end);
            if rng.below(2) == 0 {
                fitted(image)
            } else {
                image
            }
        }
        3 => {
            let mut bytes: Vec<u8> = (0..rng.below(400)).map(|_| rng.below(4) as u8).collect();
            if let Some(version) = bytes.get_mut(4) {
                *version = 1;
            }
            fitted(bytes)
        }
        _ => image,
    }
}

/// Number and place of a recorded table line.
fn recorded(line: &str) -> Option<(u8, u32)> {
    if line == "table ok" {
        return Some((0, 0));
    }
    let (number, place) = line.strip_prefix("table refused ")?.split_once(' ')?;
    Some((number.parse().ok()?, place.parse().ok()?))
}

pub fn write_days(folder: &Path) -> Result<Written, String> {
    let fault = |error: std::io::Error| format!("cannot read {}: {error}", folder.display());
    let mut days: Vec<_> = std::fs::read_dir(folder)
        .map_err(fault)?
        .filter_map(|entry| entry.ok().map(|entry| entry.path()))
        .filter(|path| path.extension().is_some_and(|end| end == "day"))
        .collect();
    days.sort();
    let (mut script, mut answers, mut count) = (Bytes::default(), Bytes::default(), 0);
    for path in &days {
        let day = std::fs::read(path).map_err(fault)?;
        let text = std::fs::read_to_string(path.with_extension("answers")).map_err(fault)?;
        let image = image_of(&day);
        let length = day.get(..4).map(|field| image::number(field) as usize + 4);
        if length != Some(image.len()) || image.len() > image::LARGEST {
            continue;
        }
        let (number, place) = text
            .lines()
            .next()
            .and_then(recorded)
            .ok_or_else(|| format!("{} has no table line", path.display()))?;
        script.four(image.len() as u32);
        script.0.extend_from_slice(&image);
        answers.byte(number);
        answers.four(place);
        count += 1;
    }
    Ok(Written {
        script: script.0,
        answers: answers.0,
        summary: format!("{count} images of {} recorded days", days.len()),
    })
}

pub fn write(seed: u64, count: usize) -> Result<Written, String> {
    let mut rng = Rng::new(seed);
    let whole = make::image(seed, "nested").unwrap_or_default();
    let cuts = (0..=whole.len()).flat_map(|end| {
        let cut = whole[..end].to_vec();
        [cut.clone(), fitted(cut)]
    });
    let mut images: Vec<Vec<u8>> = cuts.take(count).collect();
    for index in images.len()..count {
        images.push(made(&mut rng, seed, index));
    }
    let (mut script, mut answers) = (Bytes::default(), Bytes::default());
    let mut by_number = [0usize; 5];
    for bytes in &images {
        script.four(bytes.len() as u32);
        script.0.extend_from_slice(bytes);
        let (number, place) = match image::check(bytes) {
            Ok(_) => (0, 0),
            Err(refused) => (refused.number, refused.place),
        };
        by_number[usize::from(number)] += 1;
        answers.byte(number);
        answers.four(place as u32);
    }
    Ok(Written {
        script: script.0,
        answers: answers.0,
        summary: format!(
            "{count} images: {} accepted, refused 1: {}, 2: {}, 3: {}, 4: {}",
            by_number[0], by_number[1], by_number[2], by_number[3], by_number[4]
        ),
    })
}
