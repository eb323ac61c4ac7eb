//! Damage to the bytes of a file, blind or aimed at a kind of field.

use super::rng::Rng;
use crate::draft::{File, Mark};

pub fn damage(rng: &mut Rng, file: &File) -> Vec<u8> {
    let mut bytes = file.bytes.clone();
    match rng.below(15) {
        0 => flip(rng, &mut bytes),
        1 => bytes.truncate(rng.below(file.bytes.len())),
        2 => bytes.truncate(file.bytes.len().saturating_sub(rng.between(1, 3))),
        3 => bytes.insert(rng.below(file.bytes.len() + 1), rng.word() as u8),
        4 => bytes.extend((0..rng.between(1, 4)).map(|_| rng.word() as u8)),
        5 => damage_opening(rng, &mut bytes),
        6 => damage_map(rng, file, &mut bytes),
        7 => damage_mark(rng, file, &mut bytes, Mark::Count),
        8 => damage_mark(rng, file, &mut bytes, Mark::Field),
        9 => drop_byte(rng, &mut bytes),
        10 if file.has(Mark::Actions) => damage_mark(rng, file, &mut bytes, Mark::Actions),
        11..=12 if file.has(Mark::Goals) => damage_mark(rng, file, &mut bytes, Mark::Goals),
        11..=12 if file.has(Mark::Root) => damage_mark(rng, file, &mut bytes, Mark::Root),
        _ => damage_mark(rng, file, &mut bytes, Mark::Member),
    }
    bytes
}

/// Damage to the last two hundredths of a long file.
pub fn damage_end(rng: &mut Rng, file: &File) -> Vec<u8> {
    let start = file.bytes.len() - file.bytes.len() / 50;
    let late = |mark: &&(Mark, usize, usize)| mark.1 >= start;
    let end = File {
        bytes: file.bytes[start..].to_vec(),
        marks: file
            .marks
            .iter()
            .filter(late)
            .map(|&(mark, at, width)| (mark, at - start, width))
            .collect(),
    };
    [&file.bytes[..start], &damage(rng, &end)].concat()
}

fn flip(rng: &mut Rng, bytes: &mut [u8]) {
    let at = rng.below(bytes.len());
    if let Some(byte) = bytes.get_mut(at) {
        *byte ^= 1 << rng.below(8);
    }
}

fn drop_byte(rng: &mut Rng, bytes: &mut Vec<u8>) {
    if !bytes.is_empty() {
        bytes.remove(rng.below(bytes.len()));
    }
}

/// Another letter, a short file, or another form's opening.
fn damage_opening(rng: &mut Rng, bytes: &mut Vec<u8>) {
    match rng.below(3) {
        0 => flip(rng, &mut bytes[..4]),
        1 => bytes.truncate(rng.below(4)),
        _ => {
            let other = rng.pick(&[
                *b"CLM1", *b"PRF1", *b"MDL1", *b"MDL2", *b"CLM2", *b"PRF2", *b"MDL3",
            ]);
            bytes.splice(0..4, other.unwrap_or(*b"CLM0"));
        }
    }
}

/// The map byte or the kind or rule byte after it.
fn damage_map(rng: &mut Rng, file: &File, bytes: &mut [u8]) {
    let Some((at, _)) = any_mark(rng, file, Mark::Map) else {
        return;
    };
    let value = match rng.below(3) {
        0 => rng.below(16) as u8,
        1 => 1 << rng.below(8),
        _ => rng.word() as u8,
    };
    if let Some(byte) = bytes.get_mut(at + rng.below(2)) {
        *byte = value;
    }
}

fn damage_mark(rng: &mut Rng, file: &File, bytes: &mut [u8], mark: Mark) {
    let Some((at, width)) = any_mark(rng, file, mark) else {
        return;
    };
    let Some(field) = bytes.get_mut(at..at + width) else {
        return;
    };
    let mut wide = [0; 4];
    wide[..width].copy_from_slice(field);
    let old = u32::from_le_bytes(wide);
    let new = match rng.below(9) {
        0 => 0,
        1 => u32::MAX,
        2 => old.wrapping_add(1),
        3 => old.wrapping_sub(1),
        4 => old.wrapping_add(2),
        5 => old.wrapping_add(256),
        6 => 1 << rng.below(32),
        7 => old.wrapping_mul(2),
        _ => rng.below(300) as u32,
    };
    field.copy_from_slice(&new.to_le_bytes()[..width]);
}

fn any_mark(rng: &mut Rng, file: &File, mark: Mark) -> Option<(usize, usize)> {
    let found: Vec<(usize, usize)> = file
        .marks
        .iter()
        .filter(|(kind, ..)| *kind == mark)
        .map(|&(_, at, width)| (at, width))
        .collect();
    rng.pick(&found)
}
