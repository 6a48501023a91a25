//! Damage to laid out bytes: header, records, text, lengths.

use super::random::Random;
use crate::layout::HEADER_BYTES;

/// One to two changes of a table or step list with records of this size.
pub fn damage_layout(random: &mut Random, bytes: &mut Vec<u8>, record_bytes: usize) {
    for _ in 0..*random.pick(&[1, 1, 1, 2]) {
        damage_once(random, bytes, record_bytes);
    }
}

fn damage_once(random: &mut Random, bytes: &mut Vec<u8>, record_bytes: usize) {
    let records = record_count(bytes, record_bytes);
    match random.below(20) {
        0 | 1 => {
            let field = random.below(6);
            damage_field(random, bytes, 4 * field, 4);
        }
        2..=9 if records > 0 => damage_record(random, bytes, record_bytes, records),
        10 | 11 if records > 1 => swap_records(random, bytes, record_bytes, records),
        12 | 13 if records > 0 => remove_record(random, bytes, record_bytes, records),
        14 => {
            let kept = random.below(bytes.len() + 1);
            bytes.truncate(kept);
        }
        15 => {
            bytes.push(random.byte());
            if random.percent(50) {
                let total = bytes.len();
                set_header(bytes, 1, total);
            }
        }
        _ => {
            let at = random.below(bytes.len());
            if let Some(byte) = bytes.get_mut(at) {
                *byte = odd_byte(random, *byte);
            }
        }
    }
}

/// The count that the length and the text offset allow, whatever the header says of it.
fn record_count(bytes: &[u8], record_bytes: usize) -> usize {
    let text_offset = header(bytes, 5).unwrap_or(0).min(bytes.len());
    text_offset.saturating_sub(HEADER_BYTES) / record_bytes
}

fn header(bytes: &[u8], field: usize) -> Option<usize> {
    let four = bytes.get(4 * field..4 * field + 4)?;
    Some(u32::from_le_bytes(four.try_into().ok()?) as usize)
}

fn set_header(bytes: &mut [u8], field: usize, value: usize) {
    if let Some(four) = bytes.get_mut(4 * field..4 * field + 4) {
        four.copy_from_slice(&(value as u32).to_le_bytes());
    }
}

/// A neighbour of the byte, a small number, or any.
fn odd_byte(random: &mut Random, old: u8) -> u8 {
    match random.below(6) {
        0 => old.wrapping_add(1),
        1 => old.wrapping_sub(1),
        2 => random.below(9) as u8,
        3 => old ^ (1 << random.below(8)),
        _ => random.byte(),
    }
}

/// Changes a little-endian field; mostly its low byte, sometimes all of it.
fn damage_field(random: &mut Random, bytes: &mut [u8], at: usize, length: usize) {
    let Some(field) = bytes.get_mut(at..at + length) else {
        return;
    };
    match random.below(8) {
        0 => field.fill(0xff),
        1 => field.fill(0),
        2 => {
            let which = random.below(length);
            field[which] = odd_byte(random, field[which]);
        }
        _ => field[0] = odd_byte(random, field[0]),
    }
}

fn damage_record(random: &mut Random, bytes: &mut [u8], record_bytes: usize, records: usize) {
    const FIELDS: [(usize, usize); 7] = [(0, 2), (2, 2), (4, 2), (6, 2), (6, 2), (8, 8), (16, 4)];
    let start = HEADER_BYTES + record_bytes * random.below(records);
    let (offset, length) = *random.pick(&FIELDS);
    if offset < record_bytes {
        damage_field(random, bytes, start + offset, length);
    }
}

fn swap_records(random: &mut Random, bytes: &mut [u8], record_bytes: usize, records: usize) {
    let first = HEADER_BYTES + record_bytes * random.below(records);
    let second = HEADER_BYTES + record_bytes * random.below(records);
    for offset in 0..record_bytes {
        bytes.swap(first + offset, second + offset);
    }
}

/// Takes a record out and mends the header, so that only spans, nesting or text are wrong.
fn remove_record(random: &mut Random, bytes: &mut Vec<u8>, record_bytes: usize, records: usize) {
    let start = HEADER_BYTES + record_bytes * random.below(records);
    bytes.drain(start..start + record_bytes);
    let total = bytes.len();
    set_header(bytes, 1, total);
    set_header(bytes, 2, records - 1);
    set_header(bytes, 5, HEADER_BYTES + (records - 1) * record_bytes);
}
