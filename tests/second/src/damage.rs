//! Damage to books: to their windows, to their fields, and to their bytes.

use crate::book::{MOST_SHEETS, TAG_COUNT, TAG_SHEET};
use crate::draft::{Draft, Field};
use crate::random::Random;
use crate::seasons::{self, NO_DAYS};

/// A damaged book; sometimes the damage leaves it a good one.
pub fn damaged(random: &mut Random, draft: &Draft) -> Vec<u8> {
    let mut draft = draft.clone();
    if random.chance(25) {
        damage_window(random, &mut draft.fields);
        return draft.bytes();
    }
    if random.chance(60) {
        damage_fields(random, &mut draft.fields);
    }
    let mut bytes = draft.bytes();
    if random.chance(50) {
        damage_bytes(random, &mut bytes);
    }
    bytes
}

fn damage_fields(random: &mut Random, fields: &mut Vec<Field>) {
    if fields.is_empty() {
        return;
    }
    let place = random.below(fields.len());
    let other = random.below(fields.len());
    match random.below(7) {
        0 => fields.swap(place, other),
        1 => fields.insert(other, fields[place].clone()),
        2 => {
            fields.remove(place);
        }
        3 => fields[place].tag = random.pick(&[0, 1, 2, 3, 4, 5, 0x80, 0xff]),
        4 => damage_length(random, &mut fields[place]),
        5 => {
            let length = random.below(12);
            fields[place].body.resize(length, 1);
            fields[place].length = length as u16;
        }
        _ => damage_value(random, &mut fields[place].body),
    }
}

/// Something wrong with a sheet that has a window, or is given one.
fn damage_window(random: &mut Random, fields: &mut Vec<Field>) {
    let place = sheet_with_window(random, fields);
    match random.below(10) {
        0..=2 => bad_edge(random, &mut fields[place]),
        3 => {
            // Its length is as it should be, and the book ends before its last byte.
            let left = random.below(6);
            fields.truncate(place + 1);
            fields[place].body.truncate(left);
        }
        4 | 5 => {
            let length = random.pick(&[0, 1, 3, 3, 4, 4, 5, 5, 7, 7, 8]);
            fields[place].body.resize(length, 1);
            fields[place].length = length as u16;
        }
        // The short form, and behind it the bytes of the window.
        6 => fields[place].length = 2,
        7 => {
            let mut sheet = fields[place].clone();
            if random.chance(75) {
                bad_edge(random, &mut sheet);
            }
            sheet_past_the_last(fields, sheet);
        }
        8 => {
            let sheet = &mut fields[place];
            // First and last day, or the days and their months, change places.
            match random.below(3) {
                0 => sheet.body[2..].rotate_left(2),
                1 => sheet.body[2..4].reverse(),
                _ => sheet.body[4..].reverse(),
            }
        }
        _ => {
            bad_edge(random, &mut fields[place]);
            damage_beside(random, fields, place);
        }
    }
}

/// A sheet of the book with a window; without one a sheet gets one, and a book without
/// sheets gets a sheet.
fn sheet_with_window(random: &mut Random, fields: &mut Vec<Field>) -> usize {
    let places = |fields: &[Field], length: usize| -> Vec<usize> {
        let is_one = |field: &Field| field.tag == TAG_SHEET && field.body.len() == length;
        (0..fields.len()).filter(|&place| is_one(&fields[place])).collect()
    };
    let (long, short) = (places(fields, 6), places(fields, 2));
    if !long.is_empty() {
        return random.pick(&long);
    }
    let place = if short.is_empty() {
        fields.push(Field::new(TAG_SHEET, &[0, 0]));
        fields.len() - 1
    } else {
        random.pick(&short)
    };
    let window = seasons::any_window(random, &[]);
    seasons::set_window(&mut fields[place], window);
    place
}

/// One edge of the window, or each, becomes a day that no year has.
fn bad_edge(random: &mut Random, sheet: &mut Field) {
    let which = random.below(7);
    for (at, spoilt) in [(2, which < 4), (4, which > 2)] {
        if spoilt {
            let day = random.pick(&NO_DAYS);
            sheet.body[at..at + 2].copy_from_slice(&[day.day, day.month]);
        }
    }
}

/// The book gets as many sheets as it may have, and then this one.
fn sheet_past_the_last(fields: &mut Vec<Field>, sheet: Field) {
    let sheets = fields.iter().filter(|field| field.tag == TAG_SHEET).count();
    for marks in sheets..MOST_SHEETS {
        fields.push(Field::new(TAG_SHEET, &(marks as u16).to_be_bytes()));
    }
    fields.push(sheet);
}

/// Another bad field before or after the one at a place: the first one decides. Or a
/// fault in the head of that same field, which comes before the bad window.
fn damage_beside(random: &mut Random, fields: &mut Vec<Field>, place: usize) {
    let bad = random.pick(&[
        Field::new(TAG_COUNT, &[3]),
        Field::new(TAG_SHEET, &[0]),
        Field::new(4, &[255, 0]),
        Field::new(9, &[]),
    ]);
    match random.below(4) {
        0 => fields.insert(place, bad),
        1 => fields.insert(place + 1, bad),
        2 => fields[place].tag = random.pick(&[0, 1, 2, 4, 5]),
        _ => damage_length(random, &mut fields[place]),
    }
}

/// A head that states another length than the body has.
fn damage_length(random: &mut Random, field: &mut Field) {
    field.length = match random.below(4) {
        0 => field.length.wrapping_add(1),
        1 => field.length.wrapping_sub(1),
        2 => field.length << 8,
        _ => 65_535,
    };
}

fn damage_value(random: &mut Random, body: &mut [u8]) {
    if body.is_empty() {
        return;
    }
    let place = random.below(body.len());
    body[place] = random.pick(&[0, 1, 2, 3, 15, 16, 63, 64, 65, 255]);
}

fn damage_bytes(random: &mut Random, bytes: &mut Vec<u8>) {
    match random.below(5) {
        0 | 1 => bytes.truncate(random.below(bytes.len() + 1)),
        2 => bytes.extend((0..random.between(1, 4)).map(|_| random.byte() % 6)),
        3 if bytes.len() > 1 => {
            bytes.remove(random.below(bytes.len()));
        }
        _ => {
            for _ in 0..random.between(1, 3) {
                flip_bit(random, bytes);
            }
        }
    }
}

fn flip_bit(random: &mut Random, bytes: &mut [u8]) {
    if !bytes.is_empty() {
        let place = random.below(bytes.len());
        bytes[place] ^= 1 << random.below(8);
    }
}
