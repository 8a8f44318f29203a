//! Faults, each at any field of a list.

use crate::inputs::fields::{bytes, Field, Role};
use crate::model::{
    MOST_BLOCKS, MOST_COPIES, MOST_COST, MOST_DELAY, MOST_DISKS, MOST_LOAD, MOST_TIME,
};
use crate::random::Random;

#[derive(Clone, Copy, Debug, PartialEq, Eq)]
pub enum Fault {
    LongForm,
    LongestForm,
    SixBytes,
    FifthByteLarge,
    FifthByteFollowed,
    TooManyBits,
    LoneByte,
    FourLoneBytes,
    Zero,
    Highest,
    AboveHighest,
    Greatest,
    OneMore,
    OneLess,
    AsBefore,
    BelowBefore,
    Removed,
    Doubled,
    EndsBefore,
    EndsInside,
    EndsAfter,
}

pub const FAULTS: [Fault; 21] = [
    Fault::LongForm,
    Fault::LongestForm,
    Fault::SixBytes,
    Fault::FifthByteLarge,
    Fault::FifthByteFollowed,
    Fault::TooManyBits,
    Fault::LoneByte,
    Fault::FourLoneBytes,
    Fault::Zero,
    Fault::Highest,
    Fault::AboveHighest,
    Fault::Greatest,
    Fault::OneMore,
    Fault::OneLess,
    Fault::AsBefore,
    Fault::BelowBefore,
    Fault::Removed,
    Fault::Doubled,
    Fault::EndsBefore,
    Fault::EndsInside,
    Fault::EndsAfter,
];

/// The highest value of a field's range; disks and blocks by the widest range there is.
fn highest(role: Role) -> u32 {
    match role {
        Role::Kind => 6,
        Role::Unit | Role::Tenancy | Role::Age | Role::AnyNumber => u32::MAX,
        Role::DiskCount => MOST_DISKS,
        Role::Cost => MOST_COST,
        Role::Load => MOST_LOAD,
        Role::Delay => MOST_DELAY,
        Role::StartRule => 2,
        Role::Mark => 1,
        Role::BlockCount | Role::SetSize => MOST_BLOCKS,
        Role::CopyCount => MOST_COPIES,
        Role::Disk => MOST_DISKS - 1,
        Role::Time => MOST_TIME,
        Role::Block => MOST_BLOCKS - 1,
        Role::Length => 9_234,
        Role::Room => 4_096,
    }
}

/// The value in a longer form of so many bytes.
fn padded(field: &Field, length: usize) -> Vec<u8> {
    let mut bytes = field.bytes.clone();
    while bytes.len() < length {
        *bytes.last_mut().expect("a field has a byte") |= 128;
        bytes.push(0);
    }
    bytes
}

/// Puts the fault at the field of that place.
pub fn put(fields: &mut Vec<Field>, place: usize, fault: Fault) {
    let field = fields[place].clone();
    let before = if place > 0 {
        fields[place - 1].value
    } else {
        0
    };
    let number = |value| Field::new(field.role, value);
    let raw = |bytes| Field {
        bytes,
        ..field.clone()
    };
    let damaged = match fault {
        Fault::LongForm => raw(padded(&field, field.bytes.len() + 1)),
        Fault::LongestForm => raw(padded(&field, 5)),
        Fault::SixBytes => raw(padded(&field, 6)),
        Fault::FifthByteLarge => raw(vec![0xFF, 0xFF, 0xFF, 0xFF, 0x10]),
        Fault::FifthByteFollowed => raw(vec![0xFF, 0xFF, 0xFF, 0xFF, 0x80]),
        Fault::TooManyBits => raw(vec![0x80, 0x80, 0x80, 0x80, 0x80, 0x01]),
        Fault::LoneByte => raw(vec![0x80]),
        Fault::FourLoneBytes => raw(vec![0x80; 4]),
        Fault::Zero => number(0),
        Fault::Highest => number(highest(field.role)),
        Fault::AboveHighest => number(highest(field.role).wrapping_add(1)),
        Fault::Greatest => number(u32::MAX),
        Fault::OneMore => number(field.value.wrapping_add(1)),
        Fault::OneLess => number(field.value.wrapping_sub(1)),
        Fault::AsBefore => number(before),
        Fault::BelowBefore => number(before.wrapping_sub(1)),
        Fault::Doubled => raw([&field.bytes[..], &field.bytes[..]].concat()),
        Fault::Removed => raw(Vec::new()),
        Fault::EndsBefore => return fields.truncate(place),
        Fault::EndsAfter => return fields.truncate(place + 1),
        Fault::EndsInside => {
            fields.truncate(place + 1);
            raw(if field.bytes.len() > 1 {
                field.bytes[..field.bytes.len() - 1].to_vec()
            } else {
                vec![0x81]
            })
        }
    };
    fields[place] = damaged;
}

/// Every truncation of a sheet, bytes after it, and every fault at every field.
pub fn everywhere(sheet: &[Field]) -> Vec<Vec<u8>> {
    at_places(sheet, &(0..sheet.len()).collect::<Vec<_>>())
}

/// As everywhere, with the faults at some fields only.
pub fn at_places(sheet: &[Field], places: &[usize]) -> Vec<Vec<u8>> {
    let whole = bytes(sheet);
    let mut sheets: Vec<Vec<u8>> = (0..=whole.len())
        .map(|length| whole[..length].to_vec())
        .collect();
    sheets.extend([0, 1, 128].map(|byte| [&whole[..], &[byte]].concat()));
    for fault in FAULTS {
        for &place in places {
            let mut damaged = sheet.to_vec();
            put(&mut damaged, place, fault);
            sheets.push(bytes(&damaged));
        }
    }
    sheets
}

/// A random fault at a random field.
pub fn any(random: &mut Random, fields: &mut Vec<Field>) {
    if fields.is_empty() {
        return;
    }
    let place = if random.once_in(2) {
        random.index(fields.len())
    } else {
        random.index(fields.len().min(12))
    };
    if fields[place].bytes.is_empty() {
        return;
    }
    put(fields, place, *random.pick(&FAULTS));
}

/// A random change of the bytes themselves.
pub fn any_bytes(random: &mut Random, bytes: &mut Vec<u8>) {
    let place = random.index(bytes.len() + 1);
    match random.within(1, 5) {
        1 => bytes.truncate(place),
        2 => bytes.insert(place, random.next() as u8),
        3 => bytes.extend((0..random.within(1, 3)).map(|_| random.next() as u8)),
        _ if place < bytes.len() => bytes[place] ^= 1 << random.within(0, 7),
        _ => bytes.push(0),
    }
}
