//! The desk end in text, to be held against the exported functions: one line in, one line out.

use std::io::{BufRead, Write};

use crate::hex;
use crate::model::{Row, Rule};
use crate::refusal::{Refused, NO_ROOM, RANGE};
use crate::sheets::{read_plan, write_marked, write_request, write_settings, Wanted};

/// What every byte of a lent buffer is before the call.
const FILL: u8 = 0xA5;

pub fn run(input: &mut impl BufRead, output: &mut impl Write) {
    for line in input.lines() {
        let Ok(line) = line else { break };
        if writeln!(output, "{}", answer(&line)).is_err() {
            break;
        }
    }
    let _ = output.flush();
}

/// The answer to one line.
pub fn answer(line: &str) -> String {
    let words: Vec<&str> = line.split(' ').collect();
    let found = match words[0] {
        "settings" => settings(Rule::Sum, &words[1..]),
        "larger" => settings(Rule::Larger, &words[1..]),
        "marked" => marked(&words[1..]),
        "request" => request(&words[1..]),
        "plan" => plan(&words[1..]),
        _ => None,
    };
    found.unwrap_or_else(|| "not a line of the desk".to_string())
}

fn settings(rule: Rule, words: &[&str]) -> Option<String> {
    let &[room, unit, tenancy, costs, loads, delays] = words else {
        return None;
    };
    let room = room.parse().ok()?;
    let (unit, tenancy) = (unit.parse().ok()?, tenancy.parse().ok()?);
    let lists = [hex::read(costs)?, hex::read(loads)?, hex::read(delays)?];
    let sheet = rows(lists).and_then(|rows| {
        let rows: Vec<Row> = rows.into_iter().map(row).collect();
        write_settings(unit, tenancy, rule, &rows, room)
    });
    Some(wrote(sheet, room))
}

fn marked(words: &[&str]) -> Option<String> {
    let &[room, unit, tenancy, rule, costs, loads, delays, marks] = words else {
        return None;
    };
    let room = room.parse().ok()?;
    let (unit, tenancy, rule) = (
        unit.parse().ok()?,
        tenancy.parse().ok()?,
        rule.parse().ok()?,
    );
    let lists = [costs, loads, delays, marks].map(hex::read);
    let [Some(costs), Some(loads), Some(delays), Some(marks)] = lists else {
        return None;
    };
    let sheet = rows([costs, loads, delays, marks]).and_then(|rows| {
        let split = |[cost, load, delay, mark]: [u32; 4]| (row([cost, load, delay]), mark);
        let rows: Vec<(Row, u32)> = rows.into_iter().map(split).collect();
        write_marked(unit, tenancy, rule, &rows, room)
    });
    Some(wrote(sheet, room))
}

fn row([cost, load, delay]: [u32; 3]) -> Row {
    Row { cost, load, delay }
}

fn request(words: &[&str]) -> Option<String> {
    let &[room, kind, unit, tenancy, age, disks, copies] = words else {
        return None;
    };
    let room = room.parse().ok()?;
    let copies = masks(&hex::read(copies)?);
    let wanted = Wanted {
        kind: kind.parse().ok()?,
        unit: unit.parse().ok()?,
        tenancy: tenancy.parse().ok()?,
        age: age.parse().ok()?,
        disks: disks.parse().ok()?,
        copies: copies.as_deref(),
    };
    Some(wrote(write_request(&wanted, room), room))
}

fn plan(words: &[&str]) -> Option<String> {
    let &[unit, tenancy, disk_room, set_room, sheet] = words else {
        return None;
    };
    let (unit, tenancy) = (unit.parse().ok()?, tenancy.parse().ok()?);
    let mut disks: Vec<u8> = vec![FILL; disk_room.parse().ok()?];
    let mut set: Vec<u8> = vec![FILL; set_room.parse().ok()?];
    let head = match read_into(&hex::read(sheet)?, unit, tenancy, &mut disks, &mut set) {
        Ok((blocks, time, size)) => format!("plan {blocks} {time} {size}"),
        Err(refused) => refused.to_string(),
    };
    Some(format!("{head} {} {}", hex::word(&disks), hex::word(&set)))
}

/// The plan reader over lent lists of bytes; an odd last byte of the second is not used. 11 tells the entries of the
/// first list too short.
fn read_into(
    sheet: &[u8],
    unit: u32,
    tenancy: u32,
    disks: &mut [u8],
    set: &mut [u8],
) -> Result<(usize, u32, usize), Refused> {
    let plan = read_plan(sheet, unit, tenancy)?;
    for (needed, room) in [
        (plan.disks.len(), disks.len()),
        (plan.short.len(), set.len() / 2),
    ] {
        if needed > room {
            return Err(NO_ROOM.at(needed));
        }
    }
    disks[..plan.disks.len()].copy_from_slice(&plan.disks);
    for (place, block) in set.chunks_exact_mut(2).zip(&plan.short) {
        place.copy_from_slice(&block.to_le_bytes());
    }
    Ok((plan.disks.len(), plan.time, plan.short.len()))
}

/// Lists of 32-bit numbers, lowest byte first, an entry of each in a row; unequal or broken lists get 6.
fn rows<const COUNT: usize>(lists: [Vec<u8>; COUNT]) -> Result<Vec<[u32; COUNT]>, Refused> {
    let length = lists[0].len();
    if lists.iter().any(|list| list.len() != length) || !length.is_multiple_of(4) {
        return Err(RANGE.nowhere());
    }
    let read = |list: &[u8], at: usize| {
        u32::from_le_bytes([list[at], list[at + 1], list[at + 2], list[at + 3]])
    };
    let row = |at| std::array::from_fn(|list| read(&lists[list], at));
    Ok((0..length).step_by(4).map(row).collect())
}

/// A list of 64-bit numbers, lowest byte first; nothing if it is broken.
fn masks(list: &[u8]) -> Option<Vec<u64>> {
    if !list.len().is_multiple_of(8) {
        return None;
    }
    let read = |bytes: &[u8]| {
        bytes
            .iter()
            .rev()
            .fold(0, |value, &byte| value << 8 | u64::from(byte))
    };
    Some(list.chunks(8).map(read).collect())
}

/// The answer of a writer and the whole lent buffer after the call.
fn wrote(sheet: Result<Vec<u8>, Refused>, room: usize) -> String {
    let mut buffer = vec![FILL; room];
    let head = match sheet {
        Ok(sheet) => {
            buffer[..sheet.len()].copy_from_slice(&sheet);
            format!("wrote {}", sheet.len())
        }
        Err(refused) => refused.to_string(),
    };
    format!("{head} {}", hex::word(&buffer))
}

#[cfg(test)]
mod tests {
    use super::*;

    #[test]
    fn writers() {
        assert_eq!(
            answer("settings 8 7 5 04000000 02000000 01000000"),
            "wrote 7 01070501040201a5"
        );
        assert_eq!(
            answer("settings 6 7 5 04000000 02000000 01000000"),
            "refused 11 7 a5a5a5a5a5a5"
        );
        assert_eq!(
            answer("settings 1 7 5 040000 020000 010000"),
            "refused 6 0 a5"
        );
        assert_eq!(answer("settings 0 7 5 - - -"), "refused 6 0 -");
        assert_eq!(
            answer("larger 8 7 5 04000000 02000000 01000000"),
            "wrote 7 05070501040201a5"
        );
        assert_eq!(
            answer("larger 6 7 5 04000000 02000000 01000000"),
            "refused 11 7 a5a5a5a5a5a5"
        );
        assert_eq!(
            answer("larger 0 7 0 04000000 02000000 01000000"),
            "refused 6 0 -"
        );
        assert_eq!(
            answer("larger 0 7 5 00000000 02000000 01000000"),
            "refused 15 0 -"
        );
        assert_eq!(answer("larger 0 7 5 - - -"), "refused 6 0 -");
        assert_eq!(
            answer("marked 10 7 5 2 04000000 02000000 01000000 01000000"),
            "wrote 9 060705010204020101a5"
        );
        assert_eq!(
            answer("marked 8 7 5 1 04000000 02000000 01000000 00000000"),
            "refused 11 9 a5a5a5a5a5a5a5a5"
        );
        let one = "04000000 02000000 01000000";
        for (line, refusal) in [
            (format!("marked 0 7 0 0 {one} 01000000"), 6),
            (format!("marked 0 7 5 0 {one} -"), 6),
            (format!("marked 0 7 5 0 {one} 0100000000000000"), 6),
            (format!("marked 0 7 5 0 {one} 010000"), 6),
            ("marked 0 7 5 0 - - - -".to_string(), 6),
            (format!("marked 0 7 5 0 {one} 01000000"), 15),
            (format!("marked 0 7 5 3 {one} 01000000"), 15),
            (format!("marked 0 7 5 1 {one} 02000000"), 15),
            (format!("marked 0 7 5 1 {one} 00010000"), 15),
        ] {
            assert_eq!(answer(&line), format!("refused {refusal} 0 -"), "{line}");
        }
        assert_eq!(
            answer("request 7 2 7 5 0 2 0300000000000000"),
            "wrote 7 02070501020001"
        );
        assert_eq!(
            answer("request 9 4 7 5 300 2 0300000000000000"),
            "wrote 9 040705ac0201020001"
        );
        assert_eq!(
            answer("request 8 4 7 5 0 2 0300000000000000"),
            "wrote 8 0407050001020001"
        );
        assert_eq!(answer("request 4 2 7 5 0 2 -"), "wrote 4 02070500");
        assert_eq!(
            answer("request 0 2 7 5 0 2 0000000000000000"),
            "refused 7 0 -"
        );
        assert_eq!(answer("request 0 2 7 5 0 2 03"), "refused 6 0 -");
        assert_eq!(answer("request 1 3 7 0 1 0 03"), "refused 3 0 a5");
        assert_eq!(answer("request 1 2 7 0 1 0 03"), "refused 6 0 a5");
        assert_eq!(answer("request 1 2 7 5 1 0 03"), "refused 6 0 a5");
        assert_eq!(answer("request 1 2 7 5 1 0 -"), "refused 15 0 a5");
        assert_eq!(answer("request 1 4 7 5 1 0 -"), "refused 6 0 a5");
        assert_eq!(answer("request 1 4 7 5 1 1 -"), "refused 11 5 a5");
        assert_eq!(answer("request 0 7 5 2 -"), "not a line of the desk");
    }

    #[test]
    fn the_plan_reader() {
        assert_eq!(
            answer("plan 7 5 2 3 0307050109020100"),
            "plan 1 9 1 02a5 0000a5"
        );
        assert_eq!(
            answer("plan 7 5 2 1 0307050109020100"),
            "refused 11 1 a5a5 a5"
        );
        assert_eq!(
            answer("plan 7 5 0 9 0307050109020100"),
            "refused 11 1 - a5a5a5a5a5a5a5a5a5"
        );
        assert_eq!(answer("plan 7 0 0 0 030700"), "refused 5 2 - -");
        assert_eq!(answer("plan 7 5 0 0 030705000000"), "plan 0 0 0 - -");
        let three = "0307050309000102020002";
        for (rooms, needed) in [("2 4", 3), ("3 3", 2), ("2 3", 3), ("0 0", 3), ("9 0", 2)] {
            let found = answer(&format!("plan 7 5 {rooms} {three}"));
            assert!(found.starts_with(&format!("refused 11 {needed} ")));
        }
        assert!(answer(&format!("plan 7 5 3 4 {three}")).starts_with("plan 3 9 2 "));
    }
}
