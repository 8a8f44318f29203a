//! Lines for the desk.

use crate::desk;
use crate::hex;
use crate::inputs::damage;
use crate::inputs::fields;
use crate::inputs::whole::{self, Case};
use crate::model::{holds, Plan, Row, Rule, MOST_COST, MOST_DELAY, MOST_LOAD};
use crate::planner;
use crate::random::Random;
use crate::sheets::{write_request, Wanted};

/// What a writer is told: the numbers after the room, then the lists.
#[derive(Clone)]
struct Told {
    writer: &'static str,
    numbers: Vec<u32>,
    lists: Vec<Vec<u8>>,
}

/// One thing that is told otherwise.
type Change = Box<dyn Fn(&mut Told)>;

impl Told {
    fn line(&self, room: usize) -> String {
        let mut words = vec![self.writer.to_string(), room.to_string()];
        words.extend(self.numbers.iter().map(|number| number.to_string()));
        words.extend(self.lists.iter().map(|list| hex::word(list)));
        words.join(" ")
    }

    /// The length of the sheet, if it is written; else some length.
    fn length(&self) -> usize {
        let answer = desk::answer(&self.line(10_000));
        let words: Vec<&str> = answer.split(' ').collect();
        match words[..] {
            ["wrote", length, _] => length.parse().unwrap_or(20),
            _ => 20,
        }
    }
}

/// Numbers of so many bytes as a list, lowest byte first.
fn list_of(numbers: &[u64], width: usize) -> Vec<u8> {
    numbers
        .iter()
        .flat_map(|number| number.to_le_bytes()[..width].to_vec())
        .collect()
}

fn set_number(at: usize, value: u32) -> Change {
    Box::new(move |told| told.numbers[at] = value)
}

fn set_entry(list: usize, entry: usize, width: usize, value: u64) -> Change {
    Box::new(move |told| {
        if let Some(bytes) = told.lists[list].get_mut(entry * width..(entry + 1) * width) {
            bytes.copy_from_slice(&value.to_le_bytes()[..width]);
        }
    })
}

fn lengthen(list: usize, bytes: usize) -> Change {
    Box::new(move |told| told.lists[list].extend(vec![1; bytes]))
}

fn shorten(list: usize, bytes: usize) -> Change {
    Box::new(move |told| {
        let length = told.lists[list].len().saturating_sub(bytes);
        told.lists[list].truncate(length);
    })
}

/// All lists get so many entries of 1.
fn resize_all(entries: usize, width: usize) -> Change {
    Box::new(move |told| {
        for list in &mut told.lists {
            *list = list_of(&vec![1; entries], width);
        }
    })
}

/// All lists lose so many bytes, so that they stay of equal length.
fn shorten_all(bytes: usize) -> Change {
    Box::new(move |told| {
        for list in &mut told.lists {
            list.truncate(list.len().saturating_sub(bytes));
        }
    })
}

/// Each change with rooms of 0, one too few, the exact length and more; every two changes with no room.
fn changed(told: &Told, changes: &[Change]) -> Vec<String> {
    let mut lines = Vec::new();
    let mut rooms = |told: &Told| {
        let length = told.length();
        lines.extend([0, length - 1, length, length + 1, length + 9].map(|room| told.line(room)));
    };
    rooms(told);
    for change in changes {
        let mut once = told.clone();
        change(&mut once);
        rooms(&once);
    }
    for first in changes {
        for second in changes {
            let mut twice = told.clone();
            first(&mut twice);
            second(&mut twice);
            lines.push(twice.line(0));
        }
    }
    lines
}

/// The settings writer with every value at and past the ends of its range, and lists that are unequal or broken.
fn settings_lines(writer: &'static str) -> Vec<String> {
    let marked = writer == "marked";
    let mut told = Told {
        writer,
        numbers: vec![700, 300],
        lists: [[4, 300], [0, 70_000], [1, 0]]
            .map(|list| list_of(&list, 4))
            .to_vec(),
    };
    if marked {
        told.numbers.push(2);
        told.lists.push(list_of(&[0, 1], 4));
    }
    let mut changes = vec![
        set_number(1, 0),
        resize_all(0, 4),
        resize_all(64, 4),
        resize_all(65, 4),
    ];
    changes.extend((1..4).map(shorten_all));
    if marked {
        changes.extend([0, 1, 2, 3, u32::MAX].map(|rule| set_number(2, rule)));
    }
    let most = [MOST_COST, MOST_LOAD, MOST_DELAY, 1];
    for (list, most) in most.into_iter().enumerate().take(told.lists.len()) {
        let most = u64::from(most);
        changes.extend([1, 4].map(|bytes| lengthen(list, bytes)));
        changes.extend([1, 4].map(|bytes| shorten(list, bytes)));
        for entry in 0..2 {
            changes.extend([0, most, most + 1].map(|value| set_entry(list, entry, 4, value)));
        }
        changes.push(set_entry(list, 0, 4, u64::from(u32::MAX)));
    }
    changed(&told, &changes)
}

/// The request writer with every fault that a block can have, and a list that is broken.
fn request_lines() -> Vec<String> {
    let plain = Told {
        writer: "request",
        numbers: vec![2, 700, 300, 0, 9],
        lists: vec![list_of(&[3, 256, 384], 8)],
    };
    let aged = Told {
        numbers: vec![4, 700, 300, 300, 9],
        ..plain.clone()
    };
    let mut changes = vec![set_number(2, 0)];
    changes.extend([0, 1, 2, 3, 4, 5, u32::MAX].map(|kind| set_number(0, kind)));
    changes.extend([0, 1, u32::MAX].map(|age| set_number(3, age)));
    changes.extend([0, 1, 8, 64, 65, u32::MAX].map(|disks| set_number(4, disks)));
    changes.extend((1..=8).map(shorten_all));
    changes.extend([0, 1_024, 1_025].map(|blocks| resize_all(blocks, 8)));
    let faulty = [0, 255, 511, 512, 1023, 1 << 63, u64::MAX];
    for block in 0..3 {
        changes.extend(faulty.map(|copies| set_entry(0, block, 8, copies)));
    }
    let mut lines = changed(&plain, &changes);
    changes.truncate(12);
    lines.extend(changed(&aged, &changes));
    lines
}

/// The plan reader: damaged sheets with room and without, other units and tenancies, and rooms about the lengths.
fn plan_lines() -> Vec<String> {
    let small = plan_of(9, &[0, 0, 1, 1], &[0, 1, 2, 3]);
    let other = plan_of(1_125_000_000, &[63, 5, 0], &[1]);
    let mut wide = vec![63; 130];
    wide[3] = 0;
    let wide = plan_of(300, &wide, &[127, 129]);
    let mut lines = Vec::new();
    for (unit, tenancy, plan) in [
        (700, 300, plan_of(0, &[], &[])),
        (7, 1, small),
        (70_000, 4_000_000_000, other),
        (0, 300, wide),
    ] {
        let (blocks, size) = (plan.disks.len(), plan.short.len());
        let fields = fields::plan(unit, tenancy, &plan);
        let sheet = hex::word(&fields::bytes(&fields));
        for expected in [unit ^ 1, unit ^ 128] {
            lines.push(format!("plan {expected} {tenancy} {blocks} 300 {sheet}"));
        }
        for expected in [0, tenancy ^ 1, tenancy ^ 128] {
            lines.push(format!("plan {unit} {expected} {blocks} 300 {sheet}"));
        }
        for disk_room in [0, blocks.saturating_sub(1), blocks, blocks + 1] {
            for set_room in [0, size, 2 * size, 2 * size + 1].map(|room| [room, room.max(1) - 1]) {
                lines.extend(set_room.map(|set_room| {
                    format!("plan {unit} {tenancy} {disk_room} {set_room} {sheet}")
                }));
            }
        }
        // A long run of disks needs faults at its ends only.
        let places: Vec<usize> = (0..fields.len())
            .filter(|&place| place < 10 || place + 6 > fields.len())
            .collect();
        for sheet in damage::at_places(&fields, &places) {
            let sheet = hex::word(&sheet);
            lines.push(format!("plan {unit} {tenancy} 1030 2060 {sheet}"));
            lines.push(format!("plan {unit} {tenancy} 0 0 {sheet}"));
        }
    }
    lines
}

fn plan_of(time: u32, disks: &[u8], short: &[u16]) -> Plan {
    Plan {
        time,
        disks: disks.to_vec(),
        short: short.to_vec(),
    }
}

/// Every fault at every field of the writers and of the plan reader.
pub fn systematic() -> Vec<String> {
    [
        settings_lines("settings"),
        settings_lines("larger"),
        settings_lines("marked"),
        request_lines(),
        plan_lines(),
    ]
    .concat()
}

/// The line of a seed and an index.
pub fn line(seed: u64, index: u64) -> String {
    let mut random = Random::of(seed, index);
    match index % 3 {
        0 => settings(&mut random),
        1 => request(&mut random),
        _ => plan(&mut random),
    }
}

fn case(random: &mut Random) -> Case {
    if random.once_in(50) {
        whole::any(random)
    } else {
        whole::small(random)
    }
}

/// A tenancy, sometimes 0.
fn tenancy(random: &mut Random) -> u32 {
    if random.once_in(20) {
        0
    } else {
        random.number()
    }
}

/// A room about a length: exact, one less, more, or any.
fn room(random: &mut Random, length: usize) -> usize {
    match random.within(1, 6) {
        1 => length.saturating_sub(1),
        2 => length + random.index(9),
        3 => random.index(length + 1),
        _ => length,
    }
}

/// A settings writer's line; rows, marks, rule and lists may be spoilt.
fn settings(random: &mut Random) -> String {
    let case = case(random);
    let table = whole::some_out(random, case).table;
    let mut rows = table.rows;
    for _ in 0..*random.pick(&[0, 0, 1, 2]) {
        spoil_rows(random, &mut rows);
    }
    let list = |value: fn(&Row) -> u32| -> Vec<u8> {
        let values = rows.iter().map(|row| value(row).to_le_bytes());
        values.flatten().collect()
    };
    let mut told = Told {
        writer: match table.rule {
            Rule::Sum => "settings",
            Rule::Larger => "larger",
        },
        numbers: vec![random.number(), tenancy(random)],
        lists: vec![
            list(|row| row.cost),
            list(|row| row.load),
            list(|row| row.delay),
        ],
    };
    if table.out != 0 || random.once_in(4) {
        told.writer = "marked";
        let rule = if table.rule == Rule::Sum { 1 } else { 2 };
        let spoilt = [0, 3, random.number()];
        told.numbers.push(if random.once_in(12) {
            *random.pick(&spoilt)
        } else {
            rule
        });
        let mut marks: Vec<u64> = (0..rows.len())
            .map(|disk| holds(table.out, disk % 64).into())
            .collect();
        if !marks.is_empty() && random.once_in(8) {
            let place = random.index(marks.len());
            marks[place] = *random.pick(&[1, 2, 256, 1 << 31, u64::from(u32::MAX)]);
        }
        told.lists.push(list_of(&marks, 4));
    }
    let length = told.length();
    spoil_lists(random, &mut told.lists);
    told.line(room(random, length))
}

fn spoil_rows(random: &mut Random, disks: &mut Vec<Row>) {
    let place = random.index(disks.len() + 1);
    match disks.get_mut(place) {
        Some(disk) => match random.within(1, 6) {
            1 => disk.cost = 0,
            2 => disk.cost = 1_000_001,
            3 => disk.load = 100_000_001,
            4 => disk.delay = 1_000_001,
            5 => {
                *disk = Row {
                    cost: 1_000_000,
                    load: 100_000_000,
                    delay: 1_000_000,
                }
            }
            _ => {
                *disk = Row {
                    cost: random.number(),
                    load: random.number(),
                    delay: random.number(),
                }
            }
        },
        None => {
            let count = *random.pick(&[0, 64, 65, 66]);
            disks.resize(
                count,
                Row {
                    cost: 1,
                    load: 0,
                    delay: 0,
                },
            );
        }
    }
}

/// Lists of unequal length, or broken inside a number, one or all of them.
fn spoil_lists(random: &mut Random, lists: &mut [Vec<u8>]) {
    let list = random.index(lists.len());
    let cut = random.index(6);
    match random.within(1, 20) {
        1 => lists[list].resize(4 * cut, 1),
        2 => lists[list].resize(cut, 1),
        3 => lists
            .iter_mut()
            .for_each(|list| list.truncate(list.len().saturating_sub(cut))),
        _ => {}
    }
}

fn request(random: &mut Random) -> String {
    let (unit, tenancy) = (random.number(), tenancy(random));
    let Case { table, mut copies } = case(random);
    let disks = table.rows;
    let count = match random.within(1, 12) {
        1 => *random.pick(&[0, 64, 65, u32::MAX]),
        2 => disks.len() as u32 - 1,
        _ => disks.len() as u32,
    };
    for _ in 0..*random.pick(&[0, 0, 0, 1, 2]) {
        spoil_copies(random, count.clamp(1, 64), &mut copies);
    }
    let age = whole::age(random, &disks);
    let (mut kind, mut age) = (if age.is_some() { 4 } else { 2 }, age.unwrap_or(0));
    match random.within(1, 30) {
        1 => kind = *random.pick(&[0, 1, 3, 5, 6, 7]),
        2 => kind = random.number(),
        3 => kind = 6 - kind,
        4 => age = random.number(),
        _ => {}
    }
    let wanted = Wanted {
        kind,
        unit,
        tenancy,
        age,
        disks: count,
        copies: Some(&copies),
    };
    let length = write_request(&wanted, usize::MAX).map_or(20, |sheet| sheet.len());
    let room = room(random, length);
    let mut list: Vec<u8> = copies
        .iter()
        .flat_map(|block| block.to_le_bytes())
        .collect();
    if random.once_in(15) {
        list.truncate(list.len().saturating_sub(random.index(9)));
    }
    format!(
        "request {room} {kind} {unit} {tenancy} {age} {count} {}",
        hex::word(&list)
    )
}

fn spoil_copies(random: &mut Random, disks: u32, copies: &mut Vec<u64>) {
    let place = random.index(copies.len() + 1);
    if place == copies.len() {
        let count = *random.pick(&[1_023, 1_024, 1_025]);
        return copies.resize(if random.once_in(10) { count } else { place + 1 }, 1);
    }
    copies[place] = match random.within(1, 6) {
        1 => 0,
        2 => 511,
        3 => u64::MAX,
        4 => 1 << (disks % 64),
        5 => 1 << 63,
        _ => random.next(),
    };
}

fn plan(random: &mut Random) -> String {
    let case = case(random);
    let (unit, tenancy) = (random.number(), tenancy(random));
    let plan = planner::plan(&case.disks(), &case.copies);
    let disk_room = room(random, plan.disks.len());
    let set_room = room(random, 2 * plan.short.len());
    let mut fields = fields::plan(unit, tenancy, &plan);
    for _ in 0..*random.pick(&[0, 0, 0, 1, 1, 2]) {
        damage::any(random, &mut fields);
    }
    let mut sheet = fields::bytes(&fields);
    if random.once_in(8) {
        damage::any_bytes(random, &mut sheet);
    }
    let expected = if random.once_in(20) { 0 } else { tenancy };
    format!(
        "plan {unit} {expected} {disk_room} {set_room} {}",
        hex::word(&sheet)
    )
}
