//! Streams of calls for the shelf program.

use crate::inputs::damage::{self, Fault, FAULTS};
use crate::inputs::fields::{bytes, marked, request, settings, with_length, Field, Role};
use crate::inputs::whole::{self, Case};
use crate::model::{disks_of, Row, Rule, Table};
use crate::number::shortest;
use crate::random::Random;
use crate::shelf::MOST_ROOM;
use crate::unit::Unit;

/// A stream in pieces: the unit's number, then a piece for each call.
pub type Stream = Vec<Vec<u8>>;

/// A hire that is made up as it goes, with all that went over the desk before.
struct Hire {
    number: u32,
    unit: Unit,
    last: u32,
    case: Case,
    settings_sent: Vec<Vec<u8>>,
    requests_sent: Vec<Vec<u8>>,
}

/// The stream of a seed and an index.
pub fn stream(seed: u64, index: u64) -> Stream {
    let mut random = Random::of(seed, index);
    let number = random.number();
    let mut hire = Hire {
        number,
        unit: Unit::new(number),
        last: 0,
        case: whole::small(&mut random),
        settings_sent: Vec::new(),
        requests_sent: Vec::new(),
    };
    let mut pieces = vec![shortest(number)];
    let most = *random.pick(&[10, 40, 300]);
    for _ in 0..random.within(1, most) {
        pieces.push(hire.call(&mut random));
    }
    if random.once_in(2) {
        pieces.push(hire.damaged_call(&mut random));
    }
    pieces
}

/// So many calls to a unit that is rented and not set, none of which stops the stream.
pub fn calls(seed: u64, count: u32, number: u32, tenancy: u32) -> Vec<Vec<u8>> {
    let mut random = Random::of(seed, 0);
    let mut unit = Unit::new(number);
    let _ = unit.rent(tenancy);
    let mut hire = Hire {
        number,
        unit,
        last: tenancy,
        case: whole::small(&mut random),
        settings_sent: Vec::new(),
        requests_sent: Vec::new(),
    };
    (0..count).map(|_| hire.call(&mut random)).collect()
}

impl Hire {
    /// A call that mostly fits the state the unit is in.
    fn call(&mut self, random: &mut Random) -> Vec<u8> {
        let rented = self.unit.tenancy() != 0;
        let odd = random.once_in(4);
        match (rented, odd) {
            (false, false) => self.rent(random),
            (true, false) if self.unit.disks() == 0 => self.settings(random),
            (true, false) => match random.within(1, 12) {
                1 => self.give_back(random),
                2 => self.settings(random),
                3..=7 => self.request(random),
                _ => self.reason(random),
            },
            (_, true) => match random.within(1, 7) {
                1 => self.rent(random),
                2 => self.give_back(random),
                3 => self.settings(random),
                4 => self.request(random),
                5 => self.reason(random),
                6 => self.old_settings(random),
                _ => self.old_request(random),
            },
        }
    }

    fn rent(&mut self, random: &mut Random) -> Vec<u8> {
        let tenancy = match random.within(1, 40) {
            1 => 0,
            2..=4 => self.last,
            5 => self.last.saturating_sub(1),
            6 => random.number() / 2,
            7 if random.once_in(20) => u32::MAX,
            8 => self.last.saturating_add(random.within(1, 100_000)),
            _ => self.last.saturating_add(random.within(1, 3)),
        };
        if self.unit.rent(tenancy).is_ok() {
            self.last = tenancy;
        }
        [shortest(1), shortest(tenancy)].concat()
    }

    fn give_back(&mut self, random: &mut Random) -> Vec<u8> {
        let tenancy = match random.within(1, 10) {
            1 => 0,
            2 => self.last.wrapping_add(1),
            3 => self.last.wrapping_sub(1),
            _ => self.last,
        };
        let _ = self.unit.give_back(tenancy);
        [shortest(4), shortest(tenancy)].concat()
    }

    fn settings(&mut self, random: &mut Random) -> Vec<u8> {
        let case = whole::any(random);
        let case = whole::some_out(random, case);
        let mut fields = if random.once_in(4) {
            marked(self.number, self.last, &case.table)
        } else {
            settings(self.number, self.last, &case.table)
        };
        maybe_damage(random, &mut fields);
        let sheet = bytes(&fields);
        self.case = case;
        self.send_settings(sheet)
    }

    fn old_settings(&mut self, random: &mut Random) -> Vec<u8> {
        if self.settings_sent.is_empty() {
            return self.settings(random);
        }
        let sheet = random.pick(&self.settings_sent).clone();
        self.send_settings(sheet)
    }

    fn send_settings(&mut self, sheet: Vec<u8>) -> Vec<u8> {
        let _ = self.unit.settings(&sheet);
        let call = [shortest(2), shortest(sheet.len() as u32), sheet.clone()].concat();
        remember(&mut self.settings_sent, sheet);
        call
    }

    fn request(&mut self, random: &mut Random) -> Vec<u8> {
        let copies = self.copies(random);
        let age = whole::age(random, &self.case.table.rows);
        let mut fields = request(self.number, self.last, age, &copies);
        maybe_damage(random, &mut fields);
        let sheet = bytes(&fields);
        self.send_request(random, sheet)
    }

    /// Blocks for the table last sent, or for another, which may be wider.
    fn copies(&self, random: &mut Random) -> Vec<u64> {
        match random.within(1, 8) {
            1 => self.case.copies.clone(),
            2 => whole::any(random).copies,
            _ => self.fitting_copies(random),
        }
    }

    /// A few blocks with copies on the disks there are, in use or, more seldom, all out.
    fn fitting_copies(&self, random: &mut Random) -> Vec<u64> {
        let disks = self.unit.disks().max(1);
        let mask = u64::MAX >> (64 - disks);
        let left = disks_of(mask & !self.unit.out());
        let any = left.is_empty() || random.once_in(4);
        let mut copies = Vec::new();
        for _ in 0..random.within(0, 12) {
            let wide = random.next() & random.next() & mask;
            let block = if (1..=8).contains(&wide.count_ones()) {
                wide
            } else {
                1 << random.within(0, disks - 1)
            };
            copies.push(if any || block & !self.unit.out() != 0 {
                block
            } else {
                whole::with_one_of(random, block, &left)
            });
        }
        copies
    }

    /// A block and one of its disks, another disk, or numbers out of range; the request may be damaged or an old one.
    fn reason(&mut self, random: &mut Random) -> Vec<u8> {
        let copies = self.copies(random);
        let age = whole::age(random, &self.case.table.rows);
        let mut fields = request(self.number, self.last, age, &copies);
        maybe_damage(random, &mut fields);
        let mut sheet = bytes(&fields);
        if !self.requests_sent.is_empty() && random.once_in(8) {
            sheet = random.pick(&self.requests_sent).clone();
        }
        let count = copies.len() as u32;
        let block = match random.within(1, 12) {
            1 => count,
            2 => random.number(),
            _ => random.within(0, count.max(1) - 1),
        };
        let held = disks_of(copies.get(block as usize).copied().unwrap_or(1));
        let disk = match random.within(1, 12) {
            1 => self.unit.disks(),
            2 => random.number(),
            3 => random.within(0, 63),
            4 => random.within(0, self.unit.disks().max(1) - 1),
            _ => *random.pick(&held) as u32,
        };
        [
            shortest(5),
            shortest(block),
            shortest(disk),
            shortest(sheet.len() as u32),
            sheet,
        ]
        .concat()
    }

    fn old_request(&mut self, random: &mut Random) -> Vec<u8> {
        if self.requests_sent.is_empty() {
            return self.request(random);
        }
        let sheet = random.pick(&self.requests_sent).clone();
        self.send_request(random, sheet)
    }

    fn send_request(&mut self, random: &mut Random, sheet: Vec<u8>) -> Vec<u8> {
        let room = match random.within(1, 4) {
            1 => self.exact_room(&sheet),
            2 => self.exact_room(&sheet).saturating_sub(1),
            3 => random.within(0, 40),
            _ => MOST_ROOM,
        };
        let call = [
            shortest(3),
            shortest(room),
            shortest(sheet.len() as u32),
            sheet.clone(),
        ]
        .concat();
        remember(&mut self.requests_sent, sheet);
        call
    }

    /// The length of the plan sheet, if there is to be one.
    fn exact_room(&self, sheet: &[u8]) -> u32 {
        let plan = self.unit.request(sheet, MOST_ROOM as usize);
        plan.map_or(0, |plan| plan.len() as u32)
    }

    /// A call with which the stream itself is damaged, most likely.
    fn damaged_call(&mut self, random: &mut Random) -> Vec<u8> {
        let age = whole::age(random, &self.case.table.rows);
        let sheet = request(self.number, self.last, age, &self.case.copies);
        let kind = *random.pick(&[1, 2, 2, 2, 3, 3, 3, 3, 4, 5, 5, 5, 0, 6]);
        let mut fields = vec![Field::new(Role::Kind, kind)];
        match kind {
            2 => fields.extend(with_length(&sheet)),
            3 => {
                fields.push(Field::new(Role::Room, random.within(0, MOST_ROOM)));
                fields.extend(with_length(&sheet));
            }
            5 => {
                let numbers = [random.number(), random.number()];
                fields.extend(numbers.map(|number| Field::new(Role::AnyNumber, number)));
                fields.extend(with_length(&sheet));
            }
            _ => fields.push(Field::new(Role::Tenancy, random.number())),
        }
        let place = random.index(fields.len().min(4));
        if random.once_in(3) {
            damage::put(&mut fields, place, Fault::AboveHighest);
        } else {
            fields.truncate(random.within(1, 5) as usize);
            damage::any(random, &mut fields);
        }
        bytes(&fields)
    }
}

/// Keeps a sheet for later, up to a number of them.
fn remember(sent: &mut Vec<Vec<u8>>, sheet: Vec<u8>) {
    if sent.len() < 50 {
        sent.push(sheet);
    }
}

fn maybe_damage(random: &mut Random, fields: &mut Vec<Field>) {
    let faults = [0, 0, 0, 0, 1, 2];
    for _ in 0..*random.pick(&faults) {
        damage::any(random, fields);
    }
}

/// Every truncation, and every fault at every field, of one whole hire, and of the sheets sent in each state.
pub fn systematic() -> Vec<Stream> {
    let whole = example();
    let all = bytes(&whole);
    let mut streams = in_each_state();
    streams.extend(one_after_another());
    streams.extend(with_disks_out());
    streams.extend((0..=all.len()).map(|length| vec![all[..length].to_vec()]));
    for fault in FAULTS {
        for place in 0..whole.len() {
            let mut damaged = whole.clone();
            damage::put(&mut damaged, place, fault);
            streams.push(vec![bytes(&damaged)]);
        }
    }
    streams
}

/// All damaged sheets while new, rented, set, and returned.
fn in_each_state() -> Vec<Stream> {
    let (table, read) = example_sheets();
    let mut one_out = example_table(Rule::Larger);
    one_out.rows.truncate(2);
    one_out.out = 1;
    let calls = |kind: &[u8], sheet: &[Field]| -> Stream {
        let damaged = damage::everywhere(sheet);
        damaged
            .iter()
            .map(|sheet| [kind, &shortest(sheet.len() as u32)[..], sheet].concat())
            .collect()
    };
    let rooms = |sheet: &[Field]| -> Stream {
        let call = |room| [vec![3], shortest(room), bytes(&with_length(sheet))].concat();
        (0..=20).chain([MOST_ROOM]).map(call).collect()
    };
    let aged = |age, copies: &[u64]| request(700, 300, Some(age), copies);
    let nothing = request(700, 300, None, &[]);
    let nothing_aged = aged(300, &[]);
    let ages = [0, 1, 199, 200, 201, u32::MAX].map(|age| aged(age, &[3, 3, 6]));
    let reasons = |sheet: &[Field]| -> Stream {
        let pairs = (0..5).flat_map(|block| [0, 1, 2, 3, 63, 64].map(|disk| (block, disk)));
        let call = |(block, disk)| [vec![5, block, disk], bytes(&with_length(sheet))].concat();
        pairs.map(call).collect()
    };
    let all = [
        calls(&[3, 99], &read),
        calls(&[3, 0], &read),
        calls(&[3, 99], &nothing),
        calls(&[2], &table),
        calls(&[2], &settings(700, 300, &example_table(Rule::Larger))),
        calls(&[2], &marked(700, 300, &one_out)),
        rooms(&read),
        rooms(&nothing),
        calls(&[5, 0, 0], &read),
        calls(&[5, 9, 9], &read),
        reasons(&read),
        reasons(&request(700, 300, None, &[3, 3, 3, 6])),
        reasons(&nothing),
        calls(&[3, 99], &aged(130, &[3, 6])),
        calls(&[5, 0, 1], &aged(200, &[3, 2])),
        calls(&[3, 99], &nothing_aged),
        ages.iter().flat_map(|sheet| rooms(sheet)).collect(),
        ages.iter().flat_map(|sheet| reasons(sheet)).collect(),
    ]
    .concat();
    let rent = vec![[shortest(1), shortest(300)].concat()];
    let set = vec![[vec![2], bytes(&with_length(&table))].concat()];
    let back = vec![[shortest(4), shortest(300)].concat()];
    let states = [
        vec![],
        rent.clone(),
        [rent.clone(), set.clone()].concat(),
        [rent, set, back].concat(),
    ];
    states
        .map(|before| [vec![shortest(700)], before, all.clone()].concat())
        .to_vec()
}

/// Settings sheets of a unit, one for each thing that they can say.
fn tables() -> Vec<Table> {
    let row = |cost, load, delay| Row { cost, load, delay };
    let narrow = vec![row(4, 90, 60), row(3, 60, 90)];
    let wide = vec![row(4, 90, 60), row(5, 60, 90), row(2, 70, 70)];
    let mut tables = Vec::new();
    for rule in [Rule::Sum, Rule::Larger] {
        for (rows, out) in [
            (&narrow, 0),
            (&wide, 0),
            (&narrow, 1),
            (&wide, 2),
            (&wide, 7),
        ] {
            let rows = rows.clone();
            tables.push(Table { rule, rows, out });
        }
    }
    tables
}

/// Every two tables one after the other in a hire, which is then returned and another begun with each: all as before.
fn one_after_another() -> Vec<Stream> {
    let asked = |tenancy| {
        let mut calls: Stream = Vec::new();
        for age in [None, Some(30), Some(91)] {
            for copies in [&[3, 3, 1][..], &[3, 6, 4, 1], &[]] {
                let sheet = bytes(&with_length(&request(700, tenancy, age, copies)));
                calls.push([vec![3, 99], sheet.clone()].concat());
                calls.push([vec![5, 0, 1], sheet].concat());
            }
        }
        calls
    };
    let set = |tenancy, table: &Table| {
        let sheet = bytes(&with_length(&settings(700, tenancy, table)));
        vec![[vec![2], sheet].concat()]
    };
    let call = |kind, tenancy| vec![[shortest(kind), shortest(tenancy)].concat()];
    let mut streams = Vec::new();
    for first in tables() {
        for second in tables() {
            let hire = |tenancy: u32, table: &Table| {
                [
                    call(1, tenancy),
                    asked(tenancy),
                    set(tenancy, table),
                    asked(tenancy),
                ]
                .concat()
            };
            streams.push(
                [
                    vec![shortest(700)],
                    hire(300, &first),
                    set(300, &second),
                    asked(300),
                    call(4, 300),
                    set(300, &first),
                    hire(301, &second),
                ]
                .concat(),
            );
        }
    }
    streams
}

fn example_table(rule: Rule) -> Table {
    let row = |cost, load, delay| Row { cost, load, delay };
    let rows = vec![row(4, 0, 1), row(3, 200, 0), row(10, 7, 6)];
    let out = 0;
    Table { rule, rows, out }
}

/// Of four disks the second and the last are out, or all; blocks that lose some copies, or all of them, at each place.
fn with_disks_out() -> Vec<Stream> {
    let row = |cost, load, delay| Row { cost, load, delay };
    let rows = vec![row(4, 0, 1), row(3, 200, 0), row(10, 7, 6), row(1, 0, 0)];
    let mut streams = Vec::new();
    for out in [10, 15] {
        let rule = Rule::Larger;
        let table = Table {
            rule,
            rows: rows.clone(),
            out,
        };
        let mut stream = vec![
            shortest(700),
            [shortest(1), shortest(300)].concat(),
            [vec![2], bytes(&with_length(&settings(700, 300, &table)))].concat(),
        ];
        for copies in [
            &[3, 6, 1][..],
            &[2, 1],
            &[1, 10],
            &[10, 2],
            &[7, 8, 4],
            &[14, 11],
            &[10],
            &[],
        ] {
            for age in [None, Some(199)] {
                for sheet in damage::everywhere(&request(700, 300, age, copies)) {
                    let sheet = [shortest(sheet.len() as u32), sheet].concat();
                    stream.push([vec![3, 99], sheet.clone()].concat());
                    stream.push([vec![5, 0, 1], sheet].concat());
                }
            }
        }
        streams.push(stream);
    }
    streams
}

fn example_sheets() -> (Vec<Field>, Vec<Field>) {
    let table = settings(700, 300, &example_table(Rule::Sum));
    (table, request(700, 300, None, &[3, 3, 6]))
}

/// Rent, settings, request, reason, request with an age, return, and the old request to the next tenant.
fn example() -> Vec<Field> {
    let (table, read) = example_sheets();
    let aged = request(700, 300, Some(200), &[3]);
    let pair = [0, 1].map(|number| Field::new(Role::AnyNumber, number));
    let call = |kind| vec![Field::new(Role::Kind, kind)];
    let tenancy = |value| vec![Field::new(Role::Tenancy, value)];
    let room = vec![Field::new(Role::Room, 200)];
    [
        vec![Field::new(Role::Unit, 700)],
        [call(1), tenancy(300)].concat(),
        [call(2), with_length(&table)].concat(),
        [call(3), room.clone(), with_length(&read)].concat(),
        [call(5), pair.to_vec(), with_length(&read)].concat(),
        [call(3), room.clone(), with_length(&aged)].concat(),
        [call(4), tenancy(300)].concat(),
        [call(1), tenancy(301)].concat(),
        [call(3), room, with_length(&read)].concat(),
    ]
    .concat()
}
