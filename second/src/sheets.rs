//! The three sheets: readers with their refusals, and writers.

use crate::model::*;
use crate::number::{write, Reader};
use crate::refusal::*;

pub const SETTINGS: u32 = 1;
pub const REQUEST: u32 = 2;
pub const PLAN: u32 = 3;
pub const AGED_REQUEST: u32 = 4;
pub const LARGER_SETTINGS: u32 = 5;
pub const MARKED_SETTINGS: u32 = 6;
/// The start rules as a sheet of kind 6 has them.
pub const SUM: u32 = 1;
pub const LARGER: u32 = 2;
pub const LONGEST_REQUEST: u32 = 9_234;
pub const LONGEST_PLAN: usize = 2_964;

/// A read request: the copies of each block, and the age if the sheet is of the kind that has one.
#[derive(Clone, Debug, PartialEq, Eq)]
pub struct Request {
    pub age: Option<u32>,
    pub copies: Vec<u64>,
}

impl Request {
    /// The microseconds since the settings were measured.
    pub fn age(&self) -> u32 {
        self.age.unwrap_or(0)
    }
}

/// Kind, unit and tenancy, and which of the kinds it is; tenancy 0 stands for none, and then every number gets 5.
fn read_head(reader: &mut Reader, kinds: &[u32], unit: u32, tenancy: u32) -> Result<u32, Refused> {
    let kind = reader.number()?;
    if !kinds.contains(&kind) {
        return Err(reader.refuse(KIND));
    }
    if reader.number()? != unit {
        return Err(reader.refuse(OTHER_UNIT));
    }
    if reader.number()? != tenancy || tenancy == 0 {
        return Err(reader.refuse(OTHER_TENANCY));
    }
    Ok(kind)
}

fn write_head(kind: u32, unit: u32, tenancy: u32) -> Vec<u8> {
    let mut out = Vec::new();
    for value in [kind, unit, tenancy] {
        write(&mut out, value);
    }
    out
}

/// A number of low to high that is above the one before it, if there is one.
fn read_rising(reader: &mut Reader, high: u32, before: Option<u32>) -> Result<u32, Refused> {
    let value = reader.within(0, high, NO_SUCH)?;
    if before.is_some_and(|before| value <= before) {
        return Err(reader.refuse(NOT_RISING));
    }
    Ok(value)
}

pub fn read_settings(sheet: &[u8], unit: u32, tenancy: u32) -> Result<Table, Refused> {
    let mut reader = Reader::new(sheet);
    let kinds = [SETTINGS, LARGER_SETTINGS, MARKED_SETTINGS];
    let kind = read_head(&mut reader, &kinds, unit, tenancy)?;
    let count = reader.within(1, MOST_DISKS, RANGE)?;
    let larger = match kind {
        MARKED_SETTINGS => reader.within(SUM, LARGER, VALUE)? == LARGER,
        _ => kind == LARGER_SETTINGS,
    };
    let rule = if larger { Rule::Larger } else { Rule::Sum };
    let (mut rows, mut out) = (Vec::new(), 0);
    for disk in 0..count {
        let cost = reader.within(1, MOST_COST, VALUE)?;
        let load = reader.within(0, MOST_LOAD, VALUE)?;
        let delay = reader.within(0, MOST_DELAY, VALUE)?;
        rows.push(Row { cost, load, delay });
        if kind == MARKED_SETTINGS && reader.within(0, 1, VALUE)? == 1 {
            out |= 1 << disk;
        }
    }
    reader.finish()?;
    Ok(Table { rule, rows, out })
}

/// What a request is held against: how many disks there are, and which of them are out.
#[derive(Clone, Copy)]
pub struct Known {
    pub disks: u32,
    pub out: u64,
}

/// 0 disks stand for no settings yet, which is refused before the age. The copies are those that the sheet names, out or not.
pub fn read_request(
    sheet: &[u8],
    unit: u32,
    tenancy: u32,
    known: Known,
) -> Result<Request, Refused> {
    let mut reader = Reader::new(sheet);
    let kind = read_head(&mut reader, &[REQUEST, AGED_REQUEST], unit, tenancy)?;
    if known.disks == 0 {
        return Err(reader.refuse_next(NO_SETTINGS));
    }
    let age = if kind == AGED_REQUEST {
        Some(reader.number()?)
    } else {
        None
    };
    let count = reader.within(0, MOST_BLOCKS, RANGE)?;
    let copies = (0..count)
        .map(|_| read_copies(&mut reader, known))
        .collect::<Result<_, _>>()?;
    reader.finish()?;
    Ok(Request { age, copies })
}

fn read_copies(reader: &mut Reader, known: Known) -> Result<u64, Refused> {
    let count = reader.number()?;
    if count == 0 {
        return Err(reader.refuse(NO_COPY));
    }
    if count > MOST_COPIES {
        return Err(reader.refuse(RANGE));
    }
    let (mut copies, mut before) = (0, None);
    for _ in 0..count {
        let disk = read_rising(reader, known.disks - 1, before)?;
        copies |= 1u64 << disk;
        before = Some(disk);
    }
    if copies & !known.out == 0 {
        return Err(reader.refuse(ALL_OUT));
    }
    Ok(copies)
}

pub fn read_plan(sheet: &[u8], unit: u32, tenancy: u32) -> Result<Plan, Refused> {
    let mut reader = Reader::new(sheet);
    read_head(&mut reader, &[PLAN], unit, tenancy)?;
    let count = reader.within(0, MOST_BLOCKS, RANGE)?;
    let some = count.min(1);
    let time = reader.within(some, some * MOST_TIME, VALUE)?;
    let mut disks = Vec::new();
    for _ in 0..count {
        disks.push(reader.within(0, MOST_DISKS - 1, NO_SUCH)? as u8);
    }
    let size = reader.within(some, count, RANGE)?;
    let (mut short, mut before) = (Vec::new(), None);
    for _ in 0..size {
        let block = read_rising(&mut reader, count - 1, before)?;
        short.push(block as u16);
        before = Some(block);
    }
    reader.finish()?;
    Ok(Plan { time, disks, short })
}

/// A sheet of at most the room's length, or 11 with the length that was needed.
fn fitting(sheet: Vec<u8>, room: usize) -> Result<Vec<u8>, Refused> {
    if sheet.len() > room {
        return Err(NO_ROOM.at(sheet.len()));
    }
    Ok(sheet)
}

pub fn write_plan(unit: u32, tenancy: u32, plan: &Plan, room: usize) -> Result<Vec<u8>, Refused> {
    let mut out = write_head(PLAN, unit, tenancy);
    write(&mut out, plan.disks.len() as u32);
    write(&mut out, plan.time);
    for &disk in &plan.disks {
        write(&mut out, u32::from(disk));
    }
    write(&mut out, plan.short.len() as u32);
    for &block in &plan.short {
        write(&mut out, u32::from(block));
    }
    fitting(out, room)
}

/// A value of a writer; it is on no sheet yet, so it has no place.
fn in_range(value: u32, low: u32, high: u32, otherwise: Refusal) -> Result<u32, Refused> {
    if value < low || value > high {
        return Err(otherwise.nowhere());
    }
    Ok(value)
}

/// A count that may be wider than a number on a sheet.
fn count_in_range(count: usize, low: u32, high: u32) -> Result<u32, Refused> {
    in_range(u32::try_from(count).unwrap_or(u32::MAX), low, high, RANGE)
}

fn write_row(out: &mut Vec<u8>, row: &Row) -> Result<(), Refused> {
    write(out, in_range(row.cost, 1, MOST_COST, VALUE)?);
    write(out, in_range(row.load, 0, MOST_LOAD, VALUE)?);
    write(out, in_range(row.delay, 0, MOST_DELAY, VALUE)?);
    Ok(())
}

/// The desk's settings writers of kinds 1 and 5, one for each start rule; the three lists come one row a disk.
pub fn write_settings(
    unit: u32,
    tenancy: u32,
    rule: Rule,
    rows: &[Row],
    room: usize,
) -> Result<Vec<u8>, Refused> {
    in_range(tenancy, 1, u32::MAX, RANGE)?;
    let kind = match rule {
        Rule::Sum => SETTINGS,
        Rule::Larger => LARGER_SETTINGS,
    };
    let mut out = write_head(kind, unit, tenancy);
    write(&mut out, count_in_range(rows.len(), 1, MOST_DISKS)?);
    for row in rows {
        write_row(&mut out, row)?;
    }
    fitting(out, room)
}

/// The desk's settings writer of kind 6: the start rule is told, and a mark beside each row.
pub fn write_marked(
    unit: u32,
    tenancy: u32,
    rule: u32,
    rows: &[(Row, u32)],
    room: usize,
) -> Result<Vec<u8>, Refused> {
    in_range(tenancy, 1, u32::MAX, RANGE)?;
    let mut out = write_head(MARKED_SETTINGS, unit, tenancy);
    write(&mut out, count_in_range(rows.len(), 1, MOST_DISKS)?);
    write(&mut out, in_range(rule, SUM, LARGER, VALUE)?);
    for (row, mark) in rows {
        write_row(&mut out, row)?;
        write(&mut out, in_range(*mark, 0, 1, VALUE)?);
    }
    fitting(out, room)
}

/// What the desk's request writer is told: the copies of each block, or nothing where their list is broken.
pub struct Wanted<'a> {
    pub kind: u32,
    pub unit: u32,
    pub tenancy: u32,
    pub age: u32,
    pub disks: u32,
    pub copies: Option<&'a [u64]>,
}

/// The desk's request writer: the kind first, tenancy and list, an age that the kind has no place for, then the rest.
pub fn write_request(wanted: &Wanted, room: usize) -> Result<Vec<u8>, Refused> {
    let &Wanted {
        kind, tenancy, age, ..
    } = wanted;
    if kind != REQUEST && kind != AGED_REQUEST {
        return Err(KIND.nowhere());
    }
    in_range(tenancy, 1, u32::MAX, RANGE)?;
    let copies = wanted.copies.ok_or(RANGE.nowhere())?;
    if kind == REQUEST && age > 0 {
        return Err(VALUE.nowhere());
    }
    in_range(wanted.disks, 1, MOST_DISKS, RANGE)?;
    let mut out = write_head(kind, wanted.unit, tenancy);
    if kind == AGED_REQUEST {
        write(&mut out, age);
    }
    write(&mut out, count_in_range(copies.len(), 0, MOST_BLOCKS)?);
    for &block in copies {
        write_copies(&mut out, wanted.disks, block)?;
    }
    fitting(out, room)
}

fn write_copies(out: &mut Vec<u8>, disks: u32, copies: u64) -> Result<(), Refused> {
    let held = disks_of(copies);
    if held.is_empty() {
        return Err(NO_COPY.nowhere());
    }
    let count = count_in_range(held.len(), 1, MOST_COPIES)?;
    if held.iter().any(|&disk| disk >= disks as usize) {
        return Err(NO_SUCH.nowhere());
    }
    write(out, count);
    for disk in held {
        write(out, disk as u32);
    }
    Ok(())
}

#[cfg(test)]
mod tests {
    use super::*;
    use crate::inputs::whole;
    use crate::planner;
    use crate::random::Random;

    #[test]
    fn the_longest_sheets() {
        let row = Row {
            cost: MOST_COST,
            load: MOST_LOAD,
            delay: MOST_DELAY,
        };
        for rule in [Rule::Sum, Rule::Larger] {
            let settings = write_settings(u32::MAX, u32::MAX, rule, &[row; 64], 652).unwrap();
            assert_eq!(settings.len(), 652);
        }
        let marked = |room| write_marked(u32::MAX, u32::MAX, 2, &[(row, 1); 64], room);
        assert_eq!(marked(717).unwrap().len(), 717);
        assert_eq!(marked(716), Err(NO_ROOM.at(717)));
        for (kind, age, length) in [(REQUEST, 0, 9_229), (AGED_REQUEST, u32::MAX, 9_234)] {
            let wanted = Wanted {
                kind,
                unit: u32::MAX,
                tenancy: u32::MAX,
                age,
                disks: 64,
                copies: Some(&[0xFF << 56; 1_024]),
            };
            assert_eq!(write_request(&wanted, length).unwrap().len(), length);
            assert_eq!(write_request(&wanted, length - 1), Err(NO_ROOM.at(length)));
        }
        let plan = Plan {
            time: MOST_TIME,
            disks: vec![63; 1_024],
            short: (0..1_024).collect(),
        };
        let sheet = write_plan(u32::MAX, u32::MAX, &plan, LONGEST_PLAN).unwrap();
        assert_eq!(sheet.len(), LONGEST_PLAN);
        assert_eq!(
            write_plan(u32::MAX, u32::MAX, &plan, LONGEST_PLAN - 1),
            Err(NO_ROOM.at(LONGEST_PLAN))
        );
        assert_eq!(read_plan(&sheet, u32::MAX, u32::MAX), Ok(plan));
    }

    #[test]
    fn what_is_written_is_read() {
        let mut random = Random::new(21);
        for _ in 0..2_000 {
            let case = whole::any(&mut random);
            let (unit, tenancy) = (random.number(), random.number().max(1));
            let Table { rule, rows, .. } = &case.table.clone();
            let settings = write_settings(unit, tenancy, *rule, rows, 652).unwrap();
            assert_eq!(
                read_settings(&settings, unit, tenancy),
                Ok(case.table.clone())
            );
            let case = whole::some_out(&mut random, case);
            let number = if *rule == Rule::Sum { 1 } else { 2 };
            let mark = |disk: usize| (case.table.out >> disk & 1) as u32;
            let marked: Vec<(Row, u32)> = rows
                .iter()
                .enumerate()
                .map(|(disk, row)| (*row, mark(disk)))
                .collect();
            let settings = write_marked(unit, tenancy, number, &marked, 717).unwrap();
            assert_eq!(
                read_settings(&settings, unit, tenancy),
                Ok(case.table.clone())
            );
            let disks = case.table.rows.len() as u32;
            let age = whole::age(&mut random, &case.table.rows);
            let wanted = Wanted {
                kind: if age.is_some() { 4 } else { 2 },
                unit,
                tenancy,
                age: age.unwrap_or(0),
                disks,
                copies: Some(&case.copies),
            };
            let request = write_request(&wanted, 9_234).unwrap();
            assert_eq!(
                read_request(&request, unit, tenancy, all_in(disks)),
                Ok(Request {
                    age,
                    copies: case.copies.clone()
                })
            );
            if case.copies.len() < 100 {
                let plan = planner::plan(&case.disks(), &case.copies);
                let sheet = write_plan(unit, tenancy, &plan, LONGEST_PLAN).unwrap();
                assert_eq!(read_plan(&sheet, unit, tenancy), Ok(plan));
            }
        }
    }

    fn all_in(disks: u32) -> Known {
        Known { disks, out: 0 }
    }

    /// N 2 in sheet form: rule, then cost, load, delay, mark of two disks.
    #[test]
    fn a_sheet_of_kind_6_has_a_rule_and_marks() {
        let whole = [6, 7, 5, 2, 2, 4, 0, 1, 0, 3, 100, 9, 1];
        let read = |sheet: &[u8]| read_settings(sheet, 7, 5);
        let table = read(&whole).unwrap();
        assert_eq!((table.rule, table.out), (Rule::Larger, 2));
        assert_eq!(table.rows[1].delay, 9);
        for length in 0..whole.len() {
            assert_eq!(read(&whole[..length]), Err(ENDS.at(length)));
        }
        let with = |place: usize, value: u8| {
            let mut damaged = whole;
            damaged[place] = value;
            read(&damaged)
        };
        assert_eq!(with(3, 0), Err(RANGE.at(3)));
        assert_eq!(with(3, 65), Err(RANGE.at(3)));
        assert_eq!(with(4, 0), Err(VALUE.at(4)));
        assert_eq!(with(4, 3), Err(VALUE.at(4)));
        assert_eq!(with(4, 1).unwrap().rule, Rule::Sum);
        assert_eq!(with(5, 0), Err(VALUE.at(5)));
        assert_eq!(with(8, 2), Err(VALUE.at(8)));
        assert_eq!(with(8, 1).unwrap().out, 3);
        assert_eq!(with(12, 2), Err(VALUE.at(12)));
        assert_eq!(with(12, 0).unwrap().out, 0);
        assert_eq!(with(0, 5), Err(TRAILING.at(10)));
        assert_eq!(with(0, 7), Err(KIND.at(0)));
        assert_eq!(read(&[6, 7, 5, 65, 0]), Err(RANGE.at(3)));
        assert_eq!(read(&[6, 7, 5, 1, 0, 0]), Err(VALUE.at(4)));
        assert_eq!(read(&[6, 7, 5, 1, 1, 1, 0, 0, 0x81, 0]), Err(FORM.at(8)));
        assert_eq!(read(&[6, 7, 5, 1, 1, 1, 0, 0, 1, 1]), Err(TRAILING.at(9)));
    }

    #[test]
    fn the_marked_writer_refuses_in_field_order() {
        let row = |cost| Row {
            cost,
            load: 0,
            delay: 0,
        };
        let write = |tenancy, rule, rows: &[(Row, u32)], room| {
            write_marked(7, tenancy, rule, rows, room).map(|sheet| sheet.len())
        };
        assert_eq!(write(0, 0, &[], 0), Err(RANGE.at(0)));
        assert_eq!(write(1, 0, &[], 0), Err(RANGE.at(0)));
        assert_eq!(write(1, 0, &[(row(0), 2); 65], 0), Err(RANGE.at(0)));
        for rule in [0, 3, u32::MAX] {
            assert_eq!(write(1, rule, &[(row(1), 0)], 99), Err(VALUE.at(0)));
        }
        assert_eq!(write(1, 1, &[(row(1), 2)], 0), Err(VALUE.at(0)));
        assert_eq!(
            write(1, 1, &[(row(1), 1), (row(0), 1)], 0),
            Err(VALUE.at(0))
        );
        assert_eq!(write(1, 1, &[(row(1), 1)], 8), Err(NO_ROOM.at(9)));
        assert_eq!(write(1, 2, &[(row(1), 1)], 9), Ok(9));
    }

    /// Of 4 disks 1 and 3 are out.
    #[test]
    fn a_block_with_all_copies_out_is_20_at_its_last_copy() {
        let known = Known { disks: 4, out: 10 };
        let read = |blocks: &[u8]| {
            let sheet = [&[2, 7, 5], blocks].concat();
            read_request(&sheet, 7, 5, known).map(|request| request.copies)
        };
        assert_eq!(read(&[0]), Ok(vec![]));
        assert_eq!(read(&[1, 2, 0, 1]), Ok(vec![3]));
        assert_eq!(read(&[1, 1, 1]), Err(ALL_OUT.at(5)));
        assert_eq!(read(&[1, 2, 1, 3]), Err(ALL_OUT.at(6)));
        assert_eq!(read(&[2, 1, 0, 2, 1, 3]), Err(ALL_OUT.at(8)));
        assert_eq!(read(&[2, 1, 1, 0]), Err(ALL_OUT.at(5)));
        assert_eq!(read(&[2, 1, 1]), Err(ALL_OUT.at(5)));
        assert_eq!(read(&[1, 1, 3, 0]), Err(ALL_OUT.at(5)));
        assert_eq!(read(&[1, 1, 3, 0x80, 0]), Err(ALL_OUT.at(5)));
        assert_eq!(read(&[1, 2, 1]), Err(ENDS.at(6)));
        assert_eq!(read(&[1, 2, 1, 1]), Err(NOT_RISING.at(6)));
        assert_eq!(read(&[1, 2, 3, 1]), Err(NOT_RISING.at(6)));
        assert_eq!(read(&[1, 2, 1, 4]), Err(NO_SUCH.at(6)));
        assert_eq!(read(&[1, 2, 1, 0x83, 0]), Err(FORM.at(6)));
        assert_eq!(read(&[2, 0, 1, 1]), Err(NO_COPY.at(4)));
        assert_eq!(read(&[2, 1, 3, 0]), Err(ALL_OUT.at(5)));
        assert_eq!(read(&[1, 2, 2, 3]), Ok(vec![12]));
        let everything = Known { disks: 4, out: 15 };
        assert!(read_request(&[2, 7, 5, 0], 7, 5, everything).is_ok());
        let found = read_request(&[4, 7, 5, 0xAC, 2, 1, 1, 2], 7, 5, everything);
        assert_eq!(found, Err(ALL_OUT.at(7)));
    }

    const WANTED: Wanted = Wanted {
        kind: 2,
        unit: 7,
        tenancy: 1,
        age: 0,
        disks: 2,
        copies: Some(&[3]),
    };

    /// Faults in the order of the checks: each of them stands before all that come after it.
    #[test]
    fn the_request_writer_checks_kind_then_tenancy_and_list_then_age() {
        type Fault = fn(&mut Wanted);
        let faults: [(Fault, Refused); 7] = [
            (|wanted| wanted.kind = 3, KIND.at(0)),
            (|wanted| wanted.tenancy = 0, RANGE.at(0)),
            (|wanted| wanted.copies = None, RANGE.at(0)),
            (|wanted| wanted.age = 1, VALUE.at(0)),
            (|wanted| wanted.disks = 65, RANGE.at(0)),
            (
                |wanted| wanted.copies = wanted.copies.map(|_| &[0; 1_025][..]),
                RANGE.at(0),
            ),
            (
                |wanted| wanted.copies = wanted.copies.map(|_| &[0][..]),
                NO_COPY.at(0),
            ),
        ];
        for (at, (_, refused)) in faults.iter().enumerate() {
            let mut wanted = WANTED;
            for (fault, _) in faults[at..].iter().rev() {
                fault(&mut wanted);
            }
            assert_eq!(write_request(&wanted, 0), Err(*refused));
        }
        for kind in [0, 1, 3, 5, 6, 7, 8, u32::MAX] {
            let wanted = Wanted { kind, ..WANTED };
            assert_eq!(write_request(&wanted, 99), Err(KIND.at(0)));
        }
        for age in [0, 1, u32::MAX] {
            let wanted = Wanted {
                kind: 4,
                age,
                ..WANTED
            };
            let sheet = write_request(&wanted, 99).unwrap();
            assert_eq!(sheet[..3], [4, 7, 1]);
            assert_eq!(
                read_request(&sheet, 7, 1, all_in(2)).unwrap().age,
                Some(age)
            );
        }
    }

    #[test]
    fn settings_of_kind_5_have_the_fields_of_kind_1_and_the_other_rule() {
        let read = |kind, rest: &[u8]| read_settings(&[&[kind], rest].concat(), 7, 5);
        let whole = [7, 5, 2, 4, 0, 1, 3, 100, 9];
        let [sum, larger] = [1, 5].map(|kind| read(kind, &whole).unwrap());
        assert_eq!((sum.rule, larger.rule), (Rule::Sum, Rule::Larger));
        assert_eq!(sum.rows, larger.rows);
        for length in 0..whole.len() {
            assert_eq!(read(5, &whole[..length]), Err(ENDS.at(length + 1)));
        }
        for place in 0..whole.len() {
            for value in [0, 65, 127] {
                let mut damaged = whole;
                damaged[place] = value;
                assert_eq!(read(1, &damaged).err(), read(5, &damaged).err());
            }
        }
        for kind in [0, 2, 3, 4, 7, 8, 127] {
            assert_eq!(read(kind, &[8]), Err(KIND.at(0)));
        }
        assert_eq!(read_settings(&[0x85, 0], 7, 5), Err(FORM.at(0)));
    }

    #[test]
    fn an_age_stands_after_the_tenancy_and_after_10() {
        let read = |sheet: &[u8], disks| read_request(sheet, 7, 5, all_in(disks));
        assert_eq!(read(&[4, 7, 5], 0), Err(NO_SETTINGS.at(3)));
        assert_eq!(read(&[4, 7, 5, 0x80, 0], 0), Err(NO_SETTINGS.at(3)));
        assert_eq!(read(&[4, 7, 5], 2), Err(ENDS.at(3)));
        assert_eq!(read(&[4, 7, 5, 0x80, 0], 2), Err(FORM.at(3)));
        assert_eq!(read(&[4, 7, 5, 0x80], 2), Err(ENDS.at(4)));
        assert_eq!(read(&[4, 7, 5, 9], 2), Err(ENDS.at(4)));
        assert_eq!(
            read(&[4, 7, 5, 0xFF, 0xFF, 0xFF, 0xFF, 0x10], 2),
            Err(FORM.at(3))
        );
        assert_eq!(
            read(&[4, 7, 5, 0xFF, 0xFF, 0xFF, 0xFF, 0x0F, 0], 2)
                .unwrap()
                .age,
            Some(u32::MAX)
        );
        assert_eq!(read(&[4, 7, 6, 9, 0], 2), Err(OTHER_TENANCY.at(2)));
        assert_eq!(read(&[4, 8, 6, 9, 0], 2), Err(OTHER_UNIT.at(1)));
        assert_eq!(read(&[5, 8, 6, 9, 0], 2), Err(KIND.at(0)));
        assert_eq!(read(&[4, 7, 5, 0, 1, 1, 2], 2), Err(NO_SUCH.at(6)));
        let plain = read(&[2, 7, 5, 0], 2).unwrap();
        let aged = read(&[4, 7, 5, 0, 0], 2).unwrap();
        assert_eq!((plain.age(), aged.age()), (0, 0));
        assert_ne!(plain, aged);
    }

    #[test]
    fn writers_refuse_in_field_order() {
        let row = |cost, load, delay| Row { cost, load, delay };
        let write = |tenancy, rows: &[Row], room| {
            let [sum, larger] =
                [Rule::Sum, Rule::Larger].map(|rule| write_settings(7, tenancy, rule, rows, room));
            let marked: Vec<(Row, u32)> = rows.iter().map(|row| (*row, 0)).collect();
            let longer = room + 1 + rows.len();
            let marked = write_marked(7, tenancy, 1, &marked, longer);
            match (&sum, &marked) {
                (Err(sum), Err(marked)) => assert_eq!(sum.refusal, marked.refusal),
                _ => assert!(sum.is_ok() && marked.is_ok()),
            }
            if let (Ok(sum), Ok(larger)) = (&sum, &larger) {
                assert_eq!((sum[0], larger[0]), (1, 5));
                assert_eq!(sum[1..], larger[1..]);
            }
            assert_eq!(sum.as_ref().err(), larger.as_ref().err());
            larger.map(|sheet| sheet.len())
        };
        assert_eq!(write(0, &[row(1, 0, 0)], 0), Err(RANGE.at(0)));
        assert_eq!(write(0, &[row(0, 0, 0)], 0), Err(RANGE.at(0)));
        assert_eq!(write(1, &[], 0), Err(RANGE.at(0)));
        assert_eq!(write(1, &[row(0, 0, 0); 65], 0), Err(RANGE.at(0)));
        for bad in [
            row(0, 0, 0),
            row(1_000_001, 0, 0),
            row(1, 100_000_001, 0),
            row(1, 0, 1_000_001),
        ] {
            assert_eq!(write(1, &[row(1, 0, 0), bad], 0), Err(VALUE.at(0)));
        }
        assert_eq!(write(1, &[row(1, 0, 0)], 0), Err(NO_ROOM.at(7)));
        assert_eq!(write(1, &[row(1, 0, 0)], 6), Err(NO_ROOM.at(7)));
        assert_eq!(write(1, &[row(1, 0, 0)], 7), Ok(7));
        let write = |disks, copies: &[u64], room| {
            let wanted = Wanted {
                disks,
                copies: Some(copies),
                ..WANTED
            };
            write_request(&wanted, room).map(|sheet| sheet.len())
        };
        assert_eq!(write(0, &[], 10), Err(RANGE.at(0)));
        assert_eq!(write(65, &[0], 10), Err(RANGE.at(0)));
        assert_eq!(write(64, &[0; 1_025], 10), Err(RANGE.at(0)));
        assert_eq!(write(3, &[0, 8], 0), Err(NO_COPY.at(0)));
        assert_eq!(write(3, &[8, 0], 0), Err(NO_SUCH.at(0)));
        assert_eq!(write(3, &[511, 8], 0), Err(RANGE.at(0)));
        assert_eq!(write(3, &[8, 511], 0), Err(NO_SUCH.at(0)));
        assert_eq!(write(64, &[511, 0], 0), Err(RANGE.at(0)));
        assert_eq!(write(64, &[510], 12), Err(NO_ROOM.at(13)));
        assert_eq!(write(64, &[510], 13), Ok(13));
    }
}
