//! That the generated inputs reach every refusal at every field, by a walk over the sheets that judges nothing.

use std::collections::{BTreeMap, BTreeSet};

use crate::hex;
use crate::inputs::{desk as desk_inputs, shelf as shelf_inputs};
use crate::number::Reader;
use crate::{desk, shelf};

type Names = BTreeSet<(u32, String)>;

/// The fields of a sheet by name and first byte, as far as the sheet goes; the last may be cut or missing.
struct Walk {
    sheet: Vec<u8>,
    at: usize,
    fields: Vec<(&'static str, usize)>,
}

impl Walk {
    fn new(sheet: &[u8]) -> Self {
        Walk {
            sheet: sheet.to_vec(),
            at: 0,
            fields: Vec::new(),
        }
    }

    fn number(&mut self, name: &'static str) -> Option<u64> {
        self.fields.push((name, self.at));
        let mut value = 0u64;
        for group in 0.. {
            let byte = *self.sheet.get(self.at)?;
            self.at += 1;
            value |= u64::from(byte & 127).checked_shl(7 * group).unwrap_or(0);
            if byte < 128 {
                break;
            }
        }
        Some(value)
    }

    fn head(&mut self) -> Option<u64> {
        let kind = self.number("kind")?;
        self.number("unit")?;
        self.number("tenancy")?;
        Some(kind)
    }

    fn settings(&mut self) -> Option<()> {
        let marked = self.head()? == 6;
        let disks = self.number("N")?;
        if marked {
            self.number("rule")?;
        }
        for _ in 0..disks {
            self.number("cost")?;
            self.number("load")?;
            self.number("delay")?;
            if marked {
                self.number("mark")?;
            }
        }
        self.fields.push(("end", self.at));
        Some(())
    }

    fn request(&mut self) -> Option<()> {
        if self.head()? == 4 {
            self.number("age")?;
        }
        for _ in 0..self.number("Q")? {
            let count = self.number("k")?;
            for copy in 0..count {
                self.number(if copy == 0 {
                    "first copy"
                } else {
                    "later copy"
                })?;
            }
        }
        self.fields.push(("end", self.at));
        Some(())
    }

    fn plan(&mut self) -> Option<()> {
        self.head()?;
        let blocks = self.number("Q")?;
        self.number("R")?;
        for _ in 0..blocks {
            self.number("disk")?;
        }
        for block in 0..self.number("m")? {
            self.number(if block == 0 {
                "first block"
            } else {
                "later block"
            })?;
        }
        self.fields.push(("end", self.at));
        Some(())
    }
}

/// The field that a refusal of a sheet is about; panics where the place is none that the refusal can have.
fn field(sheet: &[u8], walk: fn(&mut Walk) -> Option<()>, refusal: u32, place: usize) -> String {
    let mut walked = Walk::new(sheet);
    walk(&mut walked);
    let fields = walked.fields;
    let (last, begins) = *fields.last().expect("there is a first field");
    match refusal {
        1 => {
            assert_eq!(place, sheet.len(), "1 is at the sheet's length");
            let cut = if begins < place { "inside" } else { "before" };
            format!("{cut} {last}")
        }
        10 => {
            assert_eq!(fields[3].1, place, "10 is at the byte after the tenancy");
            "after the tenancy".to_string()
        }
        11 => "room".to_string(),
        _ => {
            let found = fields.iter().find(|(_, begins)| *begins == place);
            let found =
                found.unwrap_or_else(|| panic!("no field at {place} of {}", hex::word(sheet)));
            found.0.to_string()
        }
    }
}

/// A table of what each field can be refused with; every number can be cut, missing, or badly formed.
fn expected(table: &[(&str, &[u32])], others: &[(u32, &str)]) -> Names {
    let mut names = Names::new();
    for (name, refusals) in table {
        names.insert((1, format!("inside {name}")));
        names.insert((1, format!("before {name}")));
        names.insert((2, name.to_string()));
        names.extend(refusals.iter().map(|&refusal| (refusal, name.to_string())));
    }
    names.extend(
        others
            .iter()
            .map(|(refusal, name)| (*refusal, name.to_string())),
    );
    names
}

const HEAD: [(&str, &[u32]); 3] = [("kind", &[3]), ("unit", &[4]), ("tenancy", &[5])];

fn settings_names() -> Names {
    let rows: [(&str, &[u32]); 6] = [
        ("N", &[6]),
        ("rule", &[15]),
        ("cost", &[15]),
        ("load", &[15]),
        ("delay", &[15]),
        ("mark", &[15]),
    ];
    expected(&[&HEAD[..], &rows].concat(), &[(9, "end")])
}

fn request_names() -> Names {
    let blocks: [(&str, &[u32]); 5] = [
        ("age", &[]),
        ("Q", &[6]),
        ("k", &[6, 7]),
        ("first copy", &[16, 20]),
        ("later copy", &[8, 16, 20]),
    ];
    let others = [(9, "end"), (10, "after the tenancy"), (11, "room")];
    expected(&[&HEAD[..], &blocks].concat(), &others)
}

fn plan_names() -> Names {
    let blocks: [(&str, &[u32]); 6] = [
        ("Q", &[6]),
        ("R", &[15]),
        ("disk", &[16]),
        ("m", &[6]),
        ("first block", &[16]),
        ("later block", &[8, 16]),
    ];
    expected(&[&HEAD[..], &blocks].concat(), &[(9, "end"), (11, "room")])
}

/// The number and place of a line `refused N P ..`.
fn refused(line: &str) -> Option<(u32, usize)> {
    let mut words = line.strip_prefix("refused ")?.split(' ');
    let number = words.next()?.parse().ok()?;
    Some((number, words.next()?.parse().ok()?))
}

/// A whole call: its kind, the numbers before its sheet, and the sheet.
struct Call {
    kind: u32,
    numbers: Vec<u32>,
    sheet: Vec<u8>,
}

/// The calls of a stream as far as they are whole.
fn calls(stream: &[u8]) -> Vec<Call> {
    fn call(reader: &mut Reader) -> Option<Call> {
        let kind = reader.number().ok()?;
        let count = match kind {
            2 => 0,
            5 => 2,
            _ => 1,
        };
        let numbers = (0..count)
            .map(|_| reader.number().ok())
            .collect::<Option<_>>()?;
        let mut sheet = Vec::new();
        if kind != 1 && kind != 4 {
            let length = reader.number().ok()?;
            sheet = reader.take(length as usize).ok()?.to_vec();
        }
        Some(Call {
            kind,
            numbers,
            sheet,
        })
    }
    let mut reader = Reader::new(stream);
    let _ = reader.number();
    std::iter::from_fn(|| call(&mut reader)).collect()
}

/// What a refused call is about.
fn about(call: &Call, refusal: u32, place: usize) -> String {
    match (call.kind, refusal, place) {
        (1 | 4, _, 0) => "tenancy".to_string(),
        (2, _, _) => field(&call.sheet, Walk::settings, refusal, place),
        (5, 16, 0) => {
            let mut walk = Walk::new(&call.sheet);
            walk.request();
            let blocks = walk.fields.iter().filter(|(name, _)| *name == "k").count();
            let out = call.numbers[0] as usize >= blocks;
            if out {
                "block asked for"
            } else {
                "disk asked for"
            }
            .to_string()
        }
        (3 | 5, _, _) => field(&call.sheet, Walk::request, refusal, place),
        _ => panic!("refused {refusal} {place} to call {}", call.kind),
    }
}

/// What the streams reach, by the kind of call.
fn reached(streams: impl Iterator<Item = Vec<u8>>) -> BTreeMap<u32, Names> {
    let mut names: BTreeMap<u32, Names> = BTreeMap::new();
    for stream in streams {
        let text = String::from_utf8(shelf::lines(&stream)).unwrap();
        for (call, line) in calls(&stream).iter().zip(text.lines()) {
            if let Some((refusal, place)) = refused(line) {
                let of_call = names.entry(call.kind).or_default();
                of_call.insert((refusal, about(call, refusal, place)));
            }
        }
    }
    names
}

/// What each call can be refused with.
fn call_names() -> BTreeMap<u32, Names> {
    let plain = |refusals: &[u32]| -> Names {
        let named = refusals
            .iter()
            .map(|&refusal| (refusal, "tenancy".to_string()));
        named.collect()
    };
    let mut reason = request_names();
    reason.remove(&(11, "room".to_string()));
    reason.extend(["block asked for", "disk asked for"].map(|name| (16, name.to_string())));
    BTreeMap::from([
        (1, plain(&[12, 13])),
        (2, settings_names()),
        (3, request_names()),
        (4, plain(&[14])),
        (5, reason),
    ])
}

#[test]
fn the_calls_are_refused_at_every_field() {
    let systematic = shelf_inputs::systematic();
    let names = reached(systematic.iter().map(|stream| stream.concat()));
    for (kind, expected) in call_names() {
        assert_eq!(names[&kind], expected, "call {kind}");
    }
}

#[test]
fn random_streams_are_refused_at_no_other_fields() {
    let names = reached((0..400).map(|index| shelf_inputs::stream(5, index).concat()));
    for (kind, expected) in call_names() {
        assert!(names[&kind].is_subset(&expected), "call {kind}");
        let most = 3 * names[&kind].len() > 2 * expected.len();
        assert!(most, "call {kind}: {:?}", names[&kind]);
    }
}

/// What is answered to the lines of one word, with the line's other words.
fn answers(word: &str) -> Vec<(Vec<String>, String)> {
    let of_word = desk_inputs::systematic().into_iter().filter_map(|line| {
        let words: Vec<String> = line.split(' ').map(str::to_string).collect();
        (words[0] == word).then(|| (words, desk::answer(&line)))
    });
    of_word.collect()
}

#[test]
fn requests_have_rooms_about_the_lengths_of_their_plans() {
    let mut found = BTreeSet::new();
    for stream in shelf_inputs::systematic() {
        let text = String::from_utf8(shelf::lines(&stream.concat())).unwrap();
        for (call, line) in stream[1..].iter().zip(text.lines()) {
            let mut reader = Reader::new(call);
            let (Ok(3), Ok(room)) = (reader.number(), reader.number()) else {
                continue;
            };
            let room = room as usize;
            match (refused(line), line.strip_prefix("plan ")) {
                (Some((11, _)), _) if room == 0 => found.insert("none"),
                (Some((11, needed)), _) if needed == room + 1 => found.insert("one too few"),
                (_, Some(plan)) if plan.len() == 2 * room => found.insert("exact"),
                (_, Some(plan)) if plan.len() < 2 * room => found.insert("more"),
                _ => false,
            };
        }
    }
    assert_eq!(found.len(), 4, "{found:?}");
}

#[test]
fn the_plan_reader_is_refused_at_every_field() {
    let mut names = Names::new();
    let (mut rooms, mut enough) = (BTreeSet::new(), 0);
    for (words, answer) in answers("plan") {
        let sheet = hex::read(&words[5]).unwrap();
        let Some((refusal, place)) = refused(&answer) else {
            enough += 1;
            continue;
        };
        names.insert((refusal, field(&sheet, Walk::plan, refusal, place)));
        if refusal == 11 {
            rooms.insert(rooms_of(&words, place));
        }
    }
    assert_eq!(names, plan_names());
    assert!(enough > 20);
    for wanted in [[1, 0], [2, 0], [0, 1], [0, 2], [1, 1], [2, 2]] {
        assert!(
            rooms.iter().any(|(short, _)| *short == wanted),
            "{wanted:?}"
        );
    }
    for wanted in [[true, false], [false, true], [true, true]] {
        assert!(rooms.iter().any(|(_, none)| *none == wanted), "{wanted:?}");
    }
}

/// How each list is too short (1 by one entry, 2 by more), and which of them have no room at all.
fn rooms_of(words: &[String], needed: usize) -> ([u8; 2], [bool; 2]) {
    let sheet = hex::read(&words[5]).unwrap();
    let mut walk = Walk::new(&sheet);
    walk.plan();
    let count = |names: &[&str]| {
        let of_list = walk.fields.iter().filter(|(name, _)| names.contains(name));
        of_list.count()
    };
    let needs = [count(&["disk"]), count(&["first block", "later block"])];
    let rooms: [usize; 2] = [words[3].parse().unwrap(), words[4].parse().unwrap()];
    let entries = [rooms[0], rooms[1] / 2];
    let short = [0, 1].map(|list| match needs[list].saturating_sub(entries[list]) {
        0 => 0,
        1 => 1,
        _ => 2,
    });
    let first = if short[0] > 0 { 0 } else { 1 };
    assert_eq!(needed, needs[first], "the first list too short");
    (short, rooms.map(|room| room == 0))
}

/// What is wrong with what a writer is told, in the order of its checks, each with its refusal.
type Faults = Vec<(u32, &'static str)>;

fn entries(word: &str, width: usize) -> Option<Vec<u64>> {
    let bytes = hex::read(word).unwrap();
    let number = |bytes: &[u8]| {
        bytes
            .iter()
            .rev()
            .fold(0, |value, &byte| value << 8 | u64::from(byte))
    };
    bytes
        .len()
        .is_multiple_of(width)
        .then(|| bytes.chunks(width).map(number).collect())
}

fn settings_faults(words: &[String]) -> Faults {
    let mut faults = Faults::new();
    if words[3] == "0" {
        faults.push((6, "tenancy"));
    }
    let (rule, lists) = match &words[0][..] {
        "marked" => (&words[4][..], &words[5..9]),
        _ => ("1", &words[4..7]),
    };
    let lengths: BTreeSet<usize> = lists
        .iter()
        .map(|list| hex::read(list).unwrap().len())
        .collect();
    if lengths.len() > 1 {
        faults.push((6, "unequal"));
    }
    let lists: Option<Vec<Vec<u64>>> = lists.iter().map(|list| entries(list, 4)).collect();
    let Some(lists) = lists else {
        faults.push((6, "broken"));
        return faults;
    };
    match lists[0].len() {
        0 => faults.push((6, "N low")),
        65.. => faults.push((6, "N high")),
        _ => {}
    }
    if !["1", "2"].contains(&rule) {
        faults.push((15, "rule"));
    }
    let shortest = lists.iter().map(Vec::len).min().unwrap();
    for disk in 0..shortest {
        let values: Vec<u64> = lists.iter().map(|list| list[disk]).collect();
        let row = [
            (values[0] == 0, "cost low"),
            (values[0] > 1_000_000, "cost high"),
            (values[1] > 100_000_000, "load"),
            (values[2] > 1_000_000, "delay"),
            (values.get(3).is_some_and(|mark| *mark > 1), "mark"),
        ];
        faults.extend(
            row.iter()
                .filter(|(bad, _)| *bad)
                .map(|(_, name)| (15, *name)),
        );
    }
    faults
}

fn request_faults(words: &[String]) -> Faults {
    let mut faults = Faults::new();
    if !["2", "4"].contains(&&words[2][..]) {
        faults.push((3, "kind"));
    }
    if words[4] == "0" {
        faults.push((6, "tenancy"));
    }
    let blocks = entries(&words[7], 8);
    if blocks.is_none() {
        faults.push((6, "broken"));
    }
    if words[2] == "2" && words[5] != "0" {
        faults.push((15, "age"));
    }
    let disks: u64 = words[6].parse().unwrap();
    match disks {
        0 => faults.push((6, "N low")),
        65.. => faults.push((6, "N high")),
        _ => {}
    }
    let blocks = blocks.unwrap_or_default();
    if blocks.len() > 1_024 {
        faults.push((6, "Q"));
    }
    for copies in blocks {
        if copies == 0 {
            faults.push((7, "no bits"));
        }
        if copies.count_ones() > 8 {
            faults.push((6, "bits"));
        }
        if disks < 64 && copies >> disks != 0 {
            faults.push((16, "bit at N"));
        }
    }
    faults
}

/// Each fault comes alone, some come together, and the first of them is the refusal.
fn check_writer(
    word: &str,
    faults_of: fn(&[String]) -> Faults,
    names: &[&'static str],
    together: &[(&'static str, &'static str)],
) {
    let (mut alone, mut pairs) = (BTreeMap::new(), BTreeSet::new());
    let (mut rooms, mut written) = (BTreeSet::new(), BTreeMap::new());
    for (words, answer) in answers(word) {
        let faults = faults_of(&words);
        let room: usize = words[1].parse().unwrap();
        match (&faults[..], refused(&answer)) {
            ([], Some((refusal, needed))) => {
                assert_eq!(refusal, 11);
                assert!(needed > room);
                rooms.insert(if room == 0 { 0 } else { needed - room });
                written.entry(needed).or_insert(false);
            }
            ([], None) => {
                let length: usize = answer.split(' ').nth(1).unwrap().parse().unwrap();
                assert!(length <= room);
                *written.entry(length).or_insert(false) |= length == room;
            }
            ([(number, name), others @ ..], found) => {
                assert_eq!(found, Some((*number, 0)), "{words:?}");
                if others.is_empty() {
                    *alone.entry(*name).or_insert(0) += 1;
                }
                pairs.extend(others.iter().map(|other| (*name, other.1)));
            }
        }
    }
    assert_eq!(
        alone.keys().copied().collect::<BTreeSet<_>>(),
        names.iter().copied().collect()
    );
    assert!(rooms.contains(&0) && rooms.contains(&1));
    assert!(written.values().any(|exact| *exact));
    for pair in together {
        assert!(pairs.contains(pair), "{pair:?}");
    }
}

#[test]
fn the_writers_are_refused_for_every_fault() {
    let settings = [
        "tenancy",
        "unequal",
        "broken",
        "N low",
        "N high",
        "cost low",
        "cost high",
        "load",
        "delay",
    ];
    let together = [
        ("tenancy", "unequal"),
        ("tenancy", "broken"),
        ("tenancy", "N low"),
        ("tenancy", "N high"),
        ("tenancy", "cost low"),
        ("unequal", "cost low"),
        ("unequal", "load"),
        ("N high", "cost low"),
        ("cost low", "load"),
        ("cost high", "delay"),
        ("load", "delay"),
        ("delay", "cost low"),
        ("load", "cost high"),
    ];
    check_writer("settings", settings_faults, &settings, &together);
    check_writer("larger", settings_faults, &settings, &together);
    let marked = [&settings[..], &["rule", "mark"]].concat();
    let more = [
        ("tenancy", "rule"),
        ("unequal", "rule"),
        ("N low", "rule"),
        ("N high", "rule"),
        ("rule", "cost low"),
        ("rule", "mark"),
        ("cost low", "mark"),
        ("delay", "mark"),
        ("mark", "cost high"),
    ];
    let together = [&together[..], &more].concat();
    check_writer("marked", settings_faults, &marked, &together);
    let request = [
        "kind", "tenancy", "broken", "age", "N low", "N high", "Q", "no bits", "bits", "bit at N",
    ];
    let together = [
        ("kind", "tenancy"),
        ("kind", "broken"),
        ("kind", "N low"),
        ("kind", "no bits"),
        ("tenancy", "age"),
        ("broken", "age"),
        ("age", "N low"),
        ("age", "N high"),
        ("age", "Q"),
        ("age", "no bits"),
        ("age", "bits"),
        ("age", "bit at N"),
        ("tenancy", "broken"),
        ("tenancy", "N low"),
        ("tenancy", "bit at N"),
        ("broken", "N low"),
        ("broken", "N high"),
        ("N low", "Q"),
        ("N high", "no bits"),
        ("N high", "bits"),
        ("Q", "no bits"),
        ("Q", "bit at N"),
        ("no bits", "bits"),
        ("no bits", "bit at N"),
        ("bits", "no bits"),
        ("bits", "bit at N"),
        ("bit at N", "no bits"),
        ("bit at N", "bits"),
    ];
    check_writer("request", request_faults, &request, &together);
}
