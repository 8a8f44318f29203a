//! Runs another program on generated inputs and holds its output against ours, line by line.

use std::io::{Read, Write};
use std::process::{Command, Stdio};

use crate::hex;
use crate::inputs::{bench as bench_inputs, desk as desk_inputs, shelf as shelf_inputs};
use crate::{bench, desk, shelf};

/// The other program and its arguments.
pub struct Other<'a> {
    pub words: &'a [String],
}

/// Where two outputs part: the line's number from 1, ours, and the other's.
struct Difference {
    line: usize,
    ours: String,
    other: String,
}

impl Other<'_> {
    /// What the program prints on an input.
    fn output(&self, input: &[u8]) -> Result<Vec<u8>, String> {
        let (program, arguments) = self.words.split_first().ok_or("no program is named")?;
        let mut command = Command::new(program);
        command
            .args(arguments)
            .stdin(Stdio::piped())
            .stdout(Stdio::piped());
        let mut child = command
            .spawn()
            .map_err(|error| format!("{program}: {error}"))?;
        let mut stdin = child.stdin.take().ok_or("no standard input")?;
        let mut stdout = child.stdout.take().ok_or("no standard output")?;
        let mut output = Vec::new();
        std::thread::scope(|scope| {
            if input.len() <= 32_768 {
                let _ = stdin.write_all(input);
                drop(stdin);
            } else {
                scope.spawn(move || stdin.write_all(input));
            }
            stdout.read_to_end(&mut output)
        })
        .map_err(|error| error.to_string())?;
        let status = child.wait().map_err(|error| error.to_string())?;
        if status.code().is_none() {
            output.extend(format!("ended by a signal: {status}\n").bytes());
        }
        Ok(output)
    }
}

/// The first line that differs; a line feed that is missing counts.
fn difference(ours: &[u8], other: &[u8]) -> Option<Difference> {
    if ours == other {
        return None;
    }
    let mut pair = [ours, other].map(|output| output.split_inclusive(|&byte| byte == b'\n'));
    for line in 1.. {
        let [ours, other] = [pair[0].next(), pair[1].next()];
        if ours != other {
            return Some(Difference {
                line,
                ours: show(ours),
                other: show(other),
            });
        }
    }
    None
}

fn show(line: Option<&[u8]>) -> String {
    match line {
        None => "(nothing)".to_string(),
        Some(line) => match line.strip_suffix(b"\n") {
            Some(line) => String::from_utf8_lossy(line).to_string(),
            None => format!("{} (no line feed)", String::from_utf8_lossy(line)),
        },
    }
}

fn report(what: &str, found: &Difference, input: &str) -> String {
    let Difference { line, ours, other } = found;
    format!("{what} differs at line {line}\nours:  {ours}\nother: {other}\ninput: {input}")
}

/// The last line, if there is no difference: the systematic inputs come besides the count.
fn same(program: &str, fixed: u64, count: u64) -> String {
    let all = fixed + count;
    format!("{program}: {all} inputs the same, {fixed} of them systematic")
}

/// One process for each input.
pub fn bench(other: &Other, count: u64, seed: u64) -> Result<String, String> {
    let systematic = bench_inputs::systematic();
    let fixed = systematic.len() as u64;
    for index in 0..fixed + count {
        let input = bench_input(&systematic, seed, index);
        let ours = format!("{}\n", bench::line(&input));
        if let Some(found) = difference(ours.as_bytes(), &other.output(&input)?) {
            return Err(report(
                &format!("bench input {index} of seed {seed}"),
                &found,
                &hex::word(&input),
            ));
        }
    }
    Ok(same("bench", fixed, count))
}

/// The input of an index: the systematic ones come first.
pub fn bench_input(systematic: &[Vec<u8>], seed: u64, index: u64) -> Vec<u8> {
    match systematic.get(index as usize) {
        Some(input) => input.clone(),
        None => bench_inputs::input(seed, index),
    }
}

/// One process for each stream; a call counts as an input.
pub fn shelf(other: &Other, count: u64, seed: u64) -> Result<String, String> {
    let systematic = shelf_inputs::systematic();
    let (mut calls, mut fixed, mut streams) = (0, 0, 0);
    while streams < systematic.len() as u64 || calls < fixed + count {
        let pieces = shelf_stream(&systematic, seed, streams);
        let input = pieces.concat();
        if let Some(found) = difference(&shelf::lines(&input), &other.output(&input)?) {
            let short = shrink(other, pieces)?;
            let first = report(
                &format!("shelf stream {streams} of seed {seed}"),
                &found,
                "below",
            );
            let ours = String::from_utf8_lossy(&shelf::lines(&short)).to_string();
            let theirs = String::from_utf8_lossy(&other.output(&short)?).to_string();
            return Err(format!(
                "{first}\nshortest stream found: {}\nours:\n{ours}other:\n{theirs}",
                hex::word(&short)
            ));
        }
        streams += 1;
        calls += pieces.len().saturating_sub(1).max(1) as u64;
        if streams <= systematic.len() as u64 {
            fixed = calls;
        }
    }
    let last = same("shelf", fixed, calls - fixed);
    Ok(format!("{last} (calls, in {streams} streams)"))
}

/// The stream of an index: the systematic ones come first.
pub fn shelf_stream(
    systematic: &[shelf_inputs::Stream],
    seed: u64,
    index: u64,
) -> shelf_inputs::Stream {
    match systematic.get(index as usize) {
        Some(stream) => stream.clone(),
        None => shelf_inputs::stream(seed, index),
    }
}

/// Leaves out calls for as long as the outputs still differ.
fn shrink(other: &Other, pieces: shelf_inputs::Stream) -> Result<Vec<u8>, String> {
    let mut kept = pieces;
    let mut step = kept.len() / 2;
    while step > 0 {
        let mut at = 1;
        while at < kept.len() {
            let mut fewer = kept.clone();
            fewer.drain(at..kept.len().min(at + step));
            let input = fewer.concat();
            if difference(&shelf::lines(&input), &other.output(&input)?).is_some() {
                kept = fewer;
            } else {
                at += step;
            }
        }
        step /= 2;
    }
    Ok(kept.concat())
}

/// Many lines for each process.
pub fn desk(other: &Other, count: u64, seed: u64) -> Result<String, String> {
    let systematic = desk_inputs::systematic();
    let fixed = systematic.len() as u64;
    let mut from = 0;
    while from < fixed + count {
        let to = (fixed + count).min(from + 1_000);
        let lines: Vec<String> = (from..to)
            .map(|index| desk_line(&systematic, seed, index))
            .collect();
        let input = lines.join("\n") + "\n";
        let ours: String = lines.iter().map(|line| desk::answer(line) + "\n").collect();
        if let Some(found) = difference(ours.as_bytes(), &other.output(input.as_bytes())?) {
            let line = lines.get(found.line - 1).map_or("(none)", |line| line);
            return Err(report(
                &format!("desk from line {from} of seed {seed}"),
                &found,
                line,
            ));
        }
        from = to;
    }
    Ok(same("desk", fixed, count))
}

/// The line of an index: the systematic ones come first.
pub fn desk_line(systematic: &[String], seed: u64, index: u64) -> String {
    match systematic.get(index as usize) {
        Some(line) => line.clone(),
        None => desk_inputs::line(seed, index),
    }
}

#[cfg(test)]
mod tests {
    use std::cmp::Ordering;
    use std::collections::BTreeMap;

    use super::*;
    use crate::model::Row;
    use crate::number::Reader;
    use crate::refusal::Refused;
    use crate::sheets::{read_request, read_settings, Known, Request};
    use crate::unit::Unit;

    #[test]
    fn where_outputs_part() {
        assert!(difference(b"a\nb\n", b"a\nb\n").is_none());
        assert_eq!(difference(b"a\nb\n", b"a\nc\n").unwrap().line, 2);
        assert_eq!(difference(b"a\n", b"a").unwrap().other, "a (no line feed)");
        assert_eq!(difference(b"a\n", b"a\nb\n").unwrap().ours, "(nothing)");
    }

    #[test]
    fn the_inputs_reach_every_outcome() {
        let systematic = bench_inputs::systematic();
        let count = systematic.len() as u64 + 6_000;
        let lines: Vec<String> = (0..count)
            .map(|index| bench::line(&bench_input(&systematic, 1, index)))
            .collect();
        for number in [1, 2, 3, 4, 5, 6, 7, 8, 9, 13, 15, 16, 20] {
            let refused = format!("refused {number}");
            assert!(
                lines.iter().filter(|line| **line == refused).count() > 30,
                "{refused}"
            );
        }
        assert!(lines.iter().filter(|line| line.starts_with("plan")).count() > 2_500);
    }

    /// An accepted request of a stream: its call, 3 or 5, what it says, and the table last set.
    type Asked = (u32, Request, Vec<Row>);

    /// One call of a stream, done; what it asked, if it did.
    fn asked_by(
        piece: &[u8],
        number: u32,
        unit: &mut Unit,
        table: &mut Vec<Row>,
    ) -> Result<Option<Asked>, Refused> {
        let mut reader = Reader::new(piece);
        let call = reader.number()?;
        match call {
            1 => unit.rent(reader.number()?)?,
            2 => {
                let sheet = sheet_in(&mut reader)?;
                unit.settings(sheet)?;
                *table = read_settings(sheet, number, unit.tenancy())?.rows;
            }
            4 => unit.give_back(reader.number()?)?,
            _ => {
                let room_or_block_and_disk = if call == 3 { 1 } else { 2 };
                for _ in 0..room_or_block_and_disk {
                    reader.number()?;
                }
                let sheet = sheet_in(&mut reader)?;
                let (disks, out) = (unit.disks(), unit.out());
                let known = Known { disks, out };
                let request = read_request(sheet, number, unit.tenancy(), known)?;
                return Ok(Some((call, request, table.clone())));
            }
        }
        Ok(None)
    }

    fn sheet_in<'a>(reader: &mut Reader<'a>) -> Result<&'a [u8], Refused> {
        let length = reader.number()?;
        reader.take(length as usize)
    }

    fn asked_in(stream: &shelf_inputs::Stream) -> Vec<Asked> {
        let number = Reader::new(&stream[0]).number().unwrap();
        let (mut unit, mut table) = (Unit::new(number), Vec::new());
        let calls = stream[1..].iter();
        calls
            .filter_map(|piece| asked_by(piece, number, &mut unit, &mut table).ok()?)
            .collect()
    }

    /// How often the accepted requests of the random streams meet what a kind, an age and a load can be to each other.
    #[test]
    fn the_streams_reach_every_age() {
        let sides = [
            ("an age below a load", Ordering::Less, 800),
            ("an age at a load", Ordering::Equal, 600),
            ("an age above a load", Ordering::Greater, 1_000),
        ];
        let mut met: BTreeMap<(u32, &str), u32> = BTreeMap::new();
        for index in 0..600 {
            for (call, request, table) in asked_in(&shelf_inputs::stream(1, index)) {
                let mut meets = |what| *met.entry((call, what)).or_insert(0) += 1;
                match request.age {
                    None => meets("kind 2"),
                    Some(0) => meets("age 0"),
                    Some(u32::MAX) => meets("the greatest age"),
                    Some(age) => {
                        let loads = || table.iter().map(|row| row.load).filter(|&load| load > 0);
                        for (what, side, _) in sides {
                            if loads().any(|load| age.cmp(&load) == side) {
                                meets(what);
                            }
                        }
                    }
                }
            }
        }
        let plain = [("kind 2", 1_500), ("age 0", 500), ("the greatest age", 200)];
        let wanted = [plain, sides.map(|(what, _, least)| (what, least))].concat();
        for (what, least) in wanted {
            for call in [3, 5] {
                let times = met.get(&(call, what)).copied().unwrap_or(0);
                assert!(times > least, "call {call}, {what}: {times}");
            }
        }
    }

    #[test]
    fn the_streams_reach_every_outcome() {
        let systematic = shelf_inputs::systematic();
        let count = systematic.len() as u64 + 600;
        let streams = (0..count).map(|index| shelf_stream(&systematic, 1, index).concat());
        let text: String = streams
            .map(|stream| String::from_utf8(shelf::lines(&stream)).unwrap())
            .collect();
        let count = |wanted: &str| text.lines().filter(|line| line.starts_with(wanted)).count();
        for line in [
            "rented",
            "set",
            "plan",
            "returned",
            "reason 1 0",
            "reason 2 ",
            "reason 3 0",
            "reason 4 0",
            "reason 5 0",
            "stopped 1",
            "stopped 2",
            "stopped 3",
            "stopped 6",
        ] {
            assert!(count(line) > 20, "{line}");
        }
        for number in (1..=16).chain([20]) {
            let refused = format!("refused {number} ");
            assert!(
                text.lines()
                    .filter(|line| line.starts_with(&refused))
                    .count()
                    > 20,
                "{refused}"
            );
        }
    }

    #[test]
    fn the_desk_lines_reach_every_outcome() {
        let answers: Vec<String> = (0..6_000)
            .map(|index| desk::answer(&desk_inputs::line(1, index)))
            .collect();
        for start in [
            "wrote",
            "plan",
            "refused 1 ",
            "refused 2 ",
            "refused 3 ",
            "refused 4 ",
            "refused 5 ",
            "refused 6 ",
            "refused 7 ",
            "refused 8 ",
            "refused 9 ",
            "refused 11 ",
            "refused 15 ",
            "refused 16 ",
        ] {
            assert!(
                answers
                    .iter()
                    .filter(|answer| answer.starts_with(start))
                    .count()
                    > 5,
                "{start}"
            );
        }
        assert!(!answers.iter().any(|answer| answer.starts_with("not")));
    }
}
