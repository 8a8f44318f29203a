//! The shelf program: a unit as a process, one line for each call.

use std::io::{BufRead, Write};

use crate::hex;
use crate::number::{Groups, Step};
use crate::refusal::{Refusal, ENDS, FORM, KIND, RANGE};
use crate::sheets::LONGEST_REQUEST;
use crate::unit::Unit;

pub const MOST_ROOM: u32 = 4_096;

/// Answers calls to the end of the input; a damaged stream ends with `stopped`.
pub fn run(input: &mut impl BufRead, output: &mut impl Write) {
    if let Err(Refusal(number)) = serve(input, output) {
        let _ = writeln!(output, "stopped {number}");
    }
    let _ = output.flush();
}

/// All lines for a whole stream.
pub fn lines(stream: &[u8]) -> Vec<u8> {
    let mut output = Vec::new();
    run(&mut &stream[..], &mut output);
    output
}

fn serve(input: &mut impl BufRead, output: &mut impl Write) -> Result<(), Refusal> {
    let mut unit = Unit::new(number(input)?);
    while let Some(first) = byte(input) {
        let line = call(&mut unit, number_from(first, input)?, input)?;
        if writeln!(output, "{line}")
            .and_then(|()| output.flush())
            .is_err()
        {
            return Ok(());
        }
    }
    Ok(())
}

/// One call, read and carried out.
fn call(unit: &mut Unit, kind: u32, input: &mut impl BufRead) -> Result<String, Refusal> {
    let answer = match kind {
        1 => unit.rent(number(input)?).map(|()| "rented".to_string()),
        2 => unit.settings(&sheet(input)?).map(|()| "set".to_string()),
        3 => {
            let room = at_most(input, MOST_ROOM)?;
            let request = sheet(input)?;
            unit.request(&request, room as usize)
                .map(|plan| format!("plan {}", hex::plain(&plan)))
        }
        4 => unit
            .give_back(number(input)?)
            .map(|()| "returned".to_string()),
        5 => {
            let (block, disk) = (number(input)?, number(input)?);
            let request = sheet(input)?;
            unit.reason(&request, block, disk).map(|reason| {
                let (reason, time) = reason.numbers();
                format!("reason {reason} {time}")
            })
        }
        _ => return Err(KIND),
    };
    Ok(answer.unwrap_or_else(|refused| refused.to_string()))
}

/// The next byte; a read error counts as the end.
fn byte(input: &mut impl BufRead) -> Option<u8> {
    let mut one = [0];
    input.read_exact(&mut one).ok().map(|()| one[0])
}

fn number(input: &mut impl BufRead) -> Result<u32, Refusal> {
    let first = byte(input).ok_or(ENDS)?;
    number_from(first, input)
}

/// A number whose first byte is read.
fn number_from(first: u8, input: &mut impl BufRead) -> Result<u32, Refusal> {
    let mut groups = Groups::default();
    let mut next = first;
    loop {
        match groups.push(next) {
            Step::More => next = byte(input).ok_or(ENDS)?,
            Step::Done(value) => return Ok(value),
            Step::Bad => return Err(FORM),
        }
    }
}

fn at_most(input: &mut impl BufRead, high: u32) -> Result<u32, Refusal> {
    let value = number(input)?;
    if value > high {
        return Err(RANGE);
    }
    Ok(value)
}

/// A length, then so many bytes.
fn sheet(input: &mut impl BufRead) -> Result<Vec<u8>, Refusal> {
    let length = at_most(input, LONGEST_REQUEST)?;
    let mut bytes = vec![0; length as usize];
    input.read_exact(&mut bytes).map_err(|_| ENDS)?;
    Ok(bytes)
}

#[cfg(test)]
mod tests {
    use super::*;

    fn text(stream: &[u8]) -> String {
        String::from_utf8(lines(stream)).unwrap()
    }

    #[test]
    fn a_hire() {
        let mut stream = vec![7, 1, 5, 2, 13, 1, 7, 5, 3, 4, 0, 1, 3, 2, 0, 10, 0, 0];
        stream.extend([
            3, 8, 6, 2, 7, 5, 1, 1, 2, 3, 7, 6, 2, 7, 5, 1, 1, 2, 4, 5, 1, 5, 4, 5,
        ]);
        let answer =
            "rented\nset\nplan 030705010a020100\nrefused 11 8\nreturned\nrefused 13 0\nrefused 14 0\n";
        assert_eq!(text(&stream), answer);
    }

    #[test]
    fn every_refusal_has_a_place() {
        let set = [7, 1, 5, 2, 7, 1, 7, 5, 1, 4, 0, 1];
        let after = |call: &[u8]| {
            let all = text(&[&set[..], call].concat());
            all.lines().last().unwrap().to_string()
        };
        assert_eq!(after(&[1, 6]), "refused 12 0");
        assert_eq!(after(&[4, 6]), "refused 14 0");
        assert_eq!(after(&[2, 0]), "refused 1 0");
        assert_eq!(after(&[2, 1, 2]), "refused 3 0");
        assert_eq!(after(&[2, 3, 1, 0x87, 0]), "refused 2 1");
        assert_eq!(after(&[2, 2, 1, 8]), "refused 4 1");
        assert_eq!(after(&[2, 3, 1, 7, 6]), "refused 5 2");
        assert_eq!(after(&[2, 4, 1, 7, 5, 65]), "refused 6 3");
        assert_eq!(after(&[2, 5, 1, 7, 5, 1, 0]), "refused 15 4");
        assert_eq!(after(&[2, 8, 1, 7, 5, 1, 4, 0, 1, 0]), "refused 9 7");
        assert_eq!(after(&[3, 9, 5, 2, 7, 5, 1, 0]), "refused 7 4");
        assert_eq!(after(&[3, 9, 5, 2, 7, 5, 1, 9]), "refused 6 4");
        assert_eq!(after(&[3, 9, 6, 2, 7, 5, 1, 1, 1]), "refused 16 5");
        assert_eq!(after(&[3, 9, 7, 2, 7, 5, 1, 2, 0, 0]), "refused 8 6");
        assert_eq!(after(&[3, 5, 4, 2, 7, 5, 0]), "refused 11 6");
        assert_eq!(
            text(&[7, 3, 9, 4, 2, 7, 5, 0, 1, 5, 3, 9, 3, 2, 7, 5]),
            "refused 5 2\nrented\nrefused 10 3\n"
        );
    }

    #[test]
    fn reasons() {
        let mut stream = vec![7, 1, 5, 2, 13, 1, 7, 5, 3, 4, 0, 1, 3, 2, 0, 10, 0, 0];
        let p6 = [2, 7, 5, 4, 2, 0, 1, 2, 0, 1, 2, 0, 1, 2, 1, 2];
        for (block, disk) in [(0, 2), (3, 2), (2, 0), (0, 1), (2, 1), (4, 0), (0, 3)] {
            stream.extend([5, block, disk, 16]);
            stream.extend(p6);
        }
        stream.extend([5, 9, 0xFF, 0xFF, 0xFF, 0xFF, 0x0F, 3, 2, 7, 6]);
        let answer = "rented\nset\nreason 1 0\nreason 2 10\nreason 3 0\nreason 4 0\nreason 5 0\n\
            refused 16 0\nrefused 16 0\nrefused 5 2\n";
        assert_eq!(text(&stream), answer);
        assert_eq!(text(&[7, 5]), "stopped 1\n");
        assert_eq!(text(&[7, 5, 0, 0x80, 0]), "stopped 2\n");
        assert_eq!(text(&[7, 5, 0, 0, 2, 1]), "stopped 1\n");
        assert_eq!(text(&[7, 5, 0, 0, 0x93, 0x48]), "stopped 6\n");
        assert_eq!(text(&[7, 5, 0, 0, 0]), "refused 1 0\n");
    }

    #[test]
    fn requests_with_an_age() {
        let set = [7, 1, 5, 2, 7, 1, 7, 5, 1, 4, 9, 1];
        let calls = [
            [3, 99, 7, 4, 7, 5, 8, 1, 1, 0].as_slice(),
            &[3, 99, 6, 4, 7, 5, 8, 1, 1],
            &[3, 99, 3, 4, 7, 5],
            &[5, 0, 0, 7, 4, 7, 5, 9, 1, 1, 0],
            &[3, 99, 1, 5],
            &[2, 1, 4],
        ];
        let answer = "rented\nset\nplan 0307050106000100\nrefused 1 6\nrefused 1 3\nreason 5 0\n\
            refused 3 0\nrefused 3 0\n";
        assert_eq!(text(&[&set[..], &calls.concat()].concat()), answer);
    }

    #[test]
    fn damaged_streams() {
        assert_eq!(text(&[]), "stopped 1\n");
        assert_eq!(text(&[7]), "");
        assert_eq!(text(&[7, 0x80]), "stopped 1\n");
        assert_eq!(text(&[7, 0x81, 0]), "stopped 2\n");
        assert_eq!(text(&[7, 6]), "stopped 3\n");
        assert_eq!(text(&[7, 0]), "stopped 3\n");
        assert_eq!(text(&[7, 1]), "stopped 1\n");
        assert_eq!(text(&[7, 1, 5, 2, 2, 1]), "rented\nstopped 1\n");
        assert_eq!(text(&[7, 2, 0x93, 0x48]), "stopped 6\n");
        assert_eq!(text(&[7, 2, 0x92, 0x48]), "stopped 1\n");
        assert_eq!(text(&[7, 3, 9, 0x93, 0x48]), "stopped 6\n");
        assert_eq!(text(&[7, 3, 9, 0x92, 0x48]), "stopped 1\n");
        assert_eq!(text(&[7, 3, 0x81, 0x20]), "stopped 6\n");
        assert_eq!(text(&[7, 3, 0x80, 0x20]), "stopped 1\n");
        assert_eq!(text(&[7, 3, 0x80, 0x20, 0]), "refused 1 0\n");
    }
}
