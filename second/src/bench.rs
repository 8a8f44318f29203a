//! The bench program: one hire, one settings sheet, one read request, one line.

use crate::number::Reader;
use crate::refusal::{Refused, RANGE};
use crate::sheets::{read_plan, LONGEST_PLAN, LONGEST_REQUEST};
use crate::unit::Unit;

/// The line for an input, without its line feed; a refusal shows no place.
pub fn line(input: &[u8]) -> String {
    run(input).unwrap_or_else(|found| found.refusal.to_string())
}

fn run(input: &[u8]) -> Result<String, Refused> {
    let mut reader = Reader::new(input);
    let number = reader.number()?;
    let tenancy = reader.number()?;
    let mut unit = Unit::new(number);
    unit.rent(tenancy)?;
    unit.settings(lent_sheet(&mut reader)?)?;
    let request = lent_sheet(&mut reader)?;
    reader.finish()?;
    let sheet = unit.request(request, LONGEST_PLAN)?;
    show(&sheet, number, tenancy)
}

/// A length, then so many bytes.
fn lent_sheet<'a>(reader: &mut Reader<'a>) -> Result<&'a [u8], Refused> {
    let length = reader.within(0, LONGEST_REQUEST, RANGE)?;
    reader.take(length as usize)
}

/// The fields parted by single spaces.
fn show(sheet: &[u8], unit: u32, tenancy: u32) -> Result<String, Refused> {
    let plan = read_plan(sheet, unit, tenancy)?;
    let mut words = vec!["plan".to_string()];
    words
        .extend([unit, tenancy, plan.disks.len() as u32, plan.time].map(|value| value.to_string()));
    words.push("|".to_string());
    words.extend(plan.disks.iter().map(|disk| disk.to_string()));
    words.push("|".to_string());
    words.extend(plan.short.iter().map(|block| block.to_string()));
    Ok(words.join(" "))
}

#[cfg(test)]
mod tests {
    use super::*;
    use crate::hex;
    use crate::number::shortest;

    const SAMPLE: &str =
        "07ac020e0107ac0203040001030200 0a0000 110207ac02040200010200010200010201 02";

    fn sample() -> Vec<u8> {
        hex::read(&SAMPLE.replace(' ', "")).unwrap()
    }

    #[test]
    fn the_sample() {
        assert_eq!(line(&sample()), "plan 7 300 4 9 | 0 0 1 1 | 0 1 2 3");
    }

    #[test]
    fn no_blocks() {
        let mut input = sample()[..18].to_vec();
        input.extend([5, 2, 7, 0xAC, 2, 0]);
        assert_eq!(line(&input), "plan 7 300 0 0 | |");
    }

    /// Three blocks on disks 0 and 1 of document 01's sample: the load of 2 as it was, less by one, and worked off; then a load of 9.
    #[test]
    fn both_kinds_of_request() {
        let blocks = [3, 2, 0, 1, 2, 0, 1, 2, 0, 1];
        let three = |head: &[u8]| {
            let length = [(head.len() + blocks.len()) as u8];
            line(&[&sample()[..18], &length, head, &blocks].concat())
        };
        assert_eq!(three(&[2, 7, 0xAC, 2]), "plan 7 300 3 8 | 0 1 1 | 0 1 2");
        for (age, time) in [(0, 8), (1, 7), (2, 6), (3, 6)] {
            let answer = format!("plan 7 300 3 {time} | 0 1 1 | 0 1 2");
            assert_eq!(three(&[4, 7, 0xAC, 2, age]), answer);
        }
        let set = [7, 1, 7, 1, 7, 1, 1, 4, 9, 1];
        let aged = |age: &[u8]| {
            let sheet = [&[4, 7, 1], age, &[1, 1, 0]].concat();
            line(&[&set[..], &[sheet.len() as u8], &sheet].concat())
        };
        assert_eq!(aged(&[0]), "plan 7 1 1 14 | 0 | 0");
        assert_eq!(aged(&[8]), "plan 7 1 1 6 | 0 | 0");
        assert_eq!(aged(&[9]), "plan 7 1 1 5 | 0 | 0");
        assert_eq!(aged(&[10]), "plan 7 1 1 5 | 0 | 0");
        assert_eq!(aged(&shortest(u32::MAX)), "plan 7 1 1 5 | 0 | 0");
        assert_eq!(aged(&[0x80, 0]), "refused 2");
    }

    #[test]
    fn the_order_of_its_refusals() {
        assert_eq!(line(&[]), "refused 1");
        assert_eq!(line(&[7, 0]), "refused 13");
        assert_eq!(line(&[7, 0x80, 0]), "refused 2");
        assert_eq!(line(&[7, 1]), "refused 1");
        assert_eq!(line(&[&[7, 1], &shortest(9_235)[..]].concat()), "refused 6");
        assert_eq!(line(&[&[7, 1], &shortest(9_234)[..]].concat()), "refused 1");
        assert_eq!(line(&[7, 1, 2, 2, 7]), "refused 3");
        assert_eq!(line(&[7, 1, 2, 1, 8]), "refused 4");
        assert_eq!(line(&[7, 1, 0]), "refused 1");
        let set = [7, 1, 7, 1, 7, 1, 1, 4, 0, 1];
        assert_eq!(line(&set), "refused 1");
        assert_eq!(line(&[&set[..], &[1, 9, 0]].concat()), "refused 9");
        assert_eq!(line(&[&set[..], &[1, 9]].concat()), "refused 3");
        assert_eq!(
            line(&[&set[..], &shortest(9_235)[..]].concat()),
            "refused 6"
        );
        assert_eq!(
            line(&[&set[..], &shortest(9_234)[..]].concat()),
            "refused 1"
        );
        assert_eq!(
            line(&[&set[..], &[4, 2, 7, 1, 0]].concat()),
            "plan 7 1 0 0 | |"
        );
        assert_eq!(line(&[7, 1, 7, 1, 7, 1, 1, 0, 0, 1]), "refused 15");
        assert_eq!(
            line(&[&set[..], &[6, 2, 7, 1, 1, 1, 1]].concat()),
            "refused 16"
        );
        assert_eq!(line(&[&set[..], &[4, 2, 7, 2, 0]].concat()), "refused 5");
    }
}
