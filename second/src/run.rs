//! A run of the shelf in words: `CALL -> LINE`, a call a line, for a reader and for both programs.
//!
//!     unit 7
//!     rent 300 -> rented
//!     settings 0107ac02 01 (040001)*1 -> set
//!     request 15 0207ac02 00 -> plan 0307ac02000000
//!     reason 0 2 0207ac02 01 020001 -> reason 1 0
//!     return 300 -> returned
//!     calls 40 1 300
//!     bytes 63 -> stopped 3
//!
//! A sheet is hex, with spaces between its parts; (HEX)*N stands for N times HEX, and A..B for the numbers from A to B in
//! sheet form. A plan may be written so as well. `calls COUNT SEED TENANCY` are so many generated calls, whole and damaged, to the
//! unit while it is rented to that tenancy and not set. Of the generated calls at least one in 20 has to get a plan: a seed that
//! rents the last tenancy early leaves a unit that refuses all the rest.

use crate::hex;
use crate::inputs;
use crate::number;
use crate::shelf;

/// Of so many generated calls at least one gets a plan.
const CALLS_A_PLAN: usize = 20;

/// The stream of bytes of a run, or the first call that this program answers with another line.
pub fn stream(text: &str) -> Result<Vec<u8>, String> {
    let mut run = Run::default();
    for line in text
        .lines()
        .map(str::trim)
        .filter(|line| !line.is_empty() && !line.starts_with('#'))
    {
        run.add(line)
            .ok_or_else(|| format!("not a call and its answer: {line}"))?;
    }
    run.hold()?;
    Ok(run.stream)
}

/// The bytes so far, the unit's number, and the line that is told for each call; none for a call that is made up.
#[derive(Default)]
struct Run {
    stream: Vec<u8>,
    number: u32,
    told: Vec<Option<(String, String)>>,
}

impl Run {
    fn add(&mut self, line: &str) -> Option<()> {
        let (call, answer) = line.split_once(" -> ").unwrap_or((line, ""));
        let (word, rest) = call.split_once(' ')?;
        match word {
            "unit" => {
                self.number = rest.parse().ok()?;
                self.stream.extend(number::shortest(self.number));
            }
            "calls" => {
                let words: Option<Vec<u32>> =
                    rest.split(' ').map(|word| word.parse().ok()).collect();
                let &[count, seed, tenancy] = &words?[..] else {
                    return None;
                };
                for call in inputs::shelf::calls(seed.into(), count, self.number, tenancy) {
                    self.stream.extend(call);
                    self.told.push(None);
                }
            }
            _ => {
                self.stream.extend(bytes_of(word, rest)?);
                self.told.push(Some((line.to_string(), answer_of(answer)?)));
            }
        }
        Some(())
    }

    /// This program gives the lines that are told.
    fn hold(&self) -> Result<(), String> {
        let printed = String::from_utf8_lossy(&shelf::lines(&self.stream)).into_owned();
        let found: Vec<&str> = printed.lines().collect();
        for (at, told) in self.told.iter().enumerate() {
            let other = found.get(at).copied().unwrap_or("nothing");
            match told {
                Some((line, answer)) if other != answer => {
                    return Err(format!("{line}\nfound: {other}"))
                }
                _ => {}
            }
        }
        if found.len() != self.told.len() {
            return Err(format!(
                "{} lines for {} calls",
                found.len(),
                self.told.len()
            ));
        }
        self.hold_generated(&found)
    }

    /// The generated calls have plans enough.
    fn hold_generated(&self, found: &[&str]) -> Result<(), String> {
        let generated = || (self.told.iter().zip(found)).filter(|(told, _)| told.is_none());
        let calls = generated().count();
        let plans = generated().filter(|(_, line)| line.starts_with("plan"));
        let plans = plans.count();
        if plans < calls / CALLS_A_PLAN {
            return Err(format!("{plans} plans for {calls} generated calls"));
        }
        Ok(())
    }
}

fn bytes_of(word: &str, rest: &str) -> Option<Vec<u8>> {
    let mut bytes = Vec::new();
    match word {
        "rent" => bytes.extend(numbers(&[1, rest.parse().ok()?])),
        "return" => bytes.extend(numbers(&[4, rest.parse().ok()?])),
        "settings" => {
            let sheet = parts(rest)?;
            bytes.extend(numbers(&[2, sheet.len() as u32]));
            bytes.extend(sheet);
        }
        "request" => {
            let (room, sheet) = rest.split_once(' ')?;
            let sheet = parts(sheet)?;
            bytes.extend(numbers(&[3, room.parse().ok()?, sheet.len() as u32]));
            bytes.extend(sheet);
        }
        "reason" => {
            let mut words = rest.splitn(3, ' ');
            let block = words.next()?.parse().ok()?;
            let disk = words.next()?.parse().ok()?;
            let sheet = parts(words.next()?)?;
            bytes.extend(numbers(&[5, block, disk, sheet.len() as u32]));
            bytes.extend(sheet);
        }
        "bytes" => bytes.extend(parts(rest)?),
        _ => return None,
    }
    Some(bytes)
}

fn numbers(values: &[u32]) -> Vec<u8> {
    values
        .iter()
        .flat_map(|&value| number::shortest(value))
        .collect()
}

/// `plan` and a sheet's parts, or the line as it is; a call has an answer.
fn answer_of(answer: &str) -> Option<String> {
    if answer.is_empty() {
        return None;
    }
    match answer.strip_prefix("plan ") {
        Some(sheet) => Some(format!("plan {}", hex::plain(&parts(sheet)?))),
        None => Some(answer.to_string()),
    }
}

fn parts(text: &str) -> Option<Vec<u8>> {
    let mut bytes = Vec::new();
    for part in text.split(' ') {
        if let Some((low, high)) = part.split_once("..") {
            for value in low.parse().ok()?..=high.parse().ok()? {
                bytes.extend(number::shortest(value));
            }
        } else if let Some((once, times)) = repeated(part) {
            bytes.extend(hex::read(once)?.repeat(times.parse().ok()?));
        } else {
            bytes.extend(hex::read(part)?);
        }
    }
    Some(bytes)
}

fn repeated(part: &str) -> Option<(&str, &str)> {
    part.strip_prefix('(')?.split_once(")*")
}

#[cfg(test)]
mod tests {
    use super::*;

    #[test]
    fn a_run_is_its_bytes() {
        let run = "unit 7\nrent 300 -> rented\nreturn 300 -> returned\n";
        assert_eq!(stream(run), Ok(vec![7, 1, 0xac, 2, 4, 0xac, 2]));
    }

    #[test]
    fn a_reason_is_a_call() {
        let run = "unit 7\nreason 300 2 0207 -> refused 1 2\n";
        assert_eq!(stream(run), Ok(vec![7, 5, 0xac, 2, 2, 2, 2, 7]));
    }

    #[test]
    fn another_answer_is_named() {
        let run = "unit 7\nrent 300 -> refused 12 0\n";
        assert_eq!(
            stream(run),
            Err("rent 300 -> refused 12 0\nfound: rented".to_string())
        );
    }

    /// After the last tenancy a unit that comes back is not rented again.
    #[test]
    fn generated_calls_have_plans() {
        let run = |tenancy: u32| {
            stream(&format!(
                "unit 7\nrent {tenancy} -> rented\ncalls 4000 2 {tenancy}\n"
            ))
        };
        assert!(run(302).is_ok());
        assert!(run(u32::MAX).is_err());
    }

    #[test]
    fn a_repeated_part_is_written_out() {
        assert_eq!(parts("07 (0102)*2 -"), Some(vec![7, 1, 2, 1, 2]));
    }

    #[test]
    fn a_range_is_in_sheet_form() {
        assert_eq!(parts("126..128"), Some(vec![126, 127, 128, 1]));
    }
}
