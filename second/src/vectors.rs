//! Runs a file of sheet vectors against the three readers.

use crate::hex;
use crate::model::{disks_of, holds, Plan, Rule, Table};
use crate::sheets::{read_plan, read_request, read_settings, Known, Request};

/// How many vectors hold, or the first that does not.
pub fn run(text: &str) -> Result<String, String> {
    let mut count = 0;
    for line in text
        .lines()
        .filter(|line| !line.is_empty() && !line.starts_with('#'))
    {
        let (vector, expected) = line
            .split_once(" -> ")
            .ok_or_else(|| format!("not a vector: {line}"))?;
        let found = outcome(vector).ok_or_else(|| format!("not a vector: {line}"))?;
        if found != expected {
            return Err(format!("{line}\nfound: {found}"));
        }
        count += 1;
    }
    Ok(format!("vectors: {count} the same"))
}

fn outcome(vector: &str) -> Option<String> {
    let words: Vec<&str> = vector.split(' ').collect();
    let (kind, sheet) = (*words.first()?, hex::read(words.last()?)?);
    let (told, out) = match words[1..words.len() - 1] {
        [ref numbers @ .., "out", out] => (numbers, out.parse().ok()?),
        ref numbers => (numbers, 0),
    };
    let numbers: Vec<u32> = told
        .iter()
        .map(|word| word.parse().ok())
        .collect::<Option<_>>()?;
    let result = match (kind, &numbers[..]) {
        ("settings", &[unit, tenancy]) => {
            read_settings(&sheet, unit, tenancy).map(|table| show_table(&table))
        }
        ("request", &[unit, tenancy, disks]) => {
            read_request(&sheet, unit, tenancy, Known { disks, out })
                .map(|request| show_request(&request))
        }
        ("plan", &[unit, tenancy]) => read_plan(&sheet, unit, tenancy).map(|plan| show_plan(&plan)),
        _ => return None,
    };
    Some(result.unwrap_or_else(|refused| refused.to_string()))
}

fn join<T: ToString>(list: &[T], by: &str) -> String {
    list.iter()
        .map(|value| value.to_string())
        .collect::<Vec<_>>()
        .join(by)
}

fn show_table(table: &Table) -> String {
    let mut words = Vec::new();
    if table.rule == Rule::Larger {
        words.push("larger".to_string());
    }
    words.push(table.rows.len().to_string());
    for (disk, row) in table.rows.iter().enumerate() {
        let values = join(&[row.cost, row.load, row.delay], ",");
        let mark = if holds(table.out, disk) { ",out" } else { "" };
        words.push(values + mark);
    }
    words.join(" ")
}

fn show_request(request: &Request) -> String {
    let mut words: Vec<String> = Vec::new();
    words.extend(request.age.map(|age| format!("age {age}")));
    words.push(request.copies.len().to_string());
    words.extend(
        request
            .copies
            .iter()
            .map(|&block| join(&disks_of(block), ",")),
    );
    words.join(" ")
}

fn show_plan(plan: &Plan) -> String {
    let mut words = [plan.disks.len() as u32, plan.time, plan.short.len() as u32]
        .map(|value| value.to_string())
        .to_vec();
    words.push("|".to_string());
    words.extend(plan.disks.iter().map(|disk| disk.to_string()));
    words.push("|".to_string());
    words.extend(plan.short.iter().map(|block| block.to_string()));
    words.join(" ")
}
