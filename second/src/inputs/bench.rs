//! Inputs of the bench program.

use crate::inputs::damage::{self, FAULTS};
use crate::inputs::fields::{bytes, marked, request, settings, with_length, Field, Role};
use crate::inputs::whole::{self, Case};
use crate::model::{Row, Rule, Table};
use crate::random::Random;

/// The two sheets of an input, and the unit and tenancy before them.
#[derive(Clone)]
struct Parts {
    head: Vec<Field>,
    settings: Vec<Field>,
    request: Vec<Field>,
}

impl Parts {
    fn new(unit: u32, tenancy: u32, age: Option<u32>, case: &Case) -> Self {
        Parts {
            head: vec![
                Field::new(Role::Unit, unit),
                Field::new(Role::Tenancy, tenancy),
            ],
            settings: settings(unit, tenancy, &case.table),
            request: request(unit, tenancy, age, &case.copies),
        }
    }

    /// All fields in a row, the lengths as the sheets now are.
    fn fields(&self) -> Vec<Field> {
        [
            self.head.clone(),
            with_length(&self.settings),
            with_length(&self.request),
        ]
        .concat()
    }

    fn sheet(&mut self, which: usize) -> &mut Vec<Field> {
        if which == 0 {
            &mut self.settings
        } else {
            &mut self.request
        }
    }
}

/// The document's sample, a wider input of the same kind, a request with an age, settings with the larger, a disk out.
fn examples() -> Vec<Parts> {
    let row = |cost, load, delay| Row { cost, load, delay };
    let case = |rule, rows: &[Row], copies: &[u64]| Case {
        table: Table {
            rule,
            rows: rows.to_vec(),
            out: 0,
        },
        copies: copies.to_vec(),
    };
    let small = [row(4, 0, 1), row(3, 2, 0), row(10, 0, 0)];
    let wide = [row(300, 70_000, 1_000), row(20_000, 5, 0), row(1, 0, 400)];
    let (aged, larger) = (
        [row(3, 300, 0), row(5, 2, 0)],
        [row(3, 300, 200), row(5, 2, 9)],
    );
    let small = case(Rule::Sum, &small, &[3, 3, 3, 6]);
    let wide = case(Rule::Sum, &wide, &[7, 2, 5]);
    let aged = case(Rule::Sum, &aged, &[3, 1]);
    let mut pulled = case(Rule::Larger, &larger, &[3, 2]);
    pulled.table.out = 1;
    let larger = case(Rule::Larger, &larger, &[3, 1]);
    vec![
        Parts::new(7, 300, None, &small),
        Parts::new(70_000, 4_000_000_000, None, &wide),
        Parts::new(7, 300, Some(299), &aged),
        Parts::new(7, 300, Some(99), &larger),
        Parts::new(7, 300, None, &pulled),
    ]
}

/// Every truncation, and every fault at every field, of the examples.
pub fn systematic() -> Vec<Vec<u8>> {
    let mut inputs = Vec::new();
    for parts in examples() {
        let whole = bytes(&parts.fields());
        inputs.extend((0..=whole.len()).map(|length| whole[..length].to_vec()));
        inputs.extend([0, 1, 128].map(|byte| [&whole[..], &[byte]].concat()));
        inputs.extend(faults(&parts));
    }
    inputs
}

/// Every fault at every field: with the sheet's length set right, and with it as it was.
fn faults(parts: &Parts) -> Vec<Vec<u8>> {
    let mut inputs = Vec::new();
    for fault in FAULTS {
        let all = parts.fields();
        for place in 0..all.len() {
            let mut damaged = all.clone();
            damage::put(&mut damaged, place, fault);
            inputs.push(bytes(&damaged));
        }
        for which in 0..2 {
            for place in 0..parts.clone().sheet(which).len() {
                let mut damaged = parts.clone();
                damage::put(damaged.sheet(which), place, fault);
                inputs.push(bytes(&damaged.fields()));
            }
        }
    }
    inputs
}

/// The input of a seed and an index: whole, damaged once or twice, or made of random bytes.
pub fn input(seed: u64, index: u64) -> Vec<u8> {
    let mut random = Random::of(seed, index);
    match random.within(1, 20) {
        1..=9 => bytes(&parts(&mut random, whole::any).fields()),
        10..=12 => damaged(&mut random, 1),
        13..=17 => damaged(&mut random, 2),
        18..=19 => {
            let mut input = bytes(&parts(&mut random, whole::small).fields());
            for _ in 0..random.within(1, 2) {
                damage::any_bytes(&mut random, &mut input);
            }
            input
        }
        _ => (0..random.within(0, 30))
            .map(|_| random.within(0, 9) as u8)
            .collect(),
    }
}

fn parts(random: &mut Random, family: fn(&mut Random) -> Case) -> Parts {
    let case = family(random);
    let case = whole::some_out(random, case);
    any_kind(random, &case, 1)
}

/// With settings of any kind that can say the table, for a tenancy of that or above.
fn any_kind(random: &mut Random, case: &Case, least: u32) -> Parts {
    let age = whole::age(random, &case.table.rows);
    let (unit, tenancy) = (random.number(), random.number().max(least));
    let mut parts = Parts::new(unit, tenancy, age, case);
    if random.once_in(4) {
        parts.settings = marked(unit, tenancy, &case.table);
    }
    parts
}

/// So many faults, in the sheets or in the row of all fields.
fn damaged(random: &mut Random, faults: u32) -> Vec<u8> {
    let case = if random.once_in(8) {
        whole::medium(random)
    } else {
        whole::small(random)
    };
    let case = whole::some_out(random, case);
    let mut parts = any_kind(random, &case, 0);
    let outer = random.within(0, faults);
    for _ in outer..faults {
        let which = random.index(2);
        damage::any(random, parts.sheet(which));
    }
    let mut fields = parts.fields();
    for _ in 0..outer {
        damage::any(random, &mut fields);
    }
    bytes(&fields)
}
