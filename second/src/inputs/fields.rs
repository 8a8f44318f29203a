//! Sheets as lists of fields, so that each field can be damaged.

use crate::model::{disks_of, holds, Plan, Rule, Table};
use crate::number::shortest;

/// What a field is, which decides its range.
#[derive(Clone, Copy, Debug, PartialEq, Eq)]
pub enum Role {
    Kind,
    Unit,
    Tenancy,
    Age,
    DiskCount,
    Cost,
    Load,
    Delay,
    StartRule,
    Mark,
    BlockCount,
    CopyCount,
    Disk,
    Time,
    SetSize,
    Block,
    Length,
    Room,
    AnyNumber,
}

#[derive(Clone, Debug)]
pub struct Field {
    pub role: Role,
    pub value: u32,
    pub bytes: Vec<u8>,
}

impl Field {
    pub fn new(role: Role, value: u32) -> Self {
        Field {
            role,
            value,
            bytes: shortest(value),
        }
    }
}

pub fn bytes(fields: &[Field]) -> Vec<u8> {
    fields
        .iter()
        .flat_map(|field| field.bytes.clone())
        .collect()
}

fn head(kind: u32, unit: u32, tenancy: u32) -> Vec<Field> {
    vec![
        Field::new(Role::Kind, kind),
        Field::new(Role::Unit, unit),
        Field::new(Role::Tenancy, tenancy),
    ]
}

/// Of kind 1 or 5, by the rule; of kind 6 if a disk is out.
pub fn settings(unit: u32, tenancy: u32, table: &Table) -> Vec<Field> {
    match (table.out, table.rule) {
        (0, Rule::Sum) => table_of_kind(1, unit, tenancy, table),
        (0, Rule::Larger) => table_of_kind(5, unit, tenancy, table),
        _ => marked(unit, tenancy, table),
    }
}

/// Of kind 6.
pub fn marked(unit: u32, tenancy: u32, table: &Table) -> Vec<Field> {
    table_of_kind(6, unit, tenancy, table)
}

fn table_of_kind(kind: u32, unit: u32, tenancy: u32, table: &Table) -> Vec<Field> {
    let mut fields = head(kind, unit, tenancy);
    fields.push(Field::new(Role::DiskCount, table.rows.len() as u32));
    if kind == 6 {
        let rule = if table.rule == Rule::Sum { 1 } else { 2 };
        fields.push(Field::new(Role::StartRule, rule));
    }
    for (disk, row) in table.rows.iter().enumerate() {
        fields.push(Field::new(Role::Cost, row.cost));
        fields.push(Field::new(Role::Load, row.load));
        fields.push(Field::new(Role::Delay, row.delay));
        if kind == 6 {
            fields.push(Field::new(Role::Mark, holds(table.out, disk).into()));
        }
    }
    fields
}

/// Of kind 2, or with an age of kind 4.
pub fn request(unit: u32, tenancy: u32, age: Option<u32>, copies: &[u64]) -> Vec<Field> {
    let mut fields = head(if age.is_some() { 4 } else { 2 }, unit, tenancy);
    fields.extend(age.map(|age| Field::new(Role::Age, age)));
    fields.push(Field::new(Role::BlockCount, copies.len() as u32));
    for &block in copies {
        fields.push(Field::new(Role::CopyCount, block.count_ones()));
        fields.extend(
            disks_of(block)
                .iter()
                .map(|&disk| Field::new(Role::Disk, disk as u32)),
        );
    }
    fields
}

pub fn plan(unit: u32, tenancy: u32, plan: &Plan) -> Vec<Field> {
    let mut fields = head(3, unit, tenancy);
    fields.push(Field::new(Role::BlockCount, plan.disks.len() as u32));
    fields.push(Field::new(Role::Time, plan.time));
    fields.extend(
        plan.disks
            .iter()
            .map(|&disk| Field::new(Role::Disk, u32::from(disk))),
    );
    fields.push(Field::new(Role::SetSize, plan.short.len() as u32));
    fields.extend(
        plan.short
            .iter()
            .map(|&block| Field::new(Role::Block, u32::from(block))),
    );
    fields
}

/// A sheet with its length before it.
pub fn with_length(sheet: &[Field]) -> Vec<Field> {
    let mut fields = vec![Field::new(Role::Length, bytes(sheet).len() as u32)];
    fields.extend_from_slice(sheet);
    fields
}
