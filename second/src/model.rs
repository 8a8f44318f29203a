//! The retrieval model, as the document defines it.

pub const MOST_DISKS: u32 = 64;
pub const MOST_BLOCKS: u32 = 1_024;
pub const MOST_COPIES: u32 = 8;
pub const MOST_COST: u32 = 1_000_000;
pub const MOST_LOAD: u32 = 100_000_000;
pub const MOST_DELAY: u32 = 1_000_000;
pub const MOST_TIME: u32 = 1_125_000_000;

/// A row of the table.
#[derive(Clone, Copy, Debug, PartialEq, Eq)]
pub struct Row {
    pub cost: u32,
    pub load: u32,
    pub delay: u32,
}

/// Whether a disk starts after delay and load, or after the larger of them.
#[derive(Clone, Copy, Debug, Default, PartialEq, Eq)]
pub enum Rule {
    #[default]
    Sum,
    Larger,
}

/// What a settings sheet says, bit d of `out` for a disk that is out; the sum and no rows stand for none yet.
#[derive(Clone, Debug, Default, PartialEq, Eq)]
pub struct Table {
    pub rule: Rule,
    pub rows: Vec<Row>,
    pub out: u64,
}

/// A disk as the model sees it.
#[derive(Clone, Copy, Debug, PartialEq, Eq)]
pub struct Disk {
    pub start: u64,
    pub cost: u64,
}

/// The answer to a read request.
#[derive(Clone, Debug, PartialEq, Eq)]
pub struct Plan {
    pub time: u32,
    pub disks: Vec<u8>,
    pub short: Vec<u16>,
}

/// Why a block is or is not read from a disk; with `Later` goes the least time if it were.
#[derive(Clone, Copy, Debug, PartialEq, Eq)]
pub enum Reason {
    NoCopy,
    Later(u32),
    NotWithEarlier,
    LowerToo,
    Chosen,
}

impl Reason {
    /// The reason's number in the document's order, and its time or 0.
    pub fn numbers(self) -> (u32, u32) {
        match self {
            Reason::NoCopy => (1, 0),
            Reason::Later(time) => (2, time),
            Reason::NotWithEarlier => (3, 0),
            Reason::LowerToo => (4, 0),
            Reason::Chosen => (5, 0),
        }
    }
}

impl Row {
    /// The disk so long after its load was measured: the load less that age, 0 if the age is larger, and then the rule.
    fn disk(&self, rule: Rule, age: u32) -> Disk {
        let (load, delay) = (self.load.saturating_sub(age), self.delay);
        let start = match rule {
            Rule::Sum => u64::from(delay) + u64::from(load),
            Rule::Larger => u64::from(delay.max(load)),
        };
        let cost = u64::from(self.cost);
        Disk { start, cost }
    }
}

impl Table {
    /// Of a block's copies those in use.
    pub fn in_use(&self, copies: &[u64]) -> Vec<u64> {
        copies.iter().map(|block| block & !self.out).collect()
    }

    /// The disks for a request of that age.
    pub fn disks(&self, age: u32) -> Vec<Disk> {
        self.rows
            .iter()
            .map(|row| row.disk(self.rule, age))
            .collect()
    }
}

impl Disk {
    /// When reading so many blocks ends; an idle disk ends at 0.
    pub fn end(&self, blocks: u64) -> u64 {
        if blocks == 0 {
            0
        } else {
            self.start + blocks * self.cost
        }
    }

    /// How many blocks can be read by a time.
    pub fn capacity(&self, time: u64) -> u64 {
        if time < self.start {
            0
        } else {
            (time - self.start) / self.cost
        }
    }
}

/// Whether a block with these copies has one on the disk.
pub fn holds(copies: u64, disk: usize) -> bool {
    copies >> disk & 1 == 1
}

/// The disks of a copy number, rising.
pub fn disks_of(copies: u64) -> Vec<usize> {
    (0..64).filter(|&disk| holds(copies, disk)).collect()
}

/// The latest end over all disks of a schedule.
pub fn response(disks: &[Disk], schedule: &[usize]) -> u64 {
    let mut blocks = vec![0u64; disks.len()];
    for &disk in schedule {
        blocks[disk] += 1;
    }
    let ends = disks
        .iter()
        .zip(blocks)
        .map(|(disk, count)| disk.end(count));
    ends.max().unwrap_or(0)
}

/// The size of a set of blocks less the capacities of all disks that hold a copy of any of them.
pub fn shortfall(disks: &[Disk], copies: &[u64], set: &[usize], time: u64) -> i64 {
    let held = set.iter().fold(0u64, |all, &block| all | copies[block]);
    let capacities: u64 = disks_of(held)
        .iter()
        .map(|&disk| disks[disk].capacity(time))
        .sum();
    set.len() as i64 - capacities as i64
}

#[cfg(test)]
mod tests {
    use super::*;

    const RULES: [Rule; 2] = [Rule::Sum, Rule::Larger];

    #[test]
    fn p9() {
        let row = Row {
            cost: 3,
            load: 2,
            delay: 0,
        };
        for rule in RULES {
            let found = [1, 4, 5, 7, 8].map(|time| row.disk(rule, 0).capacity(time));
            assert_eq!(found, [0, 0, 1, 1, 2]);
        }
    }

    #[test]
    fn a_load_is_worked_off_and_no_more() {
        let row = Row {
            cost: 3,
            load: 200,
            delay: 7,
        };
        let ages = [0, 1, 193, 194, 199, 200, 201, u32::MAX];
        let ends = |rule| ages.map(|age| row.disk(rule, age).end(1));
        assert_eq!(ends(Rule::Sum), [210, 209, 17, 16, 11, 10, 10, 10]);
        assert_eq!(ends(Rule::Larger), [203, 202, 10, 10, 10, 10, 10, 10]);
        let rooms = |rule| ages.map(|age| row.disk(rule, age).capacity(17));
        assert_eq!(rooms(Rule::Sum), [0, 0, 1, 1, 3, 3, 3, 3]);
        assert_eq!(rooms(Rule::Larger), [0, 0, 3, 3, 3, 3, 3, 3]);
    }

    /// The larger is reached with equal values, with either one above, and with 0.
    #[test]
    fn a_disk_starts_by_the_rule() {
        let starts = |load, delay| {
            let row = Row {
                cost: 1,
                load,
                delay,
            };
            RULES.map(|rule| row.disk(rule, 0).start)
        };
        assert_eq!(starts(5, 5), [10, 5]);
        assert_eq!(starts(4, 5), [9, 5]);
        assert_eq!(starts(5, 4), [9, 5]);
        assert_eq!(starts(0, 5), [5, 5]);
        assert_eq!(starts(5, 0), [5, 5]);
        assert_eq!(starts(MOST_LOAD, MOST_DELAY), [101_000_000, 100_000_000]);
    }

    #[test]
    fn an_idle_disk_ends_at_0() {
        let disks = [Disk { start: 18, cost: 1 }, Disk { start: 1, cost: 2 }];
        assert_eq!(response(&disks, &[1, 1]), 5);
        assert_eq!(response(&disks, &[]), 0);
    }
}
