//! Whole tables and requests, by family.

use crate::model::{
    holds, Disk, Row, Rule, Table, MOST_BLOCKS, MOST_COPIES, MOST_COST, MOST_DELAY, MOST_DISKS,
    MOST_LOAD,
};
use crate::random::Random;

#[derive(Clone, Debug)]
pub struct Case {
    pub table: Table,
    pub copies: Vec<u64>,
}

impl Case {
    fn disks_in_use(&self) -> Vec<usize> {
        let disks = 0..self.table.rows.len();
        disks.filter(|&disk| !holds(self.table.out, disk)).collect()
    }

    /// The disks for a request of age 0.
    pub fn disks(&self) -> Vec<Disk> {
        self.table.disks(0)
    }
}

/// The rows with either rule.
fn ruled(random: &mut Random, rows: Vec<Row>) -> Table {
    let rule = *random.pick(&[Rule::Sum, Rule::Larger]);
    let out = 0;
    Table { rule, rows, out }
}

/// A table with values up to the given ones.
pub fn table(random: &mut Random, disks: u32, cost: u32, load: u32, delay: u32) -> Table {
    let mut row = || Row {
        cost: random.within(1, cost),
        load: random.within(0, load),
        delay: random.within(0, delay),
    };
    let rows = (0..disks).map(|_| row()).collect();
    ruled(random, rows)
}

/// The case with disks out: none, one, some, all but one, all; mostly so that each block has a copy in use.
pub fn some_out(random: &mut Random, case: Case) -> Case {
    let mut case = case;
    let disks = case.table.rows.len() as u32;
    let all = u64::MAX >> (64 - disks);
    let one = 1 << random.within(0, disks - 1);
    case.table.out = match random.within(1, 16) {
        1..=7 => 0,
        8..=10 => one,
        11..=13 => random.next() & random.next() & all,
        14 => random.next() & all,
        15 => all & !one,
        _ => all,
    };
    let left = case.disks_in_use();
    if !left.is_empty() && !random.once_in(4) {
        for block in &mut case.copies {
            if *block & !case.table.out == 0 {
                *block = with_one_of(random, *block, &left);
            }
        }
    }
    case
}

/// The copies with one more, or the last exchanged where there are eight.
pub fn with_one_of(random: &mut Random, copies: u64, disks: &[usize]) -> u64 {
    let most = copies.count_ones() == MOST_COPIES;
    let fewer = if most { copies & (copies - 1) } else { copies };
    fewer | 1 << random.pick(disks)
}

/// An age about the loads of a table: none, equal to one of them, one less or more, larger than all.
pub fn age(random: &mut Random, rows: &[Row]) -> Option<u32> {
    let load = random.pick(rows).load;
    let most = rows.iter().map(|row| row.load).max().unwrap_or(0);
    match random.within(1, 16) {
        1..=6 => None,
        7 => Some(0),
        8 | 9 => Some(load),
        10 => Some(load.saturating_sub(1)),
        11 => Some(load + 1),
        12 => Some(u32::MAX),
        13 => Some(random.number()),
        14 => Some(most + random.within(0, 1)),
        _ => Some(random.within(0, most)),
    }
}

/// So many different disks of low to high, as a copy number.
fn choose(random: &mut Random, count: u32, low: u32, high: u32) -> u64 {
    let count = count.min(high - low + 1);
    let mut copies = 0u64;
    while copies.count_ones() < count {
        copies |= 1 << random.within(low, high);
    }
    copies
}

fn blocks(random: &mut Random, count: u32, most_copies: u32, disks: u32) -> Vec<u64> {
    let mut block = || {
        let copies = random.within(1, most_copies);
        choose(random, copies, 0, disks - 1)
    };
    (0..count).map(|_| block()).collect()
}

/// A few disks and blocks with low values: most ties and contention come up here.
pub fn small(random: &mut Random) -> Case {
    let disks = random.within(1, 4);
    let (cost, load, delay) = (
        random.within(1, 9),
        random.within(0, 9),
        random.within(0, 5),
    );
    let count = random.within(0, 7);
    Case {
        table: table(random, disks, cost, load, delay),
        copies: blocks(random, count, 3, disks),
    }
}

pub fn medium(random: &mut Random) -> Case {
    let disks = random.within(1, MOST_DISKS);
    let cost = *random.pick(&[3, 50, 10_000, MOST_COST]);
    let load = *random.pick(&[0, 10, 5_000, MOST_LOAD]);
    let delay = *random.pick(&[0, 10, 1_000, MOST_DELAY]);
    let (count, most) = (random.within(1, 90), random.within(1, 8));
    Case {
        table: table(random, disks, cost, load, delay),
        copies: blocks(random, count, most, disks),
    }
}

/// 64 disks, 1,024 blocks, 8 copies each.
pub fn largest(random: &mut Random) -> Case {
    let cost = *random.pick(&[1, 3, 1_000, MOST_COST]);
    let load = *random.pick(&[0, 50, MOST_LOAD]);
    let table = table(random, MOST_DISKS, cost, load, MOST_DELAY / 100);
    let copies = (0..MOST_BLOCKS)
        .map(|_| choose(random, 8, 0, MOST_DISKS - 1))
        .collect();
    Case { table, copies }
}

/// Every value on its sheet as long as it can be.
pub fn longest(random: &mut Random) -> Case {
    let row = Row {
        cost: MOST_COST,
        load: MOST_LOAD,
        delay: MOST_DELAY,
    };
    let copies = if random.once_in(2) {
        0xFF << 56
    } else {
        1 << random.within(0, 63)
    };
    Case {
        table: ruled(random, vec![row; 64]),
        copies: vec![copies; MOST_BLOCKS as usize],
    }
}

/// All copies on a few of many disks.
pub fn contended(random: &mut Random) -> Case {
    let disks = random.within(2, MOST_DISKS);
    let hot = random.within(1, disks.min(8));
    let low = random.within(0, disks - hot);
    let count = random.within(1, 120);
    let mut copies: Vec<u64> = Vec::new();
    for _ in 0..count {
        let held = random.within(1, 3);
        copies.push(choose(random, held, low, low + hot - 1));
    }
    Case {
        table: table(random, disks, 20, 40, 10),
        copies,
    }
}

/// One row for all disks.
pub fn equal(random: &mut Random) -> Case {
    let disks = random.within(1, 16);
    let row = table(random, 1, 12, 12, 12).rows[0];
    let (count, most) = (random.within(1, 60), random.within(1, 5));
    Case {
        table: ruled(random, vec![row; disks as usize]),
        copies: blocks(random, count, most, disks),
    }
}

/// Low costs with loads near the highest, some idle disks that must not count.
pub fn loaded(random: &mut Random) -> Case {
    let count = random.within(2, 20);
    let mut table = table(random, count, 3, 50, 5);
    for row in &mut table.rows {
        if random.once_in(2) {
            row.load = MOST_LOAD - row.load;
        }
        if random.once_in(3) {
            row.delay = MOST_DELAY - row.delay;
        }
    }
    let blocks_count = random.within(1, 50);
    Case {
        copies: blocks(random, blocks_count, 4, count),
        table,
    }
}

pub fn no_blocks(random: &mut Random) -> Case {
    let disks = random.within(1, MOST_DISKS);
    Case {
        table: table(random, disks, MOST_COST, MOST_LOAD, MOST_DELAY),
        copies: Vec::new(),
    }
}

pub fn one_disk(random: &mut Random) -> Case {
    let count = random.within(1, 60);
    Case {
        table: table(random, 1, MOST_COST, MOST_LOAD, MOST_DELAY),
        copies: vec![1; count as usize],
    }
}

/// Pairs of neighbours, with blocks on disk 0 alone that push chains through all disks.
pub fn chained(random: &mut Random) -> Case {
    let disks = random.within(2, MOST_DISKS);
    let count = random.within(2, 120);
    let mut copies: Vec<u64> = (0..count).map(|block| 3 << (block % (disks - 1))).collect();
    for _ in 0..random.within(1, 16) {
        let at = random.index(copies.len() + 1);
        copies.insert(at, 1);
    }
    Case {
        table: table(random, disks, 3, 3, 3),
        copies,
    }
}

/// Every value at one end of its range.
pub fn edges(random: &mut Random) -> Case {
    let disks = *random.pick(&[1, 2, 63, 64]);
    let row = |random: &mut Random| Row {
        cost: *random.pick(&[1, MOST_COST]),
        load: *random.pick(&[0, MOST_LOAD]),
        delay: *random.pick(&[0, MOST_DELAY]),
    };
    let rows = (0..disks).map(|_| row(random)).collect();
    let count = random.within(1, 40);
    let most = *random.pick(&[1, 8]);
    Case {
        table: ruled(random, rows),
        copies: blocks(random, count, most, disks),
    }
}

type Family = fn(&mut Random) -> Case;

const FAMILIES: [Family; 9] = [
    medium, contended, equal, loaded, no_blocks, one_disk, chained, edges, small,
];

/// A case of any family; small ones come most often, the largest seldom.
pub fn any(random: &mut Random) -> Case {
    match random.within(1, 200) {
        1 => largest(random),
        2 => longest(random),
        3..=100 => small(random),
        _ => random.pick(&FAMILIES)(random),
    }
}
