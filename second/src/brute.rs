//! The plan and its reasons straight from their definitions: all schedules, and all sets of blocks.

use crate::model::{disks_of, holds, response, shortfall, Disk, Plan, Reason};

/// Whether a request is small enough to try everything.
pub fn fits(copies: &[u64]) -> bool {
    let mut schedules = 1u64;
    for block in copies {
        schedules = schedules.saturating_mul(u64::from(block.count_ones()));
    }
    copies.len() <= 8 && schedules <= 3_000
}

pub fn plan(disks: &[Disk], copies: &[u64]) -> Plan {
    let (time, schedule) = first_schedule(disks, copies);
    let short = if copies.is_empty() {
        Vec::new()
    } else {
        short_set(disks, copies, time - 1)
    };
    Plan {
        time: time as u32,
        disks: schedule.iter().map(|&disk| disk as u8).collect(),
        short: short.iter().map(|&block| block as u16).collect(),
    }
}

/// The least response time, and the first schedule in dictionary order that has it.
fn first_schedule(disks: &[Disk], copies: &[u64]) -> (u64, Vec<usize>) {
    let mut best: Option<(u64, Vec<usize>)> = None;
    for schedule in schedules(copies) {
        let time = response(disks, &schedule);
        if best.as_ref().is_none_or(|(least, _)| time < *least) {
            best = Some((time, schedule));
        }
    }
    best.expect("there is at least one schedule")
}

/// All schedules in dictionary order.
fn schedules(copies: &[u64]) -> Vec<Vec<usize>> {
    let choices: Vec<Vec<usize>> = copies.iter().map(|&block| disks_of(block)).collect();
    let mut at = vec![0usize; choices.len()];
    let mut all = Vec::new();
    loop {
        let chosen = at.iter().zip(&choices).map(|(&i, choice)| choice[i]);
        all.push(chosen.collect());
        if !advance(&mut at, &choices) {
            return all;
        }
    }
}

/// The reason for a block and a disk; of the five, each judged by itself, exactly one is true.
pub fn reason(disks: &[Disk], copies: &[u64], block: usize, disk: usize) -> Reason {
    let (time, plan) = first_schedule(disks, copies);
    let all = schedules(copies);
    let there: Vec<&Vec<usize>> = all.iter().filter(|s| s[block] == disk).collect();
    let forced = there.iter().map(|s| response(disks, s)).min();
    let least: Vec<&Vec<usize>> = all.iter().filter(|s| response(disks, s) == time).collect();
    let some = |on: usize| least.iter().any(|s| s[block] == on);
    let some_as_planned = |on: usize| {
        let mut keeping = least.iter().filter(|s| s[..block] == plan[..block]);
        keeping.any(|s| s[block] == on)
    };
    let held = holds(copies[block], disk);
    let later = Reason::Later(forced.unwrap_or(0) as u32);
    let judged = [
        (!held, Reason::NoCopy),
        (held && !some(disk), later),
        (some(disk) && !some_as_planned(disk), Reason::NotWithEarlier),
        (
            some_as_planned(disk) && (0..disk).any(some_as_planned),
            Reason::LowerToo,
        ),
        (plan[block] == disk, Reason::Chosen),
    ];
    let reasons: Vec<Reason> = judged
        .iter()
        .filter(|(is_true, _)| *is_true)
        .map(|(_, reason)| *reason)
        .collect();
    assert_eq!(reasons.len(), 1, "exactly one reason is true");
    reasons[0]
}

/// The next schedule in dictionary order: the last block moves fastest.
fn advance(at: &mut [usize], choices: &[Vec<usize>]) -> bool {
    for block in (0..at.len()).rev() {
        if at[block] + 1 < choices[block].len() {
            at[block] += 1;
            return true;
        }
        at[block] = 0;
    }
    false
}

/// Of the sets with the greatest shortfall, the one contained in all others.
fn short_set(disks: &[Disk], copies: &[u64], time: u64) -> Vec<usize> {
    let sets: Vec<u32> = (0..1u32 << copies.len()).collect();
    let value = |set: &u32| shortfall(disks, copies, &members(*set), time);
    let greatest = sets
        .iter()
        .map(value)
        .max()
        .expect("there is at least the empty set");
    let worst: Vec<u32> = sets
        .into_iter()
        .filter(|set| value(set) == greatest)
        .collect();
    let contained = |set: &&u32| worst.iter().all(|other| *set & !other == 0);
    let least: Vec<&u32> = worst.iter().filter(contained).collect();
    assert_eq!(least.len(), 1, "exactly one set is contained in all others");
    members(*least[0])
}

fn members(set: u32) -> Vec<usize> {
    (0..32).filter(|&block| set >> block & 1 == 1).collect()
}
