//! The plan of a table and a request, and its reasons: from the definitions where that is small, else by flows.

use crate::model::{Disk, Plan, Reason};
use crate::{brute, halving};

pub fn plan(disks: &[Disk], copies: &[u64]) -> Plan {
    if brute::fits(copies) {
        brute::plan(disks, copies)
    } else {
        halving::plan(disks, copies)
    }
}

/// Why the plan reads a block from a disk, or does not.
pub fn reason(disks: &[Disk], copies: &[u64], block: usize, disk: usize) -> Reason {
    if brute::fits(copies) {
        brute::reason(disks, copies, block, disk)
    } else {
        halving::reason(disks, copies, block, disk)
    }
}

#[cfg(test)]
mod tests {
    use super::*;
    use crate::inputs::whole;
    use crate::model::{disks_of, response, shortfall};
    use crate::random::Random;

    fn document_disks() -> Vec<Disk> {
        let rows = [(4, 1), (3, 2), (10, 0)];
        rows.map(|(cost, start)| Disk { start, cost }).to_vec()
    }

    fn check(copies: &[u64], time: u32, disks: &[u8], short: &[u16]) {
        let expected = Plan {
            time,
            disks: disks.to_vec(),
            short: short.to_vec(),
        };
        assert_eq!(brute::plan(&document_disks(), copies), expected);
        assert_eq!(halving::plan(&document_disks(), copies), expected);
    }

    #[test]
    fn p1_to_p8() {
        check(&[], 0, &[], &[]);
        check(&[4], 10, &[2], &[0]);
        check(&[3], 5, &[0], &[0]);
        check(&[3, 1], 5, &[1, 0], &[0, 1]);
        check(&[4, 1, 1], 10, &[2, 0, 0], &[0]);
        check(&[3, 3, 3, 6], 9, &[0, 0, 1, 1], &[0, 1, 2, 3]);
        check(&[3, 3, 3], 8, &[0, 1, 1], &[0, 1, 2]);
        check(&[2, 2, 2], 11, &[1, 1, 1], &[0, 1, 2]);
    }

    /// The reason numbers of a block for disks 0 to 2, with the time where it is reason 2.
    fn reasons(copies: &[u64], block: usize) -> [(u32, u32); 3] {
        let disks = document_disks();
        [0, 1, 2].map(|disk| {
            let found = brute::reason(&disks, copies, block, disk);
            assert_eq!(found, halving::reason(&disks, copies, block, disk));
            found.numbers()
        })
    }

    /// P6 has all five: 9 needs two blocks each on disks 0 and 1, in any order but for block 3; disk 2 ends at 10.
    #[test]
    fn reasons_of_p3_p4_p5_and_p6() {
        assert_eq!(reasons(&[3], 0), [(5, 0), (4, 0), (1, 0)]);
        assert_eq!(reasons(&[3, 1], 0), [(2, 9), (5, 0), (1, 0)]);
        assert_eq!(reasons(&[3, 1], 1), [(5, 0), (1, 0), (1, 0)]);
        assert_eq!(reasons(&[4, 1, 1], 0), [(1, 0), (1, 0), (5, 0)]);
        let p6 = [3, 3, 3, 6];
        assert_eq!(reasons(&p6, 0), [(5, 0), (4, 0), (1, 0)]);
        assert_eq!(reasons(&p6, 1), [(5, 0), (4, 0), (1, 0)]);
        assert_eq!(reasons(&p6, 2), [(3, 0), (5, 0), (1, 0)]);
        assert_eq!(reasons(&p6, 3), [(1, 0), (5, 0), (2, 10)]);
    }

    #[test]
    fn reasons_agree_on_small_cases() {
        let mut random = Random::new(14);
        let mut counts = [0; 6];
        for _ in 0..4_000 {
            let case = whole::small(&mut random);
            if !brute::fits(&case.copies) {
                continue;
            }
            for block in 0..case.copies.len() {
                for disk in 0..case.table.rows.len() {
                    let found = brute::reason(&case.disks(), &case.copies, block, disk);
                    let other = halving::reason(&case.disks(), &case.copies, block, disk);
                    assert_eq!(found, other, "{case:?} {block} {disk}");
                    counts[found.numbers().0 as usize] += 1;
                }
            }
        }
        assert!(counts[1..].iter().all(|&count| count > 500), "{counts:?}");
    }

    #[test]
    fn reasons_of_large_cases_hold_against_plans_with_fewer_copies() {
        let mut random = Random::new(15);
        for _ in 0..60 {
            let case = whole::medium(&mut random);
            let chosen = plan(&case.disks(), &case.copies);
            let block = random.index(case.copies.len());
            for disk in disks_of(case.copies[block]) {
                let mut forced = case.copies.clone();
                forced[block] = 1 << disk;
                let instead = plan(&case.disks(), &forced);
                match reason(&case.disks(), &case.copies, block, disk) {
                    Reason::Chosen => assert_eq!(instead, chosen_with(&chosen, &instead)),
                    Reason::Later(time) => {
                        assert!(time > chosen.time);
                        assert_eq!(time, instead.time);
                    }
                    Reason::LowerToo => {
                        assert_eq!(instead.time, chosen.time);
                        assert_eq!(instead.disks[..block], chosen.disks[..block]);
                        assert!(instead.disks[block] > chosen.disks[block]);
                    }
                    Reason::NotWithEarlier => {
                        assert_eq!(instead.time, chosen.time);
                        assert!(instead.disks[..block] > chosen.disks[..block]);
                    }
                    Reason::NoCopy => panic!("it holds one"),
                }
            }
        }
    }

    /// The plan's time and disks with another short set, which fewer copies may change.
    fn chosen_with(chosen: &Plan, instead: &Plan) -> Plan {
        Plan {
            short: instead.short.clone(),
            ..chosen.clone()
        }
    }

    #[test]
    fn both_ways_agree_on_small_cases() {
        let mut random = Random::new(11);
        for _ in 0..20_000 {
            let case = whole::small(&mut random);
            if brute::fits(&case.copies) {
                let (one, other) = (
                    brute::plan(&case.disks(), &case.copies),
                    halving::plan(&case.disks(), &case.copies),
                );
                assert_eq!(one, other, "{case:?}");
            }
        }
    }

    #[test]
    fn both_ways_agree_on_every_request_of_three_disks_and_three_blocks() {
        let mut random = Random::new(12);
        for code in 0..343u64 {
            let copies = [code % 7 + 1, code / 7 % 7 + 1, code / 49 + 1];
            for _ in 0..4 {
                let table = whole::table(&mut random, 3, 4, 4, 2);
                let disks = table.disks(random.within(0, 4));
                assert_eq!(brute::plan(&disks, &copies), halving::plan(&disks, &copies));
            }
        }
    }

    #[test]
    fn the_largest_plans_hold_against_the_definitions() {
        let mut random = Random::new(13);
        for _ in 0..3 {
            let case = whole::largest(&mut random);
            let plan = plan(&case.disks(), &case.copies);
            let schedule: Vec<usize> = plan.disks.iter().map(|&disk| usize::from(disk)).collect();
            assert_eq!(response(&case.disks(), &schedule), u64::from(plan.time));
            let short: Vec<usize> = plan.short.iter().map(|&block| usize::from(block)).collect();
            let before = u64::from(plan.time) - 1;
            assert!(shortfall(&case.disks(), &case.copies, &short, before) > 0);
        }
    }
}
