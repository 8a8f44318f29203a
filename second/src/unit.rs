//! The unit's life.

use crate::model::{Disk, Reason, Table};
use crate::planner;
use crate::refusal::{Refused, NOT_ABOVE, NOT_RETURNED, NO_SUCH, RENTED};
use crate::sheets::{read_request, read_settings, write_plan, Known};

/// A unit; a table without rows means no settings yet.
#[derive(Clone, Debug, PartialEq, Eq)]
pub struct Unit {
    number: u32,
    last: u32,
    rented: bool,
    table: Table,
}

impl Unit {
    pub fn new(number: u32) -> Self {
        Unit {
            number,
            last: 0,
            rented: false,
            table: Table::default(),
        }
    }

    pub fn disks(&self) -> u32 {
        self.table.rows.len() as u32
    }

    /// The current tenancy, 0 while not rented.
    pub fn tenancy(&self) -> u32 {
        if self.rented {
            self.last
        } else {
            0
        }
    }

    pub fn rent(&mut self, tenancy: u32) -> Result<(), Refused> {
        if self.rented {
            return Err(RENTED.nowhere());
        }
        if tenancy <= self.last {
            return Err(NOT_ABOVE.nowhere());
        }
        self.rented = true;
        self.last = tenancy;
        Ok(())
    }

    pub fn settings(&mut self, sheet: &[u8]) -> Result<(), Refused> {
        self.table = read_settings(sheet, self.number, self.tenancy())?;
        Ok(())
    }

    /// The disks that are out.
    pub fn out(&self) -> u64 {
        self.table.out
    }

    /// The disks at the age of an accepted request, and each block's copies in use.
    fn asked(&self, sheet: &[u8]) -> Result<(Vec<Disk>, Vec<u64>), Refused> {
        let (disks, out) = (self.disks(), self.out());
        let known = Known { disks, out };
        let request = read_request(sheet, self.number, self.tenancy(), known)?;
        let copies = self.table.in_use(&request.copies);
        Ok((self.table.disks(request.age()), copies))
    }

    /// The plan sheet, if it fits the room.
    pub fn request(&self, sheet: &[u8], room: usize) -> Result<Vec<u8>, Refused> {
        let (disks, copies) = self.asked(sheet)?;
        let plan = planner::plan(&disks, &copies);
        write_plan(self.number, self.tenancy(), &plan, room)
    }

    /// Why the plan of a request reads a block from a disk, or does not; after the request's own refusals 16.
    pub fn reason(&self, sheet: &[u8], block: u32, disk: u32) -> Result<Reason, Refused> {
        let (disks, copies) = self.asked(sheet)?;
        if block as usize >= copies.len() || disk >= self.disks() {
            return Err(NO_SUCH.nowhere());
        }
        let (block, disk) = (block as usize, disk as usize);
        Ok(planner::reason(&disks, &copies, block, disk))
    }

    pub fn give_back(&mut self, tenancy: u32) -> Result<(), Refused> {
        if !self.rented || tenancy != self.last {
            return Err(NOT_RETURNED.nowhere());
        }
        self.rented = false;
        self.table = Table::default();
        Ok(())
    }
}

#[cfg(test)]
mod tests {
    use super::*;
    use crate::refusal::*;

    const SETTINGS: [u8; 13] = [1, 7, 5, 3, 4, 0, 1, 3, 2, 0, 10, 0, 0];

    #[test]
    fn a_hire() {
        let mut unit = Unit::new(7);
        assert_eq!(unit.rent(0), Err(NOT_ABOVE.at(0)));
        assert_eq!(unit.settings(&SETTINGS), Err(OTHER_TENANCY.at(2)));
        assert_eq!(unit.rent(5), Ok(()));
        assert_eq!(unit.rent(4), Err(RENTED.at(0)));
        assert_eq!(unit.request(&[2, 7, 5], 99), Err(NO_SETTINGS.at(3)));
        assert_eq!(unit.settings(&SETTINGS), Ok(()));
        assert_eq!(
            unit.request(&[2, 7, 5, 1, 1, 2], 9),
            Ok(vec![3, 7, 5, 1, 10, 2, 1, 0])
        );
        assert_eq!(
            unit.request(&[2, 7, 5, 1, 1, 2], 8),
            Ok(vec![3, 7, 5, 1, 10, 2, 1, 0])
        );
        assert_eq!(unit.request(&[2, 7, 5, 1, 1, 2], 7), Err(NO_ROOM.at(8)));
        assert_eq!(unit.request(&[2, 7, 5, 0], 6), Ok(vec![3, 7, 5, 0, 0, 0]));
        assert_eq!(unit.give_back(4), Err(NOT_RETURNED.at(0)));
        assert_eq!(unit.give_back(5), Ok(()));
        assert_eq!(unit.give_back(5), Err(NOT_RETURNED.at(0)));
        assert_eq!(unit.request(&[2, 7, 5], 99), Err(OTHER_TENANCY.at(2)));
        assert_eq!(unit.request(&[2, 8], 99), Err(OTHER_UNIT.at(1)));
        assert_eq!(unit.rent(5), Err(NOT_ABOVE.at(0)));
        assert_eq!(unit.rent(6), Ok(()));
        let mut fresh = Unit::new(7);
        assert_eq!(fresh.rent(6), Ok(()));
        assert_eq!(unit, fresh);
    }

    #[test]
    fn a_shorter_sheet_leaves_no_rows() {
        let mut unit = Unit::new(7);
        unit.rent(5).unwrap();
        unit.settings(&SETTINGS).unwrap();
        unit.settings(&[1, 7, 5, 1, 4, 0, 1]).unwrap();
        assert_eq!(unit.request(&[2, 7, 5, 1, 1, 1], 99), Err(NO_SUCH.at(5)));
        assert_eq!(unit.settings(&[1, 7, 5, 1, 9, 9]), Err(ENDS.at(6)));
        assert_eq!(
            unit.request(&[2, 7, 5, 1, 1, 0], 99),
            Ok(vec![3, 7, 5, 1, 5, 0, 1, 0])
        );
    }

    #[test]
    fn reasons_and_their_refusals() {
        let mut unit = Unit::new(7);
        let p4 = [2, 7, 5, 2, 2, 0, 1, 1, 0];
        assert_eq!(unit.reason(&p4, 9, 9), Err(OTHER_TENANCY.at(2)));
        unit.rent(5).unwrap();
        assert_eq!(unit.reason(&p4, 9, 9), Err(NO_SETTINGS.at(3)));
        unit.settings(&SETTINGS).unwrap();
        assert_eq!(unit.reason(&p4, 0, 0), Ok(Reason::Later(9)));
        assert_eq!(unit.reason(&p4, 0, 1), Ok(Reason::Chosen));
        assert_eq!(unit.reason(&p4, 1, 2), Ok(Reason::NoCopy));
        assert_eq!(unit.reason(&p4, 2, 0), Err(NO_SUCH.at(0)));
        assert_eq!(unit.reason(&p4, 0, 3), Err(NO_SUCH.at(0)));
        assert_eq!(unit.reason(&p4, 0, 63), Err(NO_SUCH.at(0)));
        assert_eq!(unit.reason(&p4, u32::MAX, u32::MAX), Err(NO_SUCH.at(0)));
        assert_eq!(unit.reason(&[2, 7, 5, 0], 0, 0), Err(NO_SUCH.at(0)));
        assert_eq!(unit.reason(&[2, 7, 5, 0, 0], 0, 0), Err(TRAILING.at(4)));
        assert_eq!(unit.reason(&p4[..8], 9, 9), Err(ENDS.at(8)));
    }

    /// Disk 0: cost 4, load 0, delay 1. Disk 1: cost 3, load 100, delay 0. A block on disk 1, and one on both.
    #[test]
    fn a_load_is_less_by_the_age_of_the_request() {
        let mut unit = Unit::new(7);
        let aged = |age: u8| [4, 7, 5, age, 2, 1, 1, 2, 0, 1];
        assert_eq!(unit.request(&aged(0), 99), Err(OTHER_TENANCY.at(2)));
        unit.rent(5).unwrap();
        assert_eq!(unit.request(&aged(0), 99), Err(NO_SETTINGS.at(3)));
        unit.settings(&[1, 7, 5, 2, 4, 0, 1, 3, 100, 0]).unwrap();
        let before = unit.clone();
        let plan = |age, time, disks: [u8; 2], short: &[u8]| {
            let sheet = [&[3, 7, 5, 2, time], &disks[..], &[short.len() as u8], short].concat();
            assert_eq!(unit.request(&aged(age), 99), Ok(sheet), "{age}");
        };
        plan(0, 103, [1, 0], &[0]);
        plan(1, 102, [1, 0], &[0]);
        plan(97, 6, [1, 0], &[0]);
        plan(98, 5, [1, 0], &[0, 1]);
        plan(99, 5, [1, 0], &[0, 1]);
        plan(100, 5, [1, 0], &[0, 1]);
        plan(101, 5, [1, 0], &[0, 1]);
        assert_eq!(
            unit.request(&[2, 7, 5, 2, 1, 1, 2, 0, 1], 99),
            unit.request(&aged(0), 99)
        );
        assert_eq!(unit.reason(&aged(0), 1, 1), Ok(Reason::Later(106)));
        assert_eq!(unit.reason(&aged(99), 1, 1), Ok(Reason::Later(7)));
        assert_eq!(unit.reason(&aged(100), 1, 1), Ok(Reason::Later(6)));
        assert_eq!(unit.reason(&aged(101), 1, 1), Ok(Reason::Later(6)));
        assert_eq!(unit, before);
    }

    /// One disk: cost 4, load 9, delay 6. By the sum it starts at 15, by the larger at 9, and at 6 once the load is below.
    #[test]
    fn the_rule_of_the_last_settings_holds() {
        let mut unit = Unit::new(7);
        let settings = |kind, tenancy| [kind, 7, tenancy, 1, 4, 9, 6];
        let time = |unit: &Unit, tenancy, age| {
            let plan = unit.request(&[4, 7, tenancy, age, 1, 1, 0], 99).unwrap();
            plan[4]
        };
        unit.rent(5).unwrap();
        unit.settings(&settings(5, 5)).unwrap();
        assert_eq!(
            [0, 2, 3, 4, 9, 10].map(|age| time(&unit, 5, age)),
            [13, 11, 10, 10, 10, 10]
        );
        unit.settings(&settings(1, 5)).unwrap();
        assert_eq!(
            [0, 2, 3, 4, 9, 10].map(|age| time(&unit, 5, age)),
            [19, 17, 16, 15, 10, 10]
        );
        unit.settings(&settings(5, 5)).unwrap();
        assert_eq!(unit.settings(&settings(4, 5)), Err(KIND.at(0)));
        assert_eq!(unit.settings(&settings(5, 6)), Err(OTHER_TENANCY.at(2)));
        assert_eq!(unit.settings(&[1, 7, 5, 1, 4, 9]), Err(ENDS.at(6)));
        assert_eq!(time(&unit, 5, 0), 13);
        unit.give_back(5).unwrap();
        let mut fresh = Unit::new(7);
        for unit in [&mut unit, &mut fresh] {
            assert_eq!(unit.settings(&settings(5, 5)), Err(OTHER_TENANCY.at(2)));
            unit.rent(6).unwrap();
        }
        assert_eq!(unit, fresh);
        unit.settings(&settings(1, 6)).unwrap();
        assert_eq!(time(&unit, 6, 0), 19);
    }

    /// Document 01's table, with disk 0 or others out.
    #[test]
    fn a_disk_that_is_out_holds_no_copy_in_use() {
        let mut unit = Unit::new(7);
        let marked = |marks: [u8; 3]| {
            let [a, b, c] = marks;
            [6, 7, 5, 3, 1, 4, 0, 1, a, 3, 2, 0, b, 10, 0, 0, c]
        };
        let p6 = [2, 7, 5, 4, 2, 0, 1, 2, 0, 1, 2, 0, 1, 2, 1, 2];
        unit.rent(5).unwrap();
        unit.settings(&marked([0, 0, 0])).unwrap();
        let mut plain = Unit::new(7);
        plain.rent(5).unwrap();
        plain.settings(&SETTINGS).unwrap();
        assert_eq!(unit, plain);
        unit.settings(&marked([1, 0, 0])).unwrap();
        let plan = [3, 7, 5, 4, 11, 1, 1, 1, 2, 3, 0, 1, 2];
        assert_eq!(unit.request(&p6, 99), Ok(plan.to_vec()));
        assert_eq!(unit.reason(&p6, 0, 0), Ok(Reason::NoCopy));
        assert_eq!(unit.reason(&p6, 0, 1), Ok(Reason::Chosen));
        assert_eq!(unit.reason(&p6, 3, 1), Ok(Reason::Later(14)));
        assert_eq!(unit.reason(&p6, 3, 2), Ok(Reason::Chosen));
        assert_eq!(unit.reason(&p6, 0, 3), Err(NO_SUCH.at(0)));
        unit.settings(&marked([1, 1, 0])).unwrap();
        assert_eq!(unit.request(&p6, 99), Err(ALL_OUT.at(6)));
        assert_eq!(unit.reason(&p6, 9, 9), Err(ALL_OUT.at(6)));
        unit.settings(&marked([1, 1, 1])).unwrap();
        assert_eq!(unit.request(&[2, 7, 5, 0], 99), Ok(vec![3, 7, 5, 0, 0, 0]));
        assert_eq!(unit.request(&[2, 7, 5, 1, 1, 2], 99), Err(ALL_OUT.at(5)));
        assert_eq!(unit.settings(&marked([1, 1, 2])), Err(VALUE.at(16)));
        assert_eq!(unit.request(&[2, 7, 5, 1, 1, 2], 99), Err(ALL_OUT.at(5)));
        for kind in [1, 5] {
            unit.settings(&marked([1, 1, 1])).unwrap();
            unit.settings(&[&[kind], &SETTINGS[1..]].concat()).unwrap();
            assert_eq!(unit.out(), 0);
        }
        unit.settings(&[6, 7, 5, 1, 2, 4, 0, 1, 1]).unwrap();
        assert_eq!(unit.request(&[2, 7, 5, 1, 1, 1], 99), Err(NO_SUCH.at(5)));
        unit.give_back(5).unwrap();
        plain.give_back(5).unwrap();
        assert_eq!(unit, plain);
    }

    #[test]
    fn the_last_tenancy_of_all() {
        let mut unit = Unit::new(0);
        unit.rent(u32::MAX).unwrap();
        unit.give_back(u32::MAX).unwrap();
        assert_eq!(unit.rent(u32::MAX), Err(NOT_ABOVE.at(0)));
    }
}
