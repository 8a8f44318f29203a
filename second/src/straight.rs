//! What a unit has to answer to a small request, from the documents' sentences and by nothing else of this program: tests.

use crate::inputs::fields;
use crate::inputs::whole::{self, Case};
use crate::model::{disks_of, Rule};
use crate::random::Random;
use crate::refusal::ALL_OUT;
use crate::sheets::read_plan;
use crate::unit::Unit;

/// A small table and request.
struct Small {
    case: Case,
    age: Option<u32>,
}

impl Small {
    fn any(random: &mut Random) -> Self {
        let case = whole::small(random);
        let mut case = whole::some_out(random, case);
        case.copies.truncate(5);
        let age = whole::age(random, &case.table.rows);
        Small { case, age }
    }

    /// When a disk starts: its delay and what is left of its load, or the larger of them.
    fn start(&self, disk: usize) -> i64 {
        let row = &self.case.table.rows[disk];
        let left = i64::from(row.load) - i64::from(self.age.unwrap_or(0));
        let (left, delay) = (left.max(0), i64::from(row.delay));
        match self.case.table.rule {
            Rule::Larger if left > delay => left,
            Rule::Larger => delay,
            Rule::Sum => delay + left,
        }
    }

    fn capacity(&self, disk: usize, time: i64) -> i64 {
        let cost = i64::from(self.case.table.rows[disk].cost);
        if time < self.start(disk) {
            0
        } else {
            (time - self.start(disk)) / cost
        }
    }

    /// A block's copies in use.
    fn copies(&self, block: usize) -> Vec<usize> {
        let named = disks_of(self.case.copies[block]);
        let marks = disks_of(self.case.table.out);
        named
            .into_iter()
            .filter(|disk| !marks.contains(disk))
            .collect()
    }

    /// The first byte of the last copy of the first block that is all out.
    fn all_out(&self, sheet: &[fields::Field]) -> Option<usize> {
        let block = (0..self.case.copies.len()).find(|&block| self.copies(block).is_empty())?;
        let before = &self.case.copies[..=block];
        let numbers: u32 = before.iter().map(|copies| 1 + copies.count_ones()).sum();
        let head = if self.age.is_some() { 5 } else { 4 };
        let last = head + numbers as usize - 1;
        Some(fields::bytes(&sheet[..last]).len())
    }

    /// All schedules in dictionary order, each with its latest end.
    fn schedules(&self) -> Vec<(Vec<usize>, i64)> {
        let mut all: Vec<Vec<usize>> = vec![vec![]];
        for block in 0..self.case.copies.len() {
            let longer = all.iter().flat_map(|schedule| {
                let on = |disk: &usize| [&schedule[..], &[*disk]].concat();
                self.copies(block).iter().map(on).collect::<Vec<_>>()
            });
            all = longer.collect();
        }
        let timed = |schedule: Vec<usize>| {
            let end = |&disk: &usize| {
                let count = schedule.iter().filter(|&&other| other == disk).count();
                self.start(disk) + count as i64 * i64::from(self.case.table.rows[disk].cost)
            };
            let time = schedule.iter().map(end).max().unwrap_or(0);
            (schedule, time)
        };
        all.into_iter().map(timed).collect()
    }

    /// Of the sets with the greatest shortfall at a time, the one contained in all others.
    fn short_set(&self, time: i64) -> Vec<usize> {
        let blocks = self.case.copies.len();
        let members = |set: usize| (0..blocks).filter(move |block| set >> block & 1 == 1);
        let shortfall = |set: usize| {
            let mut held: Vec<usize> = members(set).flat_map(|block| self.copies(block)).collect();
            held.sort();
            held.dedup();
            let rooms = held.iter().map(|&disk| self.capacity(disk, time));
            members(set).count() as i64 - rooms.sum::<i64>()
        };
        let sets = 0..1usize << blocks;
        let greatest = sets.clone().map(shortfall).max().unwrap();
        let worst = sets.filter(|&set| shortfall(set) == greatest);
        let common = worst.clone().fold(usize::MAX, |all, set| all & set);
        assert!(worst.clone().any(|set| set == common));
        members(common).collect()
    }

    /// The answer of the unit is the one that the sentences give; then the time.
    fn check(&self, unit: &Unit, sheet: &[u8]) -> i64 {
        let all = self.schedules();
        let time = all.iter().map(|(_, time)| *time).min().unwrap();
        let (first, _) = all.iter().find(|(_, other)| *other == time).unwrap();
        let short = if first.is_empty() {
            vec![]
        } else {
            self.short_set(time - 1)
        };
        let plan = read_plan(&unit.request(sheet, 99).unwrap(), 7, 300).unwrap();
        assert_eq!(i64::from(plan.time), time);
        assert!(plan
            .disks
            .iter()
            .map(|&disk| usize::from(disk))
            .eq(first.iter().copied()));
        assert!(plan.short.iter().map(|&block| usize::from(block)).eq(short));
        for block in 0..first.len() {
            for disk in 0..self.case.table.rows.len() {
                let there = all.iter().filter(|(schedule, _)| schedule[block] == disk);
                let forced = there.clone().map(|(_, time)| *time).min();
                let mut least = there.filter(|(_, other)| *other == time);
                let expected = match forced {
                    None => (1, 0),
                    Some(forced) if forced > time => (2, forced as u32),
                    _ if first[block] == disk => (5, 0),
                    _ if least.any(|(other, _)| other[..block] == first[..block]) => (4, 0),
                    _ => (3, 0),
                };
                let reason = unit.reason(sheet, block as u32, disk as u32).unwrap();
                assert_eq!(reason.numbers(), expected);
            }
        }
        time
    }

    /// The time of a unit that is set so, its answer checked; none if it refuses a block that is all out.
    fn time(&self, unit: &mut Unit) -> Option<i64> {
        let settings = fields::bytes(&fields::settings(7, 300, &self.case.table));
        unit.settings(&settings).unwrap();
        let marked = fields::bytes(&fields::marked(7, 300, &self.case.table));
        let mut other = unit.clone();
        other.settings(&marked).unwrap();
        assert_eq!(*unit, other);
        let sheet = fields::request(7, 300, self.age, &self.case.copies);
        if let Some(place) = self.all_out(&sheet) {
            let refused = unit.request(&fields::bytes(&sheet), 99);
            assert_eq!(refused, Err(ALL_OUT.at(place)));
            return None;
        }
        Some(self.check(unit, &fields::bytes(&sheet)))
    }
}

#[test]
fn ages_rules_and_marks() {
    let mut random = Random::new(31);
    let (mut by_age, mut by_rule, mut by_marks, mut refused) = (0, 0, 0, 0);
    let mut unit = Unit::new(7);
    unit.rent(300).unwrap();
    for _ in 0..2_500 {
        let mut small = Small::any(&mut random);
        let Some(time) = small.time(&mut unit) else {
            refused += 1;
            continue;
        };
        let out = std::mem::take(&mut small.case.table.out);
        let all_in = small.time(&mut unit).unwrap();
        assert!(all_in <= time);
        by_marks += usize::from(all_in < time);
        small.case.table.out = out;
        let age = small.age.take();
        let without = small.time(&mut unit).unwrap();
        assert!(time <= without);
        by_age += usize::from(time < without);
        small.age = age;
        let times = [Rule::Larger, Rule::Sum].map(|rule| {
            small.case.table.rule = rule;
            small.time(&mut unit).unwrap()
        });
        assert!(times.contains(&time) && times[0] <= times[1]);
        by_rule += usize::from(times[0] < times[1]);
    }
    let counts = [by_age, by_rule, by_marks, refused];
    assert!(counts.iter().all(|&count| count > 150), "{counts:?}");
}
