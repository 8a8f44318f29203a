//! The plan by flows: halving on the time, trial of each disk, and the blocks reached; and the reasons by fewer copies.

use crate::flow::Network;
use crate::model::{disks_of, holds, Disk, Plan, Reason, MOST_TIME};

/// The network of a request at a time: source, blocks, disks, sink.
struct Retrieval {
    network: Network,
    blocks: usize,
    source: usize,
    sink: usize,
    to_block: Vec<usize>,
    to_disk: Vec<Vec<(usize, usize)>>,
    to_sink: Vec<usize>,
}

pub fn plan(disks: &[Disk], copies: &[u64]) -> Plan {
    if copies.is_empty() {
        return Plan {
            time: 0,
            disks: Vec::new(),
            short: Vec::new(),
        };
    }
    let time = least_time(disks, copies);
    Plan {
        time: time as u32,
        disks: first_schedule(disks, copies, time),
        short: short_set(disks, copies, time - 1),
    }
}

/// The first time by which every block can be read.
fn least_time(disks: &[Disk], copies: &[u64]) -> u64 {
    let (mut early, mut late) = (0, u64::from(MOST_TIME));
    while late - early > 1 {
        let middle = (early + late) / 2;
        if in_time(disks, copies, middle) {
            late = middle;
        } else {
            early = middle;
        }
    }
    late
}

/// Whether every block can be read by a time.
fn in_time(disks: &[Disk], copies: &[u64], time: u64) -> bool {
    Retrieval::new(disks, copies, time).fill() == copies.len()
}

/// The reason for a block and a disk: a block with one copy left is a block forced to that disk.
pub fn reason(disks: &[Disk], copies: &[u64], block: usize, disk: usize) -> Reason {
    if !holds(copies[block], disk) {
        return Reason::NoCopy;
    }
    let time = least_time(disks, copies);
    let mut forced = copies.to_vec();
    forced[block] = 1 << disk;
    if !in_time(disks, &forced, time) {
        return Reason::Later(least_time(disks, &forced) as u32);
    }
    let chosen = first_schedule(disks, copies, time);
    if usize::from(chosen[block]) == disk {
        return Reason::Chosen;
    }
    for (copies, disk) in forced.iter_mut().zip(&chosen[..block]) {
        *copies = 1 << disk;
    }
    if in_time(disks, &forced, time) {
        Reason::LowerToo
    } else {
        Reason::NotWithEarlier
    }
}

/// Each block in turn gets the lowest disk that leaves the blocks after it a way.
fn first_schedule(disks: &[Disk], copies: &[u64], time: u64) -> Vec<u8> {
    let mut retrieval = Retrieval::new(disks, copies, time);
    assert_eq!(retrieval.fill(), copies.len());
    (0..copies.len())
        .map(|block| retrieval.settle(block) as u8)
        .collect()
}

/// The blocks on the source's side of the least cut nearest to the source.
fn short_set(disks: &[Disk], copies: &[u64], time: u64) -> Vec<u16> {
    let mut retrieval = Retrieval::new(disks, copies, time);
    assert!(retrieval.fill() < copies.len());
    let reached = retrieval.network.reached(retrieval.source);
    (0..copies.len())
        .filter(|&block| reached[block])
        .map(|block| block as u16)
        .collect()
}

impl Retrieval {
    fn new(disks: &[Disk], copies: &[u64], time: u64) -> Self {
        let blocks = copies.len();
        let source = blocks + disks.len();
        let sink = source + 1;
        let mut network = Network::new(sink + 1);
        let to_block = (0..blocks)
            .map(|block| network.arc(source, block, 1))
            .collect();
        let to_disk = (0..blocks)
            .map(|block| {
                let held = disks_of(copies[block]);
                held.iter()
                    .map(|&disk| (disk, network.arc(block, blocks + disk, 1)))
                    .collect()
            })
            .collect();
        let to_sink = (0..disks.len())
            .map(|disk| {
                let room = disks[disk].capacity(time).min(blocks as u64) as u32;
                network.arc(blocks + disk, sink, room)
            })
            .collect();
        Retrieval {
            network,
            blocks,
            source,
            sink,
            to_block,
            to_disk,
            to_sink,
        }
    }

    /// How many blocks find a disk.
    fn fill(&mut self) -> usize {
        self.network.run(self.source, self.sink, self.blocks as u32) as usize
    }

    /// Takes the block off its disk and gives it the first disk from which all still goes through.
    fn settle(&mut self, block: usize) -> usize {
        self.lift(block);
        for (disk, arc) in self.to_disk[block].clone() {
            self.network.set_room(arc, 1);
            if self.network.run(block, self.sink, 1) == 1 {
                return disk;
            }
            self.network.set_room(arc, 0);
        }
        unreachable!("the disk that the block had is one of them")
    }

    /// Takes the block off its disk and shuts the ways to all its disks.
    fn lift(&mut self, block: usize) {
        assert_eq!(self.network.room(self.to_block[block]), 0);
        for &(disk, arc) in &self.to_disk[block] {
            if self.network.used(arc) == 1 {
                self.network.take_back(arc);
                self.network.take_back(self.to_sink[disk]);
            }
            self.network.set_room(arc, 0);
        }
    }
}
