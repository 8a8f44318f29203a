//! Greatest flow by levels and blocking flows (Dinic).

struct Arc {
    to: usize,
    room: u32,
}

/// A network; arc 2i and arc 2i + 1 are each other's way back.
pub struct Network {
    arcs: Vec<Arc>,
    out: Vec<Vec<usize>>,
    level: Vec<usize>,
    next: Vec<usize>,
}

const UNSEEN: usize = usize::MAX;

impl Network {
    pub fn new(nodes: usize) -> Self {
        Network {
            arcs: Vec::new(),
            out: vec![Vec::new(); nodes],
            level: vec![UNSEEN; nodes],
            next: vec![0; nodes],
        }
    }

    /// A new arc with its room; its number is the answer.
    pub fn arc(&mut self, from: usize, to: usize, room: u32) -> usize {
        let number = self.arcs.len();
        self.arcs.push(Arc { to, room });
        self.arcs.push(Arc { to: from, room: 0 });
        self.out[from].push(number);
        self.out[to].push(number + 1);
        number
    }

    pub fn room(&self, arc: usize) -> u32 {
        self.arcs[arc].room
    }

    pub fn set_room(&mut self, arc: usize, room: u32) {
        self.arcs[arc].room = room;
    }

    /// The flow on an arc.
    pub fn used(&self, arc: usize) -> u32 {
        self.arcs[arc + 1].room
    }

    /// Takes one unit of flow off an arc.
    pub fn take_back(&mut self, arc: usize) {
        self.arcs[arc].room += 1;
        self.arcs[arc + 1].room -= 1;
    }

    /// Adds flow until no more goes through or the limit is there; answers how much was added.
    pub fn run(&mut self, from: usize, to: usize, limit: u32) -> u32 {
        let mut sum = 0;
        while sum < limit && self.find_levels(from, to) {
            self.next.fill(0);
            loop {
                let sent = self.send(from, to, limit - sum);
                if sent == 0 {
                    break;
                }
                sum += sent;
            }
        }
        sum
    }

    /// The nodes that can be reached through arcs with room left.
    pub fn reached(&mut self, from: usize) -> Vec<bool> {
        self.find_levels(from, UNSEEN);
        self.level.iter().map(|&level| level != UNSEEN).collect()
    }

    fn find_levels(&mut self, from: usize, to: usize) -> bool {
        self.level.fill(UNSEEN);
        self.level[from] = 0;
        let mut queue = vec![from];
        let mut at = 0;
        while at < queue.len() {
            let node = queue[at];
            at += 1;
            for &arc in &self.out[node] {
                let Arc { to: head, room } = self.arcs[arc];
                if room == 0 || self.level[head] != UNSEEN {
                    continue;
                }
                self.level[head] = self.level[node] + 1;
                if head == to {
                    return true;
                }
                queue.push(head);
            }
        }
        false
    }

    fn send(&mut self, node: usize, to: usize, most: u32) -> u32 {
        if node == to || most == 0 {
            return most;
        }
        while self.next[node] < self.out[node].len() {
            let arc = self.out[node][self.next[node]];
            let Arc { to: head, room } = self.arcs[arc];
            if room > 0 && self.level[head] == self.level[node] + 1 {
                let sent = self.send(head, to, most.min(room));
                if sent > 0 {
                    self.arcs[arc].room -= sent;
                    self.arcs[arc ^ 1].room += sent;
                    return sent;
                }
            }
            self.next[node] += 1;
        }
        0
    }
}

#[cfg(test)]
mod tests {
    use super::*;

    #[test]
    fn a_small_network() {
        let mut network = Network::new(4);
        network.arc(0, 1, 3);
        network.arc(0, 2, 2);
        network.arc(1, 2, 5);
        let last = network.arc(2, 3, 4);
        network.arc(1, 3, 1);
        assert_eq!(network.run(0, 3, u32::MAX), 5);
        assert_eq!(network.used(last), 4);
        assert_eq!(network.reached(0), [true, false, false, false]);
    }
}
