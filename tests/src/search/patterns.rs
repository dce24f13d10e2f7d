//! The patterns of all optimal connections of a source, found minute by minute.

use std::collections::{BTreeSet, HashMap};

use crate::connections::{Transfer, Way};
use crate::search::{Network, NONE};
use crate::store::NODES_MOST;
use crate::words::word;

/// The patterns of one source as a tree: each node is a beginning of some, and knows its parent and its last change.
pub struct Patterns {
    nodes: Vec<(usize, Transfer)>,
    children: HashMap<(usize, Transfer), usize>,
    arcs: BTreeSet<(u16, usize)>,
}

/// The patterns of all optimal connections of a source; none as soon as there are too many.
pub fn patterns(network: &Network, source: u32) -> Option<Patterns> {
    let mut patterns = Patterns { nodes: vec![(0, (0, 0))], children: HashMap::new(), arcs: BTreeSet::new() };
    let mut minute = Minute::new(network);
    for &departure in network.minutes(source).iter().rev() {
        minute.find_least(network, source, departure);
        minute.find_optimal(network, source);
        minute.find_useful(network);
        minute.follow(network, source, departure, &mut patterns)?;
    }
    Some(patterns)
}

/// What is known of each hop for one source and minute.
struct Minute {
    /// The least penalty of arriving by it, or `NONE`.
    least: Vec<u32>,
    /// The least penalty of boarding it after a change by each way, the change's included, or `NONE`.
    boarding: Vec<Vec<u32>>,
    /// Whether arriving by it, at the least penalty, is optimal there.
    optimal: Vec<bool>,
    /// Whether it is part of an optimal connection.
    useful: Vec<bool>,
}

impl Minute {
    fn new(network: &Network) -> Minute {
        let hops = network.hops.len();
        let boarding = network.hops.iter().map(|hop| vec![NONE; hop.early.len()]).collect();
        Minute { least: vec![0; hops], boarding, optimal: vec![false; hops], useful: vec![false; hops] }
    }

    fn find_least(&mut self, network: &Network, source: u32, minute: u32) {
        // for each way the arrivals looked at, and the least penalty among them
        let mut so_far = network.for_each_way((0, NONE));
        for (at, hop) in network.hops.iter().enumerate() {
            let mut aboard = hop.before.map_or(NONE, |before| self.least[before]);
            for (way, (seen, least)) in so_far[hop.from].iter_mut().enumerate() {
                for &other in network.early(hop, way, *seen) {
                    *least = (*least).min(self.least[other]);
                }
                *seen = hop.early[way];
                let price = network.ways_to[hop.from][way].penalty;
                self.boarding[at][way] = if hop.boards { least.saturating_add(price) } else { NONE };
                aboard = aboard.min(self.boarding[at][way]);
            }
            if hop.from == source as usize && hop.depart >= minute && hop.boards {
                aboard = 0;
            }
            self.least[at] = aboard.saturating_add(hop.penalty);
        }
    }

    fn find_optimal(&mut self, network: &Network, source: u32) {
        self.optimal.fill(false);
        for (station, arrivals) in network.arrivals.iter().enumerate() {
            if station == source as usize {
                continue;
            }
            let mut before = NONE;
            for same in arrivals.chunk_by(|&one, &other| network.hops[one].arrive == network.hops[other].arrive) {
                let least = same.iter().map(|&at| self.least[at]).min().expect("a chunk is not empty");
                if least < before {
                    before = least;
                    same.iter().for_each(|&at| self.optimal[at] = self.least[at] == least);
                }
            }
        }
    }

    /// From the last departure to the first: a hop is useful if its arrival is optimal, or if its trip's next hop is
    /// and the rider stays aboard, or if one may alight from it and a change to a useful hop is as good as any.
    fn find_useful(&mut self, network: &Network) {
        self.useful.copy_from_slice(&self.optimal);
        // for each way the useful hops that are boarded by it: early arrivals, and the penalty of those that count
        let mut boarded: Vec<Vec<Vec<(usize, u32)>>> = network.for_each_way(Vec::new());
        for (at, hop) in network.hops.iter().enumerate().rev() {
            let as_good = |&(to, way): &(usize, usize)| {
                let boarded = &boarded[to][way];
                let next = boarded.partition_point(|&(early, _)| early > hop.place);
                next > 0 && boarded[next - 1].1 == self.least[at] && self.least[at] != NONE
            };
            if hop.alights && network.ways_from[hop.to].iter().any(as_good) {
                self.useful[at] = true;
            }
            if !self.useful[at] {
                continue;
            }
            let aboard = self.least[at] - hop.penalty;
            if let Some(before) = hop.before.filter(|&before| self.least[before] == aboard) {
                self.useful[before] = true;
            }
            for (way, boarded) in boarded[hop.from].iter_mut().enumerate() {
                if self.boarding[at][way] == aboard {
                    boarded.push((hop.early[way], aboard - network.ways_to[hop.from][way].penalty));
                }
            }
        }
    }

    /// The patterns of every useful hop, from the first departure to the last.
    fn follow(&self, network: &Network, source: u32, minute: u32, patterns: &mut Patterns) -> Option<()> {
        let mut aboard: Vec<Vec<usize>> = vec![Vec::new(); network.hops.len()];
        // for each way the arrivals looked at, their least penalty, and the patterns of those that have it
        let mut so_far: Vec<Vec<(usize, u32, Vec<usize>)>> = network.for_each_way((0, NONE, Vec::new()));
        for (at, hop) in network.hops.iter().enumerate().filter(|&(at, _)| self.useful[at]) {
            let least = self.least[at] - hop.penalty;
            let mut nodes = Vec::new();
            if hop.from == source as usize && hop.depart >= minute && hop.boards {
                nodes.push(0);
            }
            if let Some(before) = hop.before.filter(|&before| self.least[before] == least) {
                nodes.extend(&aboard[before]);
            }
            for (way, (seen, so_far_least, changed)) in so_far[hop.from].iter_mut().enumerate() {
                if self.boarding[at][way] != least {
                    continue;
                }
                for &other in network.early(hop, way, *seen) {
                    if self.least[other] < *so_far_least {
                        *so_far_least = self.least[other];
                        changed.clear();
                    }
                    if self.least[other] == *so_far_least {
                        changed.extend(&aboard[other]);
                    }
                }
                *seen = hop.early[way];
                changed.sort_unstable();
                changed.dedup();
                let Way { from, to, .. } = network.ways_to[hop.from][way];
                for &node in changed.iter() {
                    nodes.push(patterns.child(node, (from, to))?);
                }
            }
            nodes.sort_unstable();
            nodes.dedup();
            if self.optimal[at] {
                patterns.arcs.extend(nodes.iter().map(|&node| (word(hop.to), node)));
                if patterns.arcs.len() > NODES_MOST {
                    return None;
                }
            }
            aboard[at] = nodes;
        }
        Some(())
    }
}

impl Patterns {
    fn child(&mut self, node: usize, change: Transfer) -> Option<usize> {
        let next = self.nodes.len();
        let child = *self.children.entry((node, change)).or_insert(next);
        if child == next {
            self.nodes.push((node, change));
        }
        (child <= NODES_MOST).then_some(child)
    }

    /// How many prefix nodes and arcs they have.
    pub fn counts(&self) -> (usize, usize) {
        (self.nodes.len() - 1, self.arcs.len())
    }

    /// The words of their store.
    pub fn to_words(&self) -> Vec<u16> {
        let mut sequences: Vec<(Vec<Transfer>, usize)> = vec![(Vec::new(), 0)];
        for (at, &(parent, change)) in self.nodes.iter().enumerate().skip(1) {
            sequences.push(([&sequences[parent].0[..], &[change]].concat(), at));
        }
        sequences.sort_by(|(one, _), (other, _)| one.len().cmp(&other.len()).then_with(|| one.cmp(other)));
        let mut numbers = vec![0; self.nodes.len()];
        (0..).zip(&sequences).for_each(|(number, &(_, at))| numbers[at] = number);
        let mut words = vec![word(self.nodes.len() - 1), word(self.arcs.len())];
        for &(_, at) in &sequences[1..] {
            let (parent, (alighted, boarded)) = self.nodes[at];
            words.extend([alighted, boarded, numbers[parent]]);
        }
        let arcs: BTreeSet<(u16, u16)> = self.arcs.iter().map(|&(target, node)| (target, numbers[node])).collect();
        words.extend(arcs.iter().flat_map(|&(target, number)| [target, number]));
        words
    }
}
