//! Connections whose patterns a store holds, of timetables that are too large for a list: each beginning of a sequence
//! is followed once, with the best way to arrive by each bus at its last station.

use std::collections::{BTreeSet, HashMap};

use crate::connections::{Connection, Transfer};
use crate::direct::Query;
use crate::search::{better, result, Arrival, Labels, Network};
use crate::store::Sequence;

/// The sequences of a store as a tree for each target.
pub struct Guide(HashMap<u16, Tree>);

#[derive(Default)]
struct Tree {
    ends: bool,
    next: Vec<(Transfer, Tree)>,
}

impl Guide {
    pub fn new(sequences: &BTreeSet<Sequence>) -> Guide {
        let mut trees: HashMap<u16, Tree> = HashMap::new();
        for (changes, target) in sequences {
            trees.entry(*target).or_default().insert(changes);
        }
        Guide(trees)
    }

    /// The rows of a query among the connections whose pattern is one of the sequences.
    pub fn rows(&self, network: &Network, query: Query) -> Vec<Connection> {
        let mut follower = Follower { network, query, labels: Labels::default(), ends: Vec::new() };
        if let Some(tree) = u16::try_from(query.to).ok().and_then(|to| self.0.get(&to)) {
            let arrived = follower.ride(query.from as usize, None);
            follower.follow(tree, &arrived);
        }
        result(network, &follower.labels, follower.ends)
    }
}

impl Tree {
    fn insert(&mut self, changes: &[Transfer]) {
        let Some((&change, rest)) = changes.split_first() else {
            self.ends = true;
            return;
        };
        let place = self.next.iter().position(|(next, _)| *next == change).unwrap_or_else(|| {
            self.next.push((change, Tree::default()));
            self.next.len() - 1
        });
        self.next[place].1.insert(rest);
    }
}

struct Follower<'a> {
    network: &'a Network,
    query: Query,
    labels: Labels,
    ends: Vec<(usize, Arrival)>,
}

impl Follower<'_> {
    /// Follows all that goes on from where riders have arrived, hop by hop.
    fn follow(&mut self, tree: &Tree, arrived: &[Option<Arrival>]) {
        if tree.ends {
            let arrivals = self.network.arrivals(self.query.to as usize);
            self.ends.extend(arrivals.iter().filter_map(|&at| arrived[at].map(|arrival| (at, arrival))));
        }
        for (change, tree) in &tree.next {
            let alighted = self.network.arrivals(change.0.into());
            if alighted.iter().any(|&at| arrived[at].is_some()) {
                let arrived = self.ride(change.1.into(), Some((change.0, arrived)));
                self.follow(tree, &arrived);
            }
        }
    }

    /// The best way to arrive by each hop in one ride from the station, where riders begin, or come to from another at
    /// which they have arrived, by whichever way leads from there.
    fn ride(&mut self, station: usize, ready: Option<(u16, &[Option<Arrival>])>) -> Vec<Option<Arrival>> {
        let network = self.network;
        let mut arrived = vec![None; network.hops.len()];
        let mut so_far = vec![(0, None); network.ways_to(station).len()];
        for (at, hop) in network.hops.iter().enumerate() {
            let mut aboard = hop.before().and_then(|before| arrived[before]);
            if hop.from == station && hop.boards {
                match ready {
                    None if hop.depart < self.query.minute => {}
                    None => {
                        let begun = self.labels.begin(hop);
                        aboard = better(&self.labels, aboard, Some(begun));
                    }
                    Some((from, ready)) => {
                        let ways = network.ways_to(station).iter().zip(&mut so_far).enumerate();
                        for (place, (way, (seen, best))) in ways.filter(|(_, (way, _))| way.from == from) {
                            let early = network.early(hop, place, *seen);
                            *seen += early.len();
                            *best = early.iter().fold(*best, |best, &other| better(&self.labels, best, ready[other]));
                            let changed = best.map(|best| self.labels.change(best, hop, way.penalty));
                            aboard = better(&self.labels, aboard, changed);
                        }
                    }
                }
            }
            arrived[at] = aboard.map(|arrival: Arrival| arrival.ride(hop));
        }
        arrived
    }
}

#[cfg(test)]
mod tests {
    use super::*;
    use crate::connections::{list, rows};
    use crate::generate::{changing, crowded, CHANGING, CROWDED};
    use crate::random::Random;
    use crate::store::{by_list, kept};

    #[test]
    fn following_finds_what_the_list_keeps() {
        let mut random = Random::new(1);
        let (mut whole, mut struck, mut found, mut marked) = (0, 0, 0, 0);
        for at in 0..600 {
            let timetable = if at % 2 == 0 { changing(&mut random, &CHANGING) } else { crowded(&mut random, &CROWDED) };
            let network = Network::new(&timetable);
            let stations = timetable.stations.len() as u32;
            for from in 1..=stations {
                let Some(list) = list(&timetable, from, 3_000) else { continue };
                let mut sequences = by_list(&list, from);
                if random.one_in(2) {
                    sequences
                        .extend(list.iter().take(200).map(|connection| (connection.changes.clone(), connection.to)));
                }
                let all = sequences.len();
                if random.one_in(2) {
                    sequences.retain(|_| !random.one_in(3));
                }
                (whole, struck) = (whole + usize::from(all == sequences.len()), struck + all - sequences.len());
                let guide = Guide::new(&sequences);
                for to in (1..=stations).filter(|&to| to != from) {
                    for minute in network.minutes(from).into_iter().flat_map(|departure| [departure, departure + 1]) {
                        let query = Query { from, to, minute };
                        let listed = rows(kept(&list, &sequences, query), minute);
                        assert_eq!(guide.rows(&network, query), listed, "{query:?} of\n{timetable}");
                        found += listed.len();
                        marked += if timetable.is_marked() { listed.len() } else { 0 };
                    }
                }
            }
        }
        let counts = [whole, struck, marked];
        assert!(counts.iter().all(|&count| count > 500) && found > 5_000, "{counts:?}, {found}");
    }
}
