//! The pattern store, written from document 01's section of that name and document 02, One: its sequences, its words,
//! and question 13.

use std::collections::{BTreeMap, BTreeSet};

use crate::connections::{optimal, Connection, Transfer};
use crate::direct::Query;
use crate::words::word;

/// No store has more prefix nodes, nor more arcs.
pub const NODES_MOST: usize = 16_383;
/// The words of a store that has the most of both.
pub const STORE_WORDS_MOST: usize = 2 + 5 * NODES_MOST;
/// "A pattern has at most 64 rides."
pub const RIDES_MOST: usize = 64;

/// A pattern without its source: the stations of the changes, then the target.
pub type Sequence = (Vec<Transfer>, u16);

/// The patterns of all optimal connections of a source, by the list of all its connections.
///
/// What is feasible changes only where a departure has been missed: so the minutes of departure stand for all.
pub fn by_list(list: &[Connection], source: u32) -> BTreeSet<Sequence> {
    let minutes: BTreeSet<u32> = list.iter().map(|connection| connection.depart).collect();
    let targets: BTreeSet<u16> = list.iter().map(|connection| connection.to).collect();
    let mut sequences = BTreeSet::new();
    for &minute in &minutes {
        for &to in targets.iter().filter(|&&to| u32::from(to) != source) {
            let feasible = list.iter().filter(|connection| connection.to == to && connection.depart >= minute);
            sequences.extend(optimal(feasible, minute).iter().map(|connection| (connection.changes.clone(), to)));
        }
    }
    sequences
}

/// Those of a source's connections that are feasible for the query and whose pattern is one of the sequences.
pub fn kept<'a>(
    list: &'a [Connection],
    sequences: &'a BTreeSet<Sequence>,
    query: Query,
) -> impl Iterator<Item = &'a Connection> {
    feasible(list, query).filter(|connection| sequences.contains(&(connection.changes.clone(), connection.to)))
}

/// Those of a source's connections that are feasible for the query.
pub fn feasible(list: &[Connection], query: Query) -> impl Iterator<Item = &Connection> {
    list.iter().filter(move |connection| u32::from(connection.to) == query.to && connection.depart >= query.minute)
}

/// The words of a store that holds these sequences; none if it has too many nodes or arcs.
pub fn to_words(sequences: &BTreeSet<Sequence>) -> Option<Vec<u16>> {
    let beginnings = sequences.iter().flat_map(|(changes, _)| (1..=changes.len()).map(|length| &changes[..length]));
    let nodes: BTreeSet<(usize, &[Transfer])> = beginnings.map(|beginning| (beginning.len(), beginning)).collect();
    if nodes.len() > NODES_MOST || sequences.len() > NODES_MOST {
        return None;
    }
    let numbers: BTreeMap<&[Transfer], usize> = (1..).zip(&nodes).map(|(number, &(_, node))| (node, number)).collect();
    let number = |beginning: &[Transfer]| if beginning.is_empty() { 0 } else { word(numbers[beginning]) };
    let arcs: BTreeSet<(u16, u16)> = sequences.iter().map(|(changes, target)| (*target, number(changes))).collect();
    let mut words = vec![word(nodes.len()), word(arcs.len())];
    for (_, node) in nodes {
        let (&(alighted, boarded), beginning) = node.split_last().expect("a node has a change");
        words.extend([alighted, boarded, number(beginning)]);
    }
    words.extend(arcs.iter().flat_map(|&(target, node)| [target, node]));
    Some(words)
}

/// A store taken apart: stations alighted and boarded at and parent of each node, target and predecessor of each arc.
#[derive(Clone, Debug, Default, PartialEq, Eq)]
pub struct Store {
    pub nodes: Vec<(u16, u16, u16)>,
    pub arcs: Vec<(u16, u16)>,
}

impl Store {
    /// The store at the start of the words, if all its words are present and its counts are not too large.
    pub fn from_words(words: &[u16]) -> Option<Store> {
        let (&[nodes, arcs], rest) = words.split_first_chunk()?;
        let [nodes, arcs] = [nodes, arcs].map(usize::from);
        if nodes > NODES_MOST || arcs > NODES_MOST || rest.len() < 3 * nodes + 2 * arcs {
            return None;
        }
        let (nodes, rest) = rest.split_at(3 * nodes);
        Some(Store {
            nodes: nodes.chunks(3).map(|node| (node[0], node[1], node[2])).collect(),
            arcs: rest[..2 * arcs].chunks(2).map(|arc| (arc[0], arc[1])).collect(),
        })
    }

    /// Its words, whether or not it is well made.
    pub fn to_words(&self) -> Vec<u16> {
        let mut words = vec![word(self.nodes.len()), word(self.arcs.len())];
        words.extend(self.nodes.iter().flat_map(|&(alighted, boarded, parent)| [alighted, boarded, parent]));
        words.extend(self.arcs.iter().flat_map(|&(target, node)| [target, node]));
        words
    }

    /// Question 13, for a timetable of so many stations, where its words are present and its counts not too large.
    pub fn well_made(&self, stations: usize) -> bool {
        let listed = |station: u16| (1..=stations).contains(&station.into());
        let below = |(number, &(_, _, parent)): (usize, &(u16, u16, u16))| usize::from(parent) < number;
        let all_listed = self.nodes.iter().all(|&(alighted, boarded, _)| listed(alighted) && listed(boarded))
            && self.arcs.iter().all(|&(target, _)| listed(target));
        let parents = (1..).zip(&self.nodes).all(below);
        let predecessors = self.arcs.iter().all(|&(_, node)| usize::from(node) <= self.nodes.len());
        let rising = self.arcs.windows(2).all(|pair| pair[0] < pair[1]);
        all_listed && parents && predecessors && rising && self.arcs.iter().all(|&(_, node)| self.is_short(node))
    }

    /// Whether the pattern of an arc from this node has at most 64 rides.
    fn is_short(&self, mut node: u16) -> bool {
        let mut rides = 1;
        while node != 0 && rides <= RIDES_MOST {
            rides += 1;
            node = self.nodes[usize::from(node) - 1].2;
        }
        rides <= RIDES_MOST
    }

    /// What its arcs read as: "from the arc back through the parents to the root".
    pub fn sequences(&self) -> BTreeSet<Sequence> {
        self.arcs.iter().map(|&(target, node)| (self.changes(node), target)).collect()
    }

    fn changes(&self, mut node: u16) -> Vec<Transfer> {
        let mut changes = Vec::new();
        while node != 0 {
            let (alighted, boarded, parent) = self.nodes[usize::from(node) - 1];
            changes.push((alighted, boarded));
            node = parent;
        }
        changes.reverse();
        changes
    }
}

/// The store at the start of the words, if question 13 has its yes.
pub fn well_made(words: &[u16], stations: usize) -> Option<Store> {
    Store::from_words(words).filter(|store| store.well_made(stations))
}
