//! The rows of a query: of all ways to be aboard a hop the best, and of all arrivals the undominated.

use std::cmp::Ordering;

use crate::connections::Connection;
use crate::direct::Query;
use crate::search::{Hop, Network, NONE};
use crate::words::word;

/// A way to be aboard a trip, from the ride that is under way back to the first.
#[derive(Clone, Copy)]
pub struct Label {
    penalty: u32,
    depart: u32,
    rides: u32,
    trip: u32,
    board: u32,
    /// The ride before, and the stop where it ended.
    before: Option<(usize, u32)>,
}

/// Labels, each known by its place.
#[derive(Default)]
pub struct Labels(Vec<Label>);

impl Labels {
    fn add(&mut self, label: Label) -> Arrival {
        self.0.push(label);
        Arrival { label: self.0.len() - 1, ridden: 0, alight: label.board }
    }

    /// Boards a hop at the source.
    pub fn begin(&mut self, hop: &Hop) -> Arrival {
        let (trip, board) = (hop.trip, hop.stop);
        self.add(Label { penalty: 0, depart: hop.depart, rides: 1, trip, board, before: None })
    }

    /// Boards a hop after a change.
    pub fn change(&mut self, arrival: Arrival, hop: &Hop, change_penalty: u32) -> Arrival {
        let Label { penalty, depart, rides, .. } = self.0[arrival.label];
        let penalty = penalty + arrival.ridden + change_penalty;
        let before = Some((arrival.label, arrival.alight));
        self.add(Label { penalty, depart, rides: rides + 1, trip: hop.trip, board: hop.stop, before })
    }

    pub fn penalty(&self, arrival: Arrival) -> u32 {
        self.0[arrival.label].penalty + arrival.ridden
    }

    /// The least is the best: by penalty, then latest departure, then fewest rides, then the rides' numbers.
    pub fn compare(&self, one: Arrival, other: Arrival) -> Ordering {
        let key = |arrival: Arrival| {
            let label = &self.0[arrival.label];
            (label.penalty + arrival.ridden, u32::MAX - label.depart, label.rides)
        };
        key(one)
            .cmp(&key(other))
            .then_with(|| self.compare_rides(Some((one.label, one.alight)), Some((other.label, other.alight))))
    }

    /// Compares as many rides on either side, from the first on.
    fn compare_rides(&self, one: Option<(usize, u32)>, other: Option<(usize, u32)>) -> Ordering {
        let (Some(one), Some(other)) = (one, other) else { return Ordering::Equal };
        if one == other {
            return Ordering::Equal;
        }
        let ride = |(label, alight): (usize, u32)| (self.0[label].trip, self.0[label].board, alight);
        self.compare_rides(self.0[one.0].before, self.0[other.0].before).then_with(|| ride(one).cmp(&ride(other)))
    }

    pub fn connection(&self, network: &Network, arrival: Arrival, hop: &Hop) -> Connection {
        let mut rides = Vec::new();
        let mut ride = Some((arrival.label, arrival.alight));
        while let Some((label, alight)) = ride {
            rides.push([self.0[label].trip, self.0[label].board, alight]);
            ride = self.0[label].before;
        }
        rides.reverse();
        let hop_at = |trip: u32, stop: u32| {
            let at = network.hops.iter().find(|hop| hop.trip == trip && hop.stop == stop);
            at.expect("a ride boards a hop and alights from one")
        };
        let change = |rides: &[[u32; 3]]| {
            let [before, after] = [rides[0], rides[1]];
            (word(hop_at(before[0], before[2] - 1).to), word(hop_at(after[0], after[1]).from))
        };
        Connection {
            depart: self.0[arrival.label].depart,
            arrive: hop.arrive,
            penalty: self.penalty(arrival),
            changes: rides.windows(2).map(change).collect(),
            rides,
            to: word(hop.to),
        }
    }
}

/// Being aboard with a label, after so many points of riding, at a stop of its trip.
#[derive(Clone, Copy)]
pub struct Arrival {
    label: usize,
    ridden: u32,
    alight: u32,
}

impl Arrival {
    /// One hop further.
    pub fn ride(self, hop: &Hop) -> Arrival {
        Arrival { ridden: self.ridden + hop.penalty, alight: hop.stop + 1, ..self }
    }
}

/// The better of two, where there are two.
pub fn better(labels: &Labels, one: Option<Arrival>, other: Option<Arrival>) -> Option<Arrival> {
    match (one, other) {
        (Some(one), Some(other)) => Some(if labels.compare(other, one).is_lt() { other } else { one }),
        (one, other) => one.or(other),
    }
}

/// The undominated of these arrivals, each with its hop, in rising duration, and of one cost the best.
pub fn result(network: &Network, labels: &Labels, mut arrived: Vec<(usize, Arrival)>) -> Vec<Connection> {
    arrived.sort_by(|&(one, one_arrival), &(other, other_arrival)| {
        let arrive = |hop: usize| network.hops[hop].arrive;
        arrive(one).cmp(&arrive(other)).then_with(|| labels.compare(one_arrival, other_arrival))
    });
    let mut least = NONE;
    let mut rows = Vec::new();
    for (hop, arrival) in arrived {
        if labels.penalty(arrival) < least {
            least = labels.penalty(arrival);
            rows.push(labels.connection(network, arrival, &network.hops[hop]));
        }
    }
    rows
}

/// The rows of a query among all connections: a search of the whole timetable.
pub fn whole(network: &Network, query: Query) -> Vec<Connection> {
    let mut labels = Labels::default();
    let mut arrived: Vec<Option<Arrival>> = vec![None; network.hops.len()];
    let mut so_far: Vec<Vec<(usize, Option<Arrival>)>> = network.for_each_way((0, None));
    let begin = network.hops.partition_point(|hop| hop.depart < query.minute);
    for (at, hop) in network.hops.iter().enumerate().skip(begin) {
        let mut aboard = hop.before.and_then(|before| arrived[before]);
        if hop.boards && hop.from == query.from as usize {
            let begun = labels.begin(hop);
            aboard = better(&labels, aboard, Some(begun));
        }
        for (way, (seen, best)) in so_far[hop.from].iter_mut().enumerate() {
            for &other in network.early(hop, way, *seen) {
                *best = better(&labels, *best, arrived[other]);
            }
            *seen = hop.early[way];
            if let Some(best) = best.filter(|_| hop.boards) {
                let changed = labels.change(best, hop, network.ways_to[hop.from][way].penalty);
                aboard = better(&labels, aboard, Some(changed));
            }
        }
        arrived[at] = aboard.map(|arrival| arrival.ride(hop));
    }
    let ends = network.arrivals(query.to as usize).iter();
    let ended = |&at: &usize| arrived[at].map(|arrival| (at, arrival));
    result(network, &labels, ends.filter_map(ended).collect())
}
