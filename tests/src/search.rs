//! Connections of timetables that are too large for a list. A rider who arrives by one bus has one time of arrival: so
//! of all ways to arrive by it only those of the least penalty matter, and these are found in the order of departures.

mod patterns;
mod rows;

pub use crate::search::patterns::{patterns, Patterns};
pub use crate::search::rows::{better, result, whole, Arrival, Labels};

use std::collections::{BTreeSet, HashMap};

use crate::connections::{ways, Rule, Way};
use crate::timetable::Timetable;

/// A trip's way from one stop to the next.
pub struct Hop {
    pub trip: u32,
    /// The stop that is left, counted from 1.
    pub stop: u32,
    pub from: usize,
    pub to: usize,
    pub depart: u32,
    pub arrive: u32,
    pub penalty: u32,
    /// Whether one may board it, and whether one may alight from it. Who is aboard may stay in any case.
    pub boards: bool,
    alights: bool,
    /// The trip's hop before this one.
    before: Option<usize>,
    /// For each way of changing to where it departs, how many of the arrivals where that begins are early enough.
    early: Vec<usize>,
    /// Its place among the arrivals where it arrives, if one may alight from it.
    place: usize,
}

impl Hop {
    pub fn before(&self) -> Option<usize> {
        self.before
    }
}

/// The hops of a timetable by departure. A hop takes a minute or more, so that all ways to a departure come before it.
pub struct Network {
    pub hops: Vec<Hop>,
    /// For each station, counted from 1, the hops from which one may alight there, by arrival.
    arrivals: Vec<Vec<usize>>,
    /// For each station the ways of changing that end there.
    ways_to: Vec<Vec<Way>>,
    /// For each station those that begin there: the station where each ends, and its place among those to it.
    ways_from: Vec<Vec<(usize, usize)>>,
}

impl Network {
    pub fn new(timetable: &Timetable) -> Network {
        Network::by(timetable, Rule::WalkFirst)
    }

    /// As `new`, by either rule.
    pub fn by(timetable: &Timetable, rule: Rule) -> Network {
        let mut hops = Vec::new();
        for (&trip, stops) in &timetable.trips {
            for (stop, ends) in (1..).zip(stops.windows(2)) {
                let onward = ends[0].onward.expect("only a trip's last stop has no ride from it");
                hops.push(Hop {
                    trip: trip.into(),
                    stop,
                    from: ends[0].station.into(),
                    to: ends[1].station.into(),
                    depart: onward.depart.into(),
                    arrive: ends[1].arrive.expect("only a trip's first stop has no arrival").into(),
                    penalty: onward.penalty.into(),
                    boards: ends[0].may_board(),
                    alights: ends[1].may_alight(),
                    before: None,
                    early: Vec::new(),
                    place: 0,
                });
            }
        }
        hops.sort_by_key(|hop| hop.depart);
        let places: HashMap<(u32, u32), usize> = (0..).zip(&hops).map(|(at, hop)| ((hop.trip, hop.stop), at)).collect();
        let mut arrivals = vec![Vec::new(); timetable.stations.len() + 1];
        for (at, hop) in hops.iter_mut().enumerate() {
            hop.before = places.get(&(hop.trip, hop.stop - 1)).copied();
            if hop.alights {
                arrivals[hop.to].push(at);
            }
        }
        let mut ways_to: Vec<Vec<Way>> = vec![Vec::new(); timetable.stations.len() + 1];
        let mut ways_from = vec![Vec::new(); timetable.stations.len() + 1];
        for way in ways(timetable, rule) {
            let to = usize::from(way.to);
            ways_from[usize::from(way.from)].push((to, ways_to[to].len()));
            ways_to[to].push(way);
        }
        for arrivals in &mut arrivals {
            arrivals.sort_by_key(|&at| hops[at].arrive);
            for (place, &at) in arrivals.iter().enumerate() {
                hops[at].place = place;
            }
        }
        for at in 0..hops.len() {
            let early = |way: &Way| {
                let in_time = |&other: &usize| hops[other].arrive + way.minutes <= hops[at].depart;
                arrivals[usize::from(way.from)].partition_point(in_time)
            };
            hops[at].early = ways_to[hops[at].from].iter().map(early).collect();
        }
        Network { hops, arrivals, ways_to, ways_from }
    }

    pub fn stations(&self) -> usize {
        self.arrivals.len() - 1
    }

    /// The hops from which one may alight at a station, by arrival.
    pub fn arrivals(&self, station: usize) -> &[usize] {
        &self.arrivals[station]
    }

    /// The ways of changing that end at a station.
    pub fn ways_to(&self, station: usize) -> &[Way] {
        &self.ways_to[station]
    }

    /// The arrivals that are early enough to change to a hop by the way at this place among those to where it departs,
    /// but for the first so many, which are.
    pub fn early(&self, hop: &Hop, way: usize, seen: usize) -> &[usize] {
        let from = usize::from(self.ways_to[hop.from][way].from);
        &self.arrivals[from][seen..hop.early[way]]
    }

    /// For each way of changing, by the station where it ends, what is known before any hop.
    fn for_each_way<A: Clone>(&self, nothing: A) -> Vec<Vec<A>> {
        self.ways_to.iter().map(|ways| vec![nothing.clone(); ways.len()]).collect()
    }

    /// The minutes at which something departs from a station that may be boarded there.
    pub fn minutes(&self, station: u32) -> BTreeSet<u32> {
        self.hops.iter().filter(|hop| hop.from == station as usize && hop.boards).map(|hop| hop.depart).collect()
    }
}

const NONE: u32 = u32::MAX;

#[cfg(test)]
mod tests {
    use super::*;
    use crate::connections::{list_by, rows, Connection};
    use crate::direct::Query;
    use crate::generate::{changing, crowded, timetable, Diamonds, CHANGING, CROWDED, SMALL};
    use crate::random::Random;
    use crate::store;

    const MOST: usize = 3_000;

    /// Compares the store and the rows of all queries from each station; how many patterns had changes.
    fn compare(timetable: &Timetable, rule: Rule) -> Option<usize> {
        let network = Network::by(timetable, rule);
        let mut changed = 0;
        for source in 1..=timetable.stations.len() as u32 {
            let list = list_by(timetable, source, MOST, rule)?;
            let sequences = store::by_list(&list, source);
            let patterns = patterns(&network, source).expect("few patterns");
            assert_eq!(Some(patterns.to_words()), store::to_words(&sequences), "source {source} of\n{timetable}");
            changed += sequences.iter().filter(|(changes, _)| !changes.is_empty()).count();
            for to in (1..=timetable.stations.len() as u32).filter(|&to| to != source) {
                for &departure in &network.minutes(source) {
                    for minute in [departure, departure + 1] {
                        let query = Query { from: source, to, minute };
                        let feasible =
                            |connection: &&Connection| u32::from(connection.to) == to && connection.depart >= minute;
                        let listed = rows(list.iter().filter(feasible), minute);
                        assert_eq!(whole(&network, query), listed, "{query:?} of\n{timetable}");
                    }
                }
            }
        }
        Some(changed)
    }

    #[test]
    fn the_search_finds_what_the_list_has() {
        let mut random = Random::new(1);
        let (mut changed, mut compared, mut marked) = (0, 0, 0);
        for _ in 0..400 {
            for timetable in
                [changing(&mut random, &CHANGING), crowded(&mut random, &CROWDED), timetable(&mut random, &SMALL)]
            {
                // by the former rule too, which the page of what differs rests on
                compare(&timetable, Rule::BothOpen);
                if let Some(more) = compare(&timetable, Rule::WalkFirst) {
                    changed += more;
                    compared += 1;
                    marked += usize::from(timetable.is_marked());
                }
            }
        }
        assert!(compared > 900 && changed > 1_000 && marked > 300, "{compared}, {changed}, {marked}");
    }

    #[test]
    fn the_search_finds_the_patterns_of_diamonds() {
        for (count, late, beyond, chain) in
            [(1, false, false, 0), (2, true, true, 3), (4, true, true, 2), (5, false, true, 1)]
        {
            let timetable = Diamonds { count, late, beyond, chain }.timetable();
            assert!(compare(&timetable, Rule::WalkFirst).is_some());
        }
    }
}
