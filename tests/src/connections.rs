//! Connections, written from document 01's "Connections and cost" and "The planner's list": every feasible connection
//! is listed, and the list is looked through. No table but the timetable enters into it.

use std::cmp::{Ordering, Reverse};
use std::collections::BTreeMap;

use crate::timetable::{Station, Stop, Timetable, Walk};

/// What a pattern names of a change: the station alighted at and the one boarded at.
pub type Transfer = (u16, u16);

/// A way of changing: "a change is made either at the station itself or by walking".
#[derive(Clone, Copy, Debug, PartialEq, Eq)]
pub struct Way {
    pub from: u16,
    pub to: u16,
    pub minutes: u32,
    pub penalty: u32,
}

/// What an S line counts for at a station that has a W line from it to itself.
#[derive(Clone, Copy, Debug, PartialEq, Eq)]
pub enum Rule {
    /// Document 02, One: "both ways of changing are open". No call follows it any more.
    BothOpen,
    /// Document 02, Nine: "such a W line goes first: the S values do not apply to changes there".
    WalkFirst,
}

/// All ways of changing.
pub fn ways(timetable: &Timetable, rule: Rule) -> Vec<Way> {
    let here = |(number, station): (u16, &Station)| Way {
        from: number,
        to: number,
        minutes: station.change_minutes.into(),
        penalty: station.change_penalty.into(),
    };
    let on_foot =
        |walk: &Walk| Way { from: walk.from, to: walk.to, minutes: walk.minutes.into(), penalty: walk.penalty.into() };
    let applies = |&(number, _): &(u16, &Station)| rule == Rule::BothOpen || timetable.along(number).is_none();
    let own = (1..).zip(&timetable.stations).filter(applies).map(here);
    own.chain(timetable.walks.iter().map(on_foot)).collect()
}

/// One or more rides from a station, with the changes between them.
#[derive(Clone, Debug, PartialEq, Eq)]
pub struct Connection {
    pub depart: u32,
    pub arrive: u32,
    pub penalty: u32,
    /// Trip, boarding stop, alighting stop of each. Stops count from 1, a trip has a number of its own.
    pub rides: Vec<[u32; 3]>,
    /// The stations alighted and boarded at for each change, in order.
    pub changes: Vec<Transfer>,
    pub to: u16,
}

impl Connection {
    /// "Duration is last arrival minus t."
    pub fn cost(&self, minute: u32) -> (u32, u32) {
        (self.arrive - minute, self.penalty)
    }

    /// Whether it has a change on foot to another station.
    pub fn is_on_foot(&self) -> bool {
        self.changes.iter().any(|(alighted, boarded)| alighted != boarded)
    }

    /// The kinds of the walks along platforms that it has changes by.
    pub fn platforms<'a>(&'a self, timetable: &'a Timetable) -> impl Iterator<Item = (Ordering, Ordering)> + 'a {
        let along = self.changes.iter().filter(|(alighted, boarded)| alighted == boarded);
        along.filter_map(|&(station, _)| timetable.platform_kind(station))
    }

    /// Of connections of equal cost the first by this is shown: it "departs latest. Then it has fewest rides. Then its
    /// rides (trip, boarding stop, alighting stop) come first, compared number by number".
    pub fn rank(&self) -> impl Ord + '_ {
        (Reverse(self.depart), self.rides.len(), &self.rides)
    }
}

/// "Neither part is larger and one is smaller."
pub fn dominates(one: (u32, u32), other: (u32, u32)) -> bool {
    let larger = one.0 > other.0 || one.1 > other.1;
    let smaller = one.0 < other.0 || one.1 < other.1;
    !larger && smaller
}

/// A trip, a stop to board at and a later stop to alight at, both as their marks allow it.
struct Ride {
    numbers: [u32; 3],
    from: u16,
    to: u16,
    depart: u32,
    arrive: u32,
    penalty: u32,
}

fn rides(timetable: &Timetable) -> Vec<Ride> {
    let mut rides = Vec::new();
    for (&trip, stops) in &timetable.trips {
        for board in (0..stops.len() - 1).filter(|&board| stops[board].may_board()) {
            for alight in (board + 1..stops.len()).filter(|&alight| stops[alight].may_alight()) {
                let onward = |stop: &Stop| stop.onward.expect("a stop ridden from is not its trip's last");
                let penalty = stops[board..alight].iter().map(|stop| u32::from(onward(stop).penalty)).sum();
                rides.push(Ride {
                    numbers: [trip.into(), board as u32 + 1, alight as u32 + 1],
                    from: stops[board].station,
                    to: stops[alight].station,
                    depart: onward(&stops[board]).depart.into(),
                    arrive: stops[alight].arrive.expect("a stop to alight at is not its trip's first").into(),
                    penalty,
                });
            }
        }
    }
    rides
}

/// Every connection from a station to any, unless they are more than `most`, or the timetable has more rides than that.
/// Those that are feasible at a minute are those that depart then or later.
pub fn list(timetable: &Timetable, from: u32, most: usize) -> Option<Vec<Connection>> {
    list_by(timetable, from, most, Rule::WalkFirst)
}

/// As `list`, by either rule.
pub fn list_by(timetable: &Timetable, from: u32, most: usize, rule: Rule) -> Option<Vec<Connection>> {
    if timetable.trips.values().map(|stops| stops.len() * (stops.len() - 1) / 2).sum::<usize>() > most {
        return None;
    }
    let (rides, ways) = (rides(timetable), ways(timetable, rule));
    let alone = |ride: &Ride| Connection {
        depart: ride.depart,
        arrive: ride.arrive,
        penalty: ride.penalty,
        rides: vec![ride.numbers],
        changes: Vec::new(),
        to: ride.to,
    };
    let mut list: Vec<Connection> = rides.iter().filter(|ride| u32::from(ride.from) == from).map(alone).collect();
    let mut at = 0;
    while let Some(connection) = list.get(at).cloned() {
        if list.len() > most {
            return None;
        }
        for way in ways.iter().filter(|way| way.from == connection.to) {
            let ready = connection.arrive + way.minutes;
            for ride in rides.iter().filter(|ride| ride.from == way.to && ride.depart >= ready) {
                list.push(Connection {
                    arrive: ride.arrive,
                    penalty: connection.penalty + way.penalty + ride.penalty,
                    rides: [&connection.rides[..], &[ride.numbers]].concat(),
                    changes: [&connection.changes[..], &[(way.from, way.to)]].concat(),
                    to: ride.to,
                    ..connection
                });
            }
        }
        at += 1;
    }
    Some(list)
}

/// The costs that no cost of these connections dominates, in rising duration, with the connections that have them.
fn undominated<'a>(
    list: impl Iterator<Item = &'a Connection>,
    minute: u32,
) -> BTreeMap<(u32, u32), Vec<&'a Connection>> {
    let mut costs: BTreeMap<(u32, u32), Vec<&Connection>> = BTreeMap::new();
    for connection in list {
        costs.entry(connection.cost(minute)).or_default().push(connection);
    }
    let all: Vec<(u32, u32)> = costs.keys().copied().collect();
    costs.retain(|&cost, _| !all.iter().any(|&other| dominates(other, cost)));
    costs
}

/// "Optimal: no feasible connection for the query dominates it." The list is that of all feasible ones.
pub fn optimal<'a>(list: impl Iterator<Item = &'a Connection>, minute: u32) -> Vec<&'a Connection> {
    undominated(list, minute).into_values().flatten().collect()
}

/// The result of a list: each undominated cost, in rising duration, with the connection shown.
pub fn rows<'a>(list: impl Iterator<Item = &'a Connection>, minute: u32) -> Vec<Connection> {
    let shown = |tied: Vec<&Connection>| {
        tied.into_iter()
            .min_by(|one, other| one.rank().cmp(&other.rank()))
            .expect("a cost is some connection's")
            .clone()
    };
    undominated(list, minute).into_values().map(shown).collect()
}

/// The words of rows: "duration, penalty, number of rides, then trip, boarding stop, alighting stop per ride".
pub fn to_words(rows: &[Connection], minute: u32) -> Vec<u32> {
    let mut words = Vec::new();
    for row in rows {
        let (duration, penalty) = row.cost(minute);
        words.extend([duration, penalty, row.rides.len() as u32]);
        words.extend(row.rides.concat());
    }
    words
}

#[cfg(test)]
mod tests {
    use super::*;
    use crate::examples::M;
    use crate::reference::accepted;

    /// The ways from station 2 of M, with these W lines, as minutes and penalty.
    fn from_two(walks: &str, rule: Rule) -> Vec<(u16, u32, u32)> {
        let timetable = accepted(&M.replacen("T,", &format!("{walks}T,"), 1));
        let from = ways(&timetable, rule).into_iter().filter(|way| way.from == 2);
        from.map(|way| (way.to, way.minutes, way.penalty)).collect()
    }

    #[test]
    fn the_rules_differ_where_a_walk_leads_from_a_station_to_itself() {
        assert_eq!(from_two("W,2,2,4,15\n", Rule::BothOpen), [(2, 3, 10), (2, 4, 15)]);
        assert_eq!(from_two("W,2,2,4,15\n", Rule::WalkFirst), [(2, 4, 15)]);
        assert_eq!(from_two("W,2,2,1,1\nW,2,3,4,15\n", Rule::WalkFirst), [(2, 1, 1), (3, 4, 15)]);
        for rule in [Rule::BothOpen, Rule::WalkFirst] {
            assert_eq!(from_two("", rule), [(2, 3, 10)]);
            assert_eq!(from_two("W,1,1,1,1\nW,1,2,1,1\nW,2,3,4,15\n", rule), [(2, 3, 10), (3, 4, 15)]);
        }
    }
}
