//! Texts of timetables that a test writes down number by number.

use crate::timetable::{Onward, Station, Stop, Timetable, BOTH, RIDE_PENALTY_MOST};

/// Station, arrival, departure and ride penalty of a stop. No arrival counts at a trip's first stop, and neither of the
/// others at its last.
pub type Numbers = (u16, u16, u16, u16);

/// A text of stations by change minutes and change penalty, and of trips by the numbers of each stop.
pub fn text(stations: &[(u16, u16)], trips: &[&[Numbers]]) -> String {
    let station = |&(change_minutes, change_penalty): &(u16, u16)| Station { change_minutes, change_penalty };
    let stop = |stops: &[Numbers], place: usize| {
        let (station, arrive, depart, penalty) = stops[place];
        Stop {
            station,
            arrive: (place > 0).then_some(arrive),
            onward: (place + 1 < stops.len()).then_some(Onward { depart, penalty }),
            mark: BOTH,
        }
    };
    let trips = trips.iter().map(|stops| (0..stops.len()).map(|place| stop(stops, place)).collect());
    Timetable::new(stations.iter().map(station).collect(), trips).to_string()
}

/// A trip of two stops.
pub type Hop = [Numbers; 2];

pub fn hop(from: u16, to: u16, depart: u16, arrive: u16, penalty: u16) -> Hop {
    [(from, 0, depart, penalty), (to, arrive, 0, 0)]
}

/// As `text`, where all trips are of two stops.
pub fn text_of_hops(stations: &[(u16, u16)], hops: &[Hop]) -> String {
    text(stations, &hops.iter().map(|hop| &hop[..]).collect::<Vec<_>>())
}

/// A trip from one station to another by stations 3 and 4 in turn, whose ride penalties add up to so much: 100 at each
/// stop, as long as there is so much left. It rides a minute from each stop to the next, and then to its last until
/// `arrive`.
pub fn detour(from: u16, to: u16, depart: u16, arrive: u16, penalty: u32) -> Vec<Numbers> {
    let rides = penalty.div_ceil(RIDE_PENALTY_MOST.into()).max(1) as u16;
    let stop = |place: u16| {
        let left = penalty - u32::from(place) * u32::from(RIDE_PENALTY_MOST);
        let station = if place == 0 { from } else { 3 + place % 2 };
        (station, depart + place, depart + place, left.min(RIDE_PENALTY_MOST.into()) as u16)
    };
    (0..rides).map(stop).chain([(to, arrive, 0, 0)]).collect()
}

/// Penalties of a quick and of a slow ride, around what a word of 16 bits tells, and whether both are shown: the slow
/// one only if it is cheaper.
pub const PENALTIES_PAST_A_WORD: [(u32, u32, bool); 9] = [
    (65_546, 65_000, true),
    (65_000, 65_546, false),
    (65_541, 5, true),
    (5, 65_541, false),
    (65_536, 0, true),
    (65_536, 65_535, true),
    (65_535, 65_536, false),
    (131_082, 65_546, true),
    (65_546, 131_082, false),
];
