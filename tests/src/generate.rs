//! Timetables that are right by their making: every choice is open that document 01 leaves open.

mod chosen;
mod every;
mod extreme;
#[cfg(test)]
mod tests;
mod variants;

pub use crate::generate::every::{every_marking, every_timetable, every_trip};
pub use crate::generate::extreme::{
    diamonds_behind_shuttles, long_lines, long_trip, most_rows, one_way, overtaking, rows_without_changes, Diamonds,
    DIRECT_ROWS_MOST, TELLING_PLACES,
};
pub use crate::generate::variants::{marked, walked, with_gaps, with_platforms, with_walks};

use std::ops::RangeInclusive;

use crate::generate::chosen::{moments, rides_at, spare, station, trip, trip_on, varied_moments, varied_way, way, Way};
use crate::generate::variants::marked_and_walked_or_not;
use crate::random::Random;
use crate::timetable::{Station, Timetable, STATIONS_MOST, STOPS_MOST, TRIPS_MOST};

/// How large a timetable is to be. The count of stops in all is kept in any case.
pub struct Size {
    pub stations: RangeInclusive<usize>,
    pub trips: RangeInclusive<usize>,
    pub stops_of_a_trip: RangeInclusive<usize>,
}

pub const SMALL: Size = Size { stations: 1..=4, trips: 0..=3, stops_of_a_trip: 2..=4 };
pub const MIDDLING: Size = Size { stations: 1..=20, trips: 0..=20, stops_of_a_trip: 2..=12 };
/// For `crowded`.
pub const CROWDED: Size = Size { stations: 2..=4, trips: 0..=7, stops_of_a_trip: 2..=6 };
/// For `changing`.
pub const CHANGING: Size = Size { stations: 2..=6, trips: 3..=12, stops_of_a_trip: 2..=5 };
/// For `changing`, at the limits.
pub const BUSY: Size = Size { stations: 64..=64, trips: 256..=256, stops_of_a_trip: 8..=8 };
pub const LARGE: Size = Size { stations: 40..=64, trips: 100..=256, stops_of_a_trip: 2..=16 };

pub fn timetable(random: &mut Random, size: &Size) -> Timetable {
    let stations = random.within(size.stations.clone());
    let trips = random.within(size.trips.clone());
    let mut stops_left = STOPS_MOST;
    let mut lengths = Vec::new();
    while stations > 1 && lengths.len() < trips && stops_left > 1 {
        let stops = random.within(size.stops_of_a_trip.clone()).min(stops_left);
        lengths.push(stops);
        stops_left -= stops;
    }
    let plain = with_trips(random, stations, &lengths);
    marked_and_walked_or_not(random, plain)
}

/// 64 stations, 256 trips, 2,048 stops; one trip may have most of the stops. Every stop has mark 0.
pub fn largest(random: &mut Random) -> Timetable {
    let mut lengths = [2; TRIPS_MOST];
    let favourites = random.within(1..=TRIPS_MOST);
    for _ in 2 * TRIPS_MOST..STOPS_MOST {
        lengths[random.below(favourites)] += 1;
    }
    with_trips(random, STATIONS_MOST, &lengths)
}

/// A timetable with trips of the given numbers of stops, which are at least 2 and have mark 0.
pub fn with_trips(random: &mut Random, stations: usize, lengths: &[usize]) -> Timetable {
    let values = (0..stations).map(|_| station(random)).collect();
    Timetable::new(values, lengths.iter().map(|&stops| trip(random, stations, stops)))
}

/// A timetable of few ways, alike or almost so, with trips that run a little before or behind one another.
pub fn with_shared_ways(random: &mut Random, size: &Size) -> Timetable {
    let stations = random.within(size.stations.clone()).max(2);
    let mut ways = vec![way(random, stations, size)];
    for _ in 0..random.below(4) {
        let next = if random.one_in(4) { way(random, stations, size) } else { varied_way(random, stations, &ways) };
        ways.push(next);
    }
    let mut days: Vec<Vec<u16>> = ways.iter().map(|way| moments(random, way.len() - 1)).collect();
    let mut stops_left = STOPS_MOST;
    let mut trips = Vec::new();
    for _ in 0..random.within(size.trips.clone()) {
        let chosen = random.below(ways.len());
        if ways[chosen].len() > stops_left {
            break;
        }
        stops_left -= ways[chosen].len();
        let moments = varied_moments(random, &days[chosen]);
        trips.push(trip_on(&ways[chosen], &rides_at(&moments)));
        if random.one_in(3) {
            days[chosen] = moments;
        }
    }
    let plain = Timetable::new((0..stations).map(|_| station(random)).collect(), trips);
    marked_and_walked_or_not(random, plain)
}

/// A timetable whose trips all run within a few minutes, by a few ways of small penalties: many rides cost the same.
pub fn crowded(random: &mut Random, size: &Size) -> Timetable {
    let stations = random.within(size.stations.clone()).max(2);
    let ways: Vec<Way> = (0..random.within(1..=3)).map(|_| way(random, stations, size)).collect();
    let width = random.pick(&[1, 2, 4, 8]);
    let latest = usize::from(spare(size.stops_of_a_trip.end() - 1)) + 1 - width;
    let begin = random.pick(&[0, 1, 480, latest]);
    let mut trips = Vec::new();
    for _ in 0..random.within(size.trips.clone()) {
        let way = &ways[random.below(ways.len())];
        let mut moments: Vec<u16> = (0..2 * (way.len() - 1)).map(|_| (begin + random.below(width)) as u16).collect();
        moments.sort_unstable();
        trips.push(trip_on(way, &rides_at(&moments)));
    }
    let plain = Timetable::new((0..stations).map(|_| station(random)).collect(), trips);
    marked_and_walked_or_not(random, plain)
}

/// A timetable in which changing often pays: its trips run within a few minutes, by ways of their own and small
/// penalties, and changes take little and cost little.
pub fn changing(random: &mut Random, size: &Size) -> Timetable {
    let stations = random.within(size.stations.clone()).max(2);
    let width = random.pick(&[2, 6, 12, 24, 40]);
    let latest = usize::from(spare(size.stops_of_a_trip.end() - 1)) + 1 - width;
    let begin = random.pick(&[0, 1, 480, latest]);
    let mut trips = Vec::new();
    for _ in 0..random.within(size.trips.clone()) {
        let way = way(random, stations, size);
        let mut moments: Vec<u16> = (0..2 * (way.len() - 1)).map(|_| (begin + random.below(width)) as u16).collect();
        moments.sort_unstable();
        trips.push(trip_on(&way, &rides_at(&moments)));
    }
    let quick =
        |_| Station { change_minutes: random.pick(&[0, 0, 0, 1, 2]), change_penalty: random.pick(&[1, 1, 2, 3]) };
    let plain = Timetable::new((0..stations).map(quick).collect(), trips);
    marked_and_walked_or_not(random, plain)
}

/// Any small timetable: with lines of several trips and of one, overtaken trips, equal times and stations met twice,
/// under numbers that may have gaps.
pub fn any_timetable(random: &mut Random) -> Timetable {
    let timetable = match random.below(4) {
        0 => timetable(random, &SMALL),
        1 => with_shared_ways(random, &SMALL),
        _ => crowded(random, &CROWDED),
    };
    with_gaps(random, &timetable)
}

/// 64 stations and 16 routes of 8 stops between four towns and the villages, each with so many trips out and back in a
/// day, at most 8. With 8 the timetable is at its limits.
pub fn rural(random: &mut Random, rounds: usize) -> Timetable {
    let mut trips = Vec::new();
    for _ in 0..16 {
        let towns = [0, 1].map(|_| random.within(1..=4));
        let mut way: Way = vec![(towns[0], 0)];
        for _ in 0..6 {
            let last = way[way.len() - 1].0;
            let next = random.within(5..=STATIONS_MOST);
            way.push((if next == last { next % 60 + 5 } else { next }, 0));
        }
        way.push((towns[1], 0));
        way.iter_mut().for_each(|stop| stop.1 = random.below(6) as u16);
        let minutes: Vec<u16> = (0..7).map(|_| random.within(3..=12) as u16).collect();
        let back: Way = way.iter().rev().copied().collect();
        let every = 960 / rounds;
        for round in 0..rounds {
            let begin = 300 + round * every + random.below(every);
            for (way, begin) in [(&way, begin), (&back, begin + random.within(60..=120))] {
                let mut now = begin as u16;
                let rides: Vec<(u16, u16)> = (minutes.iter())
                    .map(|&ride| {
                        let depart = now + u16::from(random.one_in(3));
                        now = depart + ride;
                        (depart, now)
                    })
                    .collect();
                trips.push(trip_on(way, &rides));
            }
        }
    }
    let mut station =
        |_| Station { change_minutes: random.within(2..=6) as u16, change_penalty: random.within(5..=20) as u16 };
    Timetable::new((0..STATIONS_MOST).map(&mut station).collect(), trips)
}
