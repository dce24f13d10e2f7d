//! What timetables are put together from, chosen at random: stations, ways, moments, trips.

use crate::generate::Size;
use crate::random::Random;
use crate::timetable::{
    Onward, Station, Stop, BOTH, CHANGE_MINUTES_MOST, CHANGE_PENALTY_LEAST, CHANGE_PENALTY_MOST, LAST_MINUTE,
    RIDE_PENALTY_MOST,
};

/// Station and ride penalty of each stop; the last penalty is none of a ride's.
pub type Way = Vec<(usize, u16)>;

pub fn way(random: &mut Random, stations: usize, size: &Size) -> Way {
    let mut station = random.within(1..=stations);
    let mut way = Vec::new();
    for _ in 0..random.within(size.stops_of_a_trip.clone()) {
        way.push((station, random.below(3) as u16));
        station = another(random, stations, station);
    }
    way
}

/// One of the ways with another penalty, another last station, or without its last stop.
pub fn varied_way(random: &mut Random, stations: usize, ways: &[Way]) -> Way {
    let mut way = ways[random.below(ways.len())].clone();
    let last = way.len() - 1;
    match random.below(3) {
        0 => way[random.below(last)].1 += 1,
        1 => way[last].0 = another(random, stations, way[last - 1].0),
        _ if last > 1 => way.truncate(last),
        _ => way[0].1 += 3,
    }
    way
}

/// The same moments, or all of them later, or one or each moved by a little, or others.
pub fn varied_moments(random: &mut Random, before: &[u16]) -> Vec<u16> {
    let latest = spare(before.len() / 2);
    let mut moments = before.to_vec();
    match random.below(8) {
        0 => {}
        1 | 2 => {
            let later = random.within(1..=20) as u16;
            moments.iter_mut().for_each(|moment| *moment = (*moment + later).min(latest));
        }
        3..=5 => {
            let moved = random.below(moments.len());
            moments[moved] = nearby(random, moments[moved], latest);
        }
        6 => moments.iter_mut().for_each(|moment| *moment = nearby(random, *moment, latest)),
        _ => return self::moments(random, before.len() / 2),
    }
    moments.sort_unstable();
    moments
}

fn nearby(random: &mut Random, moment: u16, latest: u16) -> u16 {
    (moment + random.below(5) as u16).saturating_sub(2).min(latest)
}

pub fn trip_on(way: &[(usize, u16)], rides: &[(u16, u16)]) -> Vec<Stop> {
    let stop = |(place, &(station, penalty)): (usize, &(usize, u16))| Stop {
        station: station as u16,
        arrive: (place > 0).then(|| rides[place - 1].1),
        onward: rides.get(place).map(|&(depart, _)| Onward { depart, penalty }),
        mark: BOTH,
    };
    way.iter().enumerate().map(stop).collect()
}

pub fn station(random: &mut Random) -> Station {
    Station {
        change_minutes: value(random, 0, CHANGE_MINUTES_MOST),
        change_penalty: value(random, CHANGE_PENALTY_LEAST, CHANGE_PENALTY_MOST),
    }
}

/// A value from least to most: often one of the two, or next to them.
fn value(random: &mut Random, least: u16, most: u16) -> u16 {
    match random.below(6) {
        0 => least,
        1 => most,
        2 => least + 1,
        3 => most - 1,
        _ => random.within(usize::from(least)..=usize::from(most)) as u16,
    }
}

pub fn trip(random: &mut Random, stations: usize, stops: usize) -> Vec<Stop> {
    let mut station = random.within(1..=stations);
    let mut arrive = None;
    let mut trip = Vec::new();
    for (depart, next_arrive) in rides(random, stops - 1) {
        let onward = Some(Onward { depart, penalty: value(random, 0, RIDE_PENALTY_MOST) });
        trip.push(Stop { station: station as u16, arrive, onward, mark: BOTH });
        arrive = Some(next_arrive);
        station = another(random, stations, station);
    }
    trip.push(Stop { station: station as u16, arrive, onward: None, mark: BOTH });
    trip
}

/// A station other than the one given.
fn another(random: &mut Random, stations: usize, station: usize) -> usize {
    (station + random.below(stations - 1)) % stations + 1
}

/// Departure and arrival of each ride of a trip.
pub fn rides(random: &mut Random, count: usize) -> Vec<(u16, u16)> {
    let moments = moments(random, count);
    rides_at(&moments)
}

/// A moment for each departure and arrival of a trip of `count` rides, none before the one in front of it.
pub fn moments(random: &mut Random, count: usize) -> Vec<u16> {
    let (earliest, latest) = span(random, spare(count));
    let mut moments: Vec<u16> =
        (0..2 * count).map(|_| random.within(usize::from(earliest)..=usize::from(latest)) as u16).collect();
    moments.sort_unstable();
    moments
}

/// The minutes of two days that are left over where each of the rides takes one.
pub fn spare(rides: usize) -> u16 {
    LAST_MINUTE - rides as u16
}

/// The rides at these moments: a ride takes a minute or more, a wait may take none.
pub fn rides_at(moments: &[u16]) -> Vec<(u16, u16)> {
    let ride = |(before, ends): (u16, &[u16])| (ends[0] + before, ends[1] + before + 1);
    (0..).zip(moments.chunks(2)).map(ride).collect()
}

/// Some span of the minutes from 0 to `spare`: the whole, its very beginning or end, or any.
fn span(random: &mut Random, spare: u16) -> (u16, u16) {
    match random.below(5) {
        0 => (0, spare),
        1 => (0, 0),
        2 => (spare, spare),
        _ => {
            let one = random.within(0..=usize::from(spare)) as u16;
            let other = random.within(0..=usize::from(spare)) as u16;
            (one.min(other), one.max(other))
        }
    }
}
