//! The timetable in words, as docs/LAYOUT.md lays it out, and question 9.

use std::collections::BTreeMap;

use crate::reference;
use crate::timetable::{Onward, Station, Stop, Timetable, Walk};

/// What a lent timetable slice must have room for: question 8.
pub const TIMETABLE_WORDS: usize = 16_384;
/// The words of a stop: station, arrive, depart, ride penalty, mark.
pub const STOP_WORDS: usize = 5;
/// The words of a walk: from, to, minutes, penalty.
pub const WALK_WORDS: usize = 4;
/// No timetable has more words than these, by docs/LAYOUT.md.
pub const TIMETABLE_WORDS_MOST: usize = 11_973;

pub fn to_words(timetable: &Timetable) -> Vec<u16> {
    let mut words = [timetable.stations.len(), timetable.trips.len(), timetable.stops()].map(word).to_vec();
    for station in &timetable.stations {
        words.extend([station.change_minutes, station.change_penalty]);
    }
    for stop in timetable.trips.values().flatten() {
        let (depart, penalty) = stop.onward.map_or((0, 0), |onward| (onward.depart, onward.penalty));
        words.extend([stop.station, stop.arrive.unwrap_or(0), depart, penalty, stop.mark]);
    }
    let mut first = 0;
    for trip in timetable.trips.values() {
        words.push(word(first));
        first += trip.len();
    }
    words.push(word(first));
    words.extend(timetable.trips.keys());
    let walks_to = |station: usize| timetable.walks.iter().filter(|walk| usize::from(walk.from) <= station).count();
    words.extend((0..=timetable.stations.len()).map(|station| word(walks_to(station))));
    words.extend(timetable.walks.iter().flat_map(|walk| [walk.from, walk.to, walk.minutes, walk.penalty]));
    words
}

/// Where in the words of a timetable the numbers of its trips begin.
pub fn numbers_place(timetable: &Timetable) -> usize {
    let starts = 3 + 2 * timetable.stations.len() + STOP_WORDS * timetable.stops();
    starts + timetable.trips.len() + 1
}

pub(crate) fn word(number: usize) -> u16 {
    u16::try_from(number).expect("a count that fits a word")
}

/// The timetable of a table at the start of `words`, if reading, cancelling and adding can lead to it.
///
/// Nothing is judged here but whether the words can be taken apart: the lines that they would have are written out, and
/// the reader decides whether these lead back to the same words.
pub fn timetable_of(words: &[u16]) -> Option<Timetable> {
    let timetable = reference::led_to(&from_words(words)?)?;
    words.starts_with(&to_words(&timetable)).then_some(timetable)
}

fn from_words(words: &[u16]) -> Option<Timetable> {
    let (&[count, trips, stops], mut rest) = words.split_first_chunk()?;
    let stations = take(&mut rest, 2 * usize::from(count))?;
    let stops: Vec<&[u16]> = take(&mut rest, STOP_WORDS * usize::from(stops))?.chunks(STOP_WORDS).collect();
    let firsts = take(&mut rest, usize::from(trips) + 1)?;
    let numbers = take(&mut rest, usize::from(trips))?;
    let walks = *take(&mut rest, usize::from(count) + 1)?.last().expect("one count at least");
    let walks = take(&mut rest, WALK_WORDS * usize::from(walks))?;
    let trip = |ends: &[u16]| stops.get(usize::from(ends[0])..usize::from(ends[1])).map(trip_from_words);
    let trips: Option<BTreeMap<u16, Vec<Stop>>> =
        numbers.iter().zip(firsts.windows(2)).map(|(&number, ends)| Some((number, trip(ends)?))).collect();
    Some(Timetable {
        stations: stations.chunks(2).map(station_from_words).collect(),
        walks: walks.chunks(WALK_WORDS).map(walk_from_words).collect(),
        trips: trips?,
    })
}

pub(crate) fn take<'a>(words: &mut &'a [u16], count: usize) -> Option<&'a [u16]> {
    let (taken, rest) = words.split_at_checked(count)?;
    *words = rest;
    Some(taken)
}

fn station_from_words(words: &[u16]) -> Station {
    Station { change_minutes: words[0], change_penalty: words[1] }
}

fn walk_from_words(words: &[u16]) -> Walk {
    Walk { from: words[0], to: words[1], minutes: words[2], penalty: words[3] }
}

fn trip_from_words(stops: &[&[u16]]) -> Vec<Stop> {
    let stop = |(place, words): (usize, &&[u16])| Stop {
        station: words[0],
        arrive: (place > 0).then_some(words[1]),
        onward: (place + 1 < stops.len()).then_some(Onward { depart: words[2], penalty: words[3] }),
        mark: words[4],
    };
    stops.iter().enumerate().map(stop).collect()
}

#[cfg(test)]
mod tests {
    use super::*;
    use crate::generate::{timetable, with_gaps, with_trips, LARGE, MIDDLING, SMALL};
    use crate::random::Random;

    #[test]
    fn words_lead_back_to_their_timetables() {
        let mut random = Random::new(1);
        for (size, count) in [(SMALL, 500), (MIDDLING, 200), (LARGE, 20)] {
            for _ in 0..count {
                let gapless = timetable(&mut random, &size);
                let timetable = with_gaps(&mut random, &gapless);
                let mut words = to_words(&timetable);
                let length = words.len();
                words.push(random.word());
                assert_eq!(timetable_of(&words), Some(timetable));
                assert_eq!(timetable_of(&words[..length - 1]), None);
            }
        }
    }

    #[test]
    fn numbers_rise_from_1_to_9999() {
        let mut random = Random::new(2);
        let trips = with_trips(&mut random, 2, &[2, 2]);
        let words = to_words(&trips);
        let first = numbers_place(&trips);
        for (numbers, yes) in [
            ([1, 2], true),
            ([1, 9_999], true),
            ([9_998, 9_999], true),
            ([0, 1], false),
            ([2, 2], false),
            ([2, 1], false),
            ([9_999, 10_000], false),
            ([1, 65_535], false),
        ] {
            let mut words = words.clone();
            words[first..first + 2].copy_from_slice(&numbers);
            assert_eq!(timetable_of(&words).is_some(), yes, "{numbers:?}");
        }
    }
}
