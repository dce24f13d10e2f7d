//! Generated timetables are accepted, and are of the kinds that they are made for.

use std::cmp::Ordering;
use std::collections::{BTreeMap, BTreeSet};

use super::*;
use crate::direct::Query;
use crate::lines::lines;
use crate::reference::{led_to, read};
use crate::search::{whole, Network};
use crate::timetable::{trip_text, Stop, BOTH, RIDE_PENALTY_MOST};

#[test]
fn generated_timetables_read_back_from_their_texts() {
    let mut random = Random::new(1);
    for size in [SMALL, MIDDLING, LARGE] {
        for _ in 0..200 {
            let timetable = timetable(&mut random, &size);
            assert_eq!(read(&timetable.to_text()), Ok(timetable));
            let timetable = with_shared_ways(&mut random, &size);
            assert_eq!(read(&timetable.to_text()), Ok(timetable));
            let timetable = crowded(&mut random, &CROWDED);
            assert_eq!(read(&timetable.to_text()), Ok(timetable));
        }
    }
}

#[test]
fn timetables_with_changes_read_back_from_their_texts() {
    let mut random = Random::new(3);
    for _ in 0..200 {
        let timetable = changing(&mut random, &CHANGING);
        assert_eq!(read(&timetable.to_text()), Ok(timetable));
    }
    for timetable in [rural(&mut random, 8), changing(&mut random, &BUSY)] {
        assert_eq!((timetable.trips.len(), timetable.stops()), (TRIPS_MOST, STOPS_MOST));
        assert_eq!(read(&timetable.to_text()), Ok(timetable));
    }
    for (count, late) in [(1, false), (12, true), (20, true)] {
        let timetable = Diamonds { count, late, beyond: true, chain: 2 }.timetable();
        assert_eq!(timetable.stations.len(), 3 * count + 4);
        assert_eq!(read(&timetable.to_text()), Ok(timetable));
    }
}

#[test]
fn trips_keep_their_stops_under_other_numbers() {
    let mut random = Random::new(4);
    let (mut gaps, mut highest) = (0, 0);
    for _ in 0..500 {
        let timetable = timetable(&mut random, &MIDDLING);
        let other = with_gaps(&mut random, &timetable);
        assert_eq!(led_to(&other).as_ref(), Some(&other));
        let stops = |timetable: &Timetable| {
            let mut stops: Vec<String> = timetable.trips.values().map(|stops| trip_text(0, stops)).collect();
            stops.sort_unstable();
            stops
        };
        assert_eq!(stops(&other), stops(&timetable));
        let last = other.trips.last_key_value().map_or(0, |(&number, _)| number);
        gaps += usize::from(usize::from(last) > other.trips.len());
        highest = highest.max(last);
    }
    assert!(gaps > 200 && highest > 9_000, "{gaps}, {highest}");
}

#[test]
fn marks_of_all_kinds() {
    let mut random = Random::new(5);
    let (mut met, mut shared, mut split) = ([0; 3], 0, 0);
    let (mut no_boarding, mut no_alighting) = (0, 0);
    for _ in 0..500 {
        let unmarked = crowded(&mut random, &CROWDED);
        let marked = marked(&mut random, &unmarked);
        assert_eq!(read(&marked.to_text()).as_ref(), Ok(&marked));
        marked.trips.values().flatten().for_each(|stop| met[usize::from(stop.mark)] += 1);
        let mut bare = marked.clone();
        bare.trips.values_mut().flatten().for_each(|stop| stop.mark = BOTH);
        let [lines, bare_lines] = [&marked, &bare].map(lines);
        shared += usize::from(lines.iter().any(|line| line.len() > 1));
        split += usize::from(lines.len() > bare_lines.len());
        for station in 1..=marked.stations.len() as u16 {
            let calls: Vec<&Stop> = marked.trips.values().flatten().filter(|stop| stop.station == station).collect();
            no_boarding += usize::from(calls.len() > 1 && !calls.iter().any(|stop| stop.may_board()));
            no_alighting += usize::from(calls.len() > 1 && !calls.iter().any(|stop| stop.may_alight()));
        }
    }
    let counts = [met[0], met[1], met[2], shared, split, no_boarding, no_alighting];
    assert!(counts.iter().all(|&count| count > 50), "{counts:?}");
}

#[test]
fn platforms_of_all_kinds() {
    let mut random = Random::new(7);
    let mut met: BTreeMap<(Ordering, Ordering), usize> = BTreeMap::new();
    for _ in 0..200 {
        let plain = timetable(&mut random, &SMALL);
        let other = with_platforms(&mut random, &plain);
        assert_eq!(read(&other.to_text()).as_ref(), Ok(&other));
        assert_eq!(other.trips, plain.trips);
        let apart = |timetable: &Timetable| {
            timetable.walks.iter().filter(|walk| walk.from != walk.to).copied().collect::<Vec<_>>()
        };
        assert_eq!(apart(&other), apart(&plain));
        for number in 1..=other.stations.len() as u16 {
            if let Some(kind) = other.platform_kind(number) {
                *met.entry(kind).or_default() += 1;
            }
        }
    }
    assert!(met.len() == 9 && met.values().all(|&count| count > 10), "{met:?}");
}

#[test]
fn every_marking_once() {
    let mut random = Random::new(6);
    let timetable = with_trips(&mut random, 3, &[2, 3]);
    let every: BTreeSet<String> = every_marking(&timetable).map(|marked| marked.to_string()).collect();
    assert_eq!(every.len(), 243);
    assert!(every.iter().all(|text| read(text.as_bytes()).is_ok()));
}

#[test]
fn the_most_rows_read_back_from_their_text() {
    let timetable = most_rows();
    assert_eq!(timetable.trips[&1].len(), 2_044);
    assert_eq!(read(&timetable.to_text()), Ok(timetable));
}

#[test]
fn rows_without_changes_are_found_by_a_search() {
    for (rows, stops) in [(1, 2), (64, 128), (119, 256), (203, 510), (325, 1_022), (DIRECT_ROWS_MOST, 2_044)] {
        let timetable = rows_without_changes(rows);
        assert_eq!(timetable.stops(), stops);
        let found = whole(&Network::new(&timetable), Query { from: 1, to: 2, minute: 0 });
        assert_eq!(found.len(), rows as usize);
        assert_eq!(read(&timetable.to_text()), Ok(timetable));
    }
}

#[test]
fn one_way_reads_back_from_its_text() {
    for places in [&[0, 2_047][..], &[], &[0, 1, 2, 655, 656, 2_046]] {
        let timetable = one_way(STOPS_MOST, RIDE_PENALTY_MOST, places);
        assert_eq!(timetable.trips[&1].len(), STOPS_MOST);
        for (station, &place) in (1..).zip(places) {
            let met = timetable.trips[&1].iter().position(|stop| stop.station == station);
            assert_eq!(met, Some(place));
        }
        assert_eq!(read(&timetable.to_text()), Ok(timetable));
    }
}

#[test]
fn the_largest_timetables_read_back_from_their_texts() {
    let mut random = Random::new(2);
    for timetable in (0..20).map(|_| largest(&mut random)).chain([long_lines(), overtaking()]) {
        assert_eq!(read(&timetable.to_text()).as_ref(), Ok(&timetable));
        assert_eq!(timetable.stations.len(), STATIONS_MOST);
        assert_eq!(timetable.trips.len(), TRIPS_MOST);
        assert_eq!(timetable.stops(), STOPS_MOST);
    }
}
