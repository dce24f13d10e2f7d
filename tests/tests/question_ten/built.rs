//! Tables that were built, and those of another timetable.

use crate::{ask_both, built_has_a_yes, timetables_at_the_limits};
use dairyepoch_tests::examples::M;
use dairyepoch_tests::generate::{
    any_timetable, every_marking, every_trip, overtaking, timetable, with_shared_ways, with_trips, LARGE, MIDDLING,
};
use dairyepoch_tests::host::{lent, Host};
use dairyepoch_tests::lent::Lent;
use dairyepoch_tests::lines::{self, LINE_WORDS};
use dairyepoch_tests::random::Random;
use dairyepoch_tests::reference::{self, accepted};
use dairyepoch_tests::timetable::{Station, Stop, Timetable, LAST_MINUTE};
use dairyepoch_tests::words::to_words;

#[test]
fn what_building_wrote_has_a_yes() {
    let mut host = Host::new(1);
    let mut random = Random::new(2);
    for _ in 0..3_000 {
        built_has_a_yes(&mut host, &any_timetable(&mut random), &mut random);
    }
    for (size, count) in [(MIDDLING, 300), (LARGE, 30)] {
        for _ in 0..count {
            built_has_a_yes(&mut host, &timetable(&mut random, &size), &mut random);
            built_has_a_yes(&mut host, &with_shared_ways(&mut random, &size), &mut random);
        }
    }
}

#[test]
fn what_building_wrote_at_the_limits_has_a_yes() {
    let mut host = Host::new(3);
    let mut random = Random::new(4);
    for timetable in timetables_at_the_limits(&mut random) {
        built_has_a_yes(&mut host, &timetable, &mut random);
    }
    for stations in [1, 2, 3, 63, 64] {
        for lengths in [&[][..], &[2], &[2; 256], &[8; 256], &[2_048], &[1_024; 2]] {
            if stations > 1 || lengths.is_empty() {
                let timetable = with_trips(&mut random, stations, lengths);
                built_has_a_yes(&mut host, &timetable, &mut random);
            }
        }
    }
}

#[test]
fn words_behind_the_tables_are_not_judged() {
    let mut host = Host::new(5);
    let mut random = Random::new(6);
    for timetable in [accepted(M), with_trips(&mut random, 1, &[]), overtaking()] {
        let (words, table) = (lent(to_words(&timetable), &mut random), lines::to_words(&timetable));
        let last = table.len() - 1;
        for filler in [0, 1, 2, 4, 64, 2_880, 0x7fff, 0x8000, 0xffff] {
            let mut tables = vec![filler; LINE_WORDS];
            tables[..=last].copy_from_slice(&table);
            assert_eq!(ask_both(&mut host, &words, &tables, true), 0);
            tables[last] = filler;
            let same = filler == table[last];
            assert_eq!(ask_both(&mut host, &words, &tables, same), if same { 0 } else { 10 });
        }
    }
}

#[test]
fn tables_of_another_timetable() {
    let mut host = Host::new(19);
    let mut random = Random::new(20);
    for _ in 0..1_500 {
        let [one, other] = [0, 1].map(|_| any_timetable(&mut random));
        let words = lent(to_words(&one), &mut random);
        let tables = lent(lines::to_words(&other), &mut random);
        let same = tables.starts_with(&lines::to_words(&one));
        assert_eq!(ask_both(&mut host, &words, &tables, same), 0);
    }
}

#[test]
fn tables_of_almost_the_same_timetable() {
    let mut host = Host::new(21);
    let mut random = Random::new(22);
    let mut accepted = 0;
    for _ in 0..6_000 {
        let timetable = any_timetable(&mut random);
        let mut other = timetable.clone();
        let numbers: Vec<u16> = other.trips.keys().copied().chain([0]).collect();
        let Some(stops) = other.trips.get_mut(&random.pick(&numbers)) else { continue };
        let place = random.below(stops.len());
        let stop = &mut stops[place];
        match (random.below(5), &mut stop.arrive, &mut stop.onward) {
            (0, Some(arrive), _) => *arrive = (*arrive + 1).min(LAST_MINUTE),
            (1, _, Some(onward)) => onward.depart = onward.depart.saturating_sub(1),
            (2, _, Some(onward)) => onward.penalty += 1,
            (3, ..) => stop.station = random.within(1..=other.stations.len()) as u16,
            (4, ..) => stop.mark = random.below(4) as u16,
            _ => drop(other.trips.pop_last()),
        }
        let words = lent(to_words(&other), &mut random);
        let tables = lent(lines::to_words(&timetable), &mut random);
        if reference::led_to(&other).is_none() {
            assert_eq!(host.check_lines(&words, &tables), 9);
        } else {
            accepted += usize::from(other != timetable);
            assert_eq!(ask_both(&mut host, &words, &tables, other == timetable), 0);
        }
    }
    assert!(accepted > 1_000, "only {accepted}");
}

#[test]
fn change_minutes_and_penalties_are_not_in_the_tables() {
    let mut host = Host::new(23);
    let mut random = Random::new(24);
    for _ in 0..500 {
        let mut timetable = any_timetable(&mut random);
        let tables = lent(lines::to_words(&timetable), &mut random);
        for (change_minutes, change_penalty) in [(0, 1), (240, 1_000), (7, 70)] {
            timetable.stations.fill(Station { change_minutes, change_penalty });
            let words = lent(to_words(&timetable), &mut random);
            assert_eq!(ask_both(&mut host, &words, &tables, true), 0);
        }
    }
}

#[test]
fn every_two_tiny_timetables() {
    let mut host = Host::new(43);
    let mut random = Random::new(44);
    let one_trip = [every_trip(3, 2, 2), every_trip(2, 3, 3)].concat();
    let shuttles = every_trip(2, 2, 2);
    let marked_trips: Vec<Vec<Vec<Stop>>> = (shuttles[..6].iter())
        .flat_map(|trip| every_marking(&Timetable::new(Vec::new(), [trip.clone()])).collect::<Vec<_>>())
        .map(|marked| marked.trips.into_values().collect())
        .collect();
    let two_trips = shuttles.iter().flat_map(|one| shuttles.iter().map(move |other| vec![one.clone(), other.clone()]));
    let one_trip: Vec<Vec<Vec<Stop>>> = one_trip.into_iter().map(|trip| vec![trip]).collect();
    for family in [one_trip, two_trips.collect(), marked_trips] {
        let timetable =
            |trips: Vec<Vec<Stop>>| Timetable::new(vec![Station { change_minutes: 3, change_penalty: 2 }; 3], trips);
        let lent: Vec<_> = family.into_iter().map(|trips| Lent::new(&timetable(trips), &mut random)).collect();
        for (one, Lent { timetable: words, .. }) in lent.iter().enumerate() {
            for (other, Lent { lines: tables, .. }) in lent.iter().enumerate() {
                assert_eq!(ask_both(&mut host, words, tables, one == other), 0);
            }
        }
    }
}
