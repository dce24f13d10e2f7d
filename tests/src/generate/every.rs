//! Every timetable of a small kind.

use crate::timetable::{Onward, Station, Stop, Timetable, BOTH, MARKS};

/// Every trip of so many stops over so many stations, with times from 0 to `last`, penalties 0 and 1, and mark 0.
pub fn every_trip(stations: u16, stops: usize, last: u16) -> Vec<Vec<Stop>> {
    let mut trips = vec![Vec::new()];
    for place in 0..stops {
        let ends = place + 1 == stops;
        let mut longer = Vec::new();
        for trip in &trips {
            let before: Option<&Stop> = trip.last();
            let depart_before = before.and_then(|stop| stop.onward).map(|onward| onward.depart);
            let arrives: Vec<Option<u16>> =
                depart_before.map_or(vec![None], |depart| (depart + 1..=last).map(Some).collect());
            let others = (1..=stations).filter(|&station| before.is_none_or(|stop| stop.station != station));
            for (station, &arrive) in others.flat_map(|station| arrives.iter().map(move |arrive| (station, arrive))) {
                let leaves =
                    (arrive.unwrap_or(0)..=last).flat_map(|depart| [0, 1].map(|penalty| Onward { depart, penalty }));
                let onwards: Vec<Option<Onward>> = if ends { vec![None] } else { leaves.map(Some).collect() };
                let stop = |&onward: &Option<Onward>| Stop { station, arrive, onward, mark: BOTH };
                longer.extend(onwards.iter().map(|onward| [&trip[..], &[stop(onward)]].concat()));
            }
        }
        trips = longer;
    }
    trips
}

/// Every timetable of these stations and so many trips, each one of these.
pub fn every_timetable<'a>(
    stations: &'a [Station],
    trips: &'a [Vec<Stop>],
    count: usize,
) -> impl Iterator<Item = Timetable> + 'a {
    (0..trips.len().pow(count as u32)).map(move |mut choice| {
        let mut chosen = Vec::new();
        for _ in 0..count {
            chosen.push(trips[choice % trips.len()].clone());
            choice /= trips.len();
        }
        Timetable::new(stations.to_vec(), chosen)
    })
}

/// Every timetable of the same trips, with any marks at their stops: three for each stop.
pub fn every_marking(timetable: &Timetable) -> impl Iterator<Item = Timetable> + '_ {
    (0..MARKS.len().pow(timetable.stops() as u32)).map(|mut choice| {
        let mut marked = timetable.clone();
        for stop in marked.trips.values_mut().flatten() {
            stop.mark = MARKS[choice % MARKS.len()];
            choice /= MARKS.len();
        }
        marked
    })
}
