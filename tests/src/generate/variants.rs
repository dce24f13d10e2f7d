//! The same trips with marks, with walks, or under other numbers.

use std::collections::BTreeMap;

use crate::random::Random;
use crate::timetable::{
    Station, Stop, Timetable, Walk, BOARDING_ONLY, BOTH, CHANGE_PENALTY_MOST, MARKS, SETTING_DOWN_ONLY,
    TRIP_NUMBER_MOST, WALKS_MOST, WALK_MINUTES_MOST,
};

/// Where marks other than 0 stand.
#[derive(Clone, Copy)]
enum Marking {
    Few,
    Many,
    /// Nobody may board at this station.
    NoBoardingAt(u16),
    /// Nobody may alight there.
    NoAlightingAt(u16),
    /// A trip takes riders in until it sets them down.
    InThenOut,
}

/// The same trips with marks at their stops. Trips alike have marks alike, but for a stop here and there, which makes
/// another line of its trip.
pub fn marked(random: &mut Random, timetable: &Timetable) -> Timetable {
    let station = random.within(1..=timetable.stations.len()) as u16;
    let marking = random.pick(&[
        Marking::Few,
        Marking::Many,
        Marking::NoBoardingAt(station),
        Marking::NoAlightingAt(station),
        Marking::InThenOut,
    ]);
    let mut marks_of_ways = BTreeMap::new();
    let mut marked = timetable.clone();
    for stops in marked.trips.values_mut() {
        let way: Vec<(u16, Option<u16>)> =
            stops.iter().map(|stop| (stop.station, stop.onward.map(|onward| onward.penalty))).collect();
        let marks = marks_of_ways.entry(way).or_insert_with(|| marks(random, marking, stops));
        stops.iter_mut().zip(marks).for_each(|(stop, mark)| stop.mark = *mark);
        if random.one_in(6) {
            let place = random.below(stops.len());
            stops[place].mark = random.pick(&MARKS);
        }
    }
    marked
}

/// Half of all timetables have marks, and half have walks.
pub fn marked_and_walked_or_not(random: &mut Random, plain: Timetable) -> Timetable {
    let timetable = if random.one_in(2) { marked(random, &plain) } else { plain };
    if random.one_in(2) {
        walked(random, &timetable)
    } else {
        timetable
    }
}

/// Which walks there are.
#[derive(Clone, Copy)]
enum Walking {
    Few,
    Many,
    /// From stations to themselves.
    Platforms,
    /// From each station to the next, so that walks could be joined.
    Chain,
    /// From one station or to it.
    Around(u16),
}

/// The same trips with walks between stations, quicker or slower and cheaper or dearer than the changes at them.
pub fn walked(random: &mut Random, timetable: &Timetable) -> Timetable {
    let stations = timetable.stations.len() as u16;
    let centre = random.within(1..=stations.into()) as u16;
    let walking =
        random.pick(&[Walking::Few, Walking::Many, Walking::Platforms, Walking::Chain, Walking::Around(centre)]);
    let mut pairs: Vec<(u16, u16)> = (1..=stations).flat_map(|from| (1..=stations).map(move |to| (from, to))).collect();
    pairs.retain(|&(from, to)| match walking {
        Walking::Few => random.below(usize::from(stations) * usize::from(stations)) < 3,
        Walking::Many => random.below(usize::from(stations) * usize::from(stations)) < 256 && !random.one_in(4),
        Walking::Platforms => from == to && !random.one_in(4),
        Walking::Chain => to == from + 1 || random.one_in(40),
        Walking::Around(centre) => (from == centre || to == centre) && !random.one_in(4),
    });
    pairs.truncate(WALKS_MOST);
    let brisk = random.one_in(2);
    let walk = |(from, to): (u16, u16)| Walk {
        from,
        to,
        minutes: if brisk { random.pick(&[1, 1, 2]) } else { random.pick(&[1, 2, 3, 8, WALK_MINUTES_MOST]) },
        penalty: if brisk { random.pick(&[1, 1, 1, 2]) } else { random.pick(&[1, 2, 3, 40, CHANGE_PENALTY_MOST]) },
    };
    Timetable { walks: pairs.into_iter().map(walk).collect(), ..timetable.clone() }
}

/// The same trips with a walk from most stations to themselves, in the place of any that there was. The change at such
/// a station and the walk take few minutes and cost few points: either may be the quicker one, and either the cheaper.
pub fn with_platforms(random: &mut Random, timetable: &Timetable) -> Timetable {
    let mut stations = timetable.stations.clone();
    let mut walks: BTreeMap<(u16, u16), Walk> =
        timetable.walks.iter().map(|&walk| ((walk.from, walk.to), walk)).collect();
    for (number, station) in (1..).zip(&mut stations) {
        if random.one_in(4) {
            continue;
        }
        let [change_minutes, minutes, change_penalty, penalty] =
            [0..=4, 1..=4, 1..=4, 1..=4].map(|range| random.within(range) as u16);
        *station = Station { change_minutes, change_penalty };
        walks.insert((number, number), Walk { from: number, to: number, minutes, penalty });
    }
    Timetable { stations, walks: walks.into_values().collect(), trips: timetable.trips.clone() }
}

/// The same trips with so many walks of a few minutes between stations at random.
pub fn with_walks(random: &mut Random, timetable: &Timetable, count: usize) -> Timetable {
    let stations = timetable.stations.len();
    let mut walks = BTreeMap::new();
    while walks.len() < count {
        let [from, to] = [0, 1].map(|_| random.within(1..=stations) as u16);
        let (minutes, penalty) = (random.within(3..=15) as u16, random.within(5..=25) as u16);
        walks.insert((from, to), Walk { from, to, minutes, penalty });
    }
    Timetable { walks: walks.into_values().collect(), ..timetable.clone() }
}

fn marks(random: &mut Random, marking: Marking, stops: &[Stop]) -> Vec<u16> {
    let turn = random.within(0..=stops.len());
    let mut mark = |(place, stop): (usize, &Stop)| match marking {
        Marking::Many => random.pick(&MARKS),
        Marking::NoBoardingAt(station) if stop.station == station => SETTING_DOWN_ONLY,
        Marking::NoAlightingAt(station) if stop.station == station => BOARDING_ONLY,
        Marking::InThenOut if place < turn => BOARDING_ONLY,
        Marking::InThenOut => SETTING_DOWN_ONLY,
        _ if random.one_in(6) => random.pick(&MARKS),
        _ => BOTH,
    };
    stops.iter().enumerate().map(&mut mark).collect()
}

/// The same trips under other numbers, in another order: with few gaps, with many, or with none.
pub fn with_gaps(random: &mut Random, timetable: &Timetable) -> Timetable {
    let count = timetable.trips.len();
    let most = random.pick(&[count, count + 1, count + 3, 2 * count + 1, TRIP_NUMBER_MOST.into()]);
    let mut free: Vec<u16> = (1..=most as u16).collect();
    let mut number = || free.swap_remove(random.below(free.len()));
    let trips = timetable.trips.values().map(|stops| (number(), stops.clone())).collect();
    Timetable { trips, ..timetable.without_trips() }
}
