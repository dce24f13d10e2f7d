//! Timetables at the limits, each made for what is most of something: lines, rows, totals, patterns.

use crate::generate::chosen::{trip_on, Way};
use crate::timetable::{
    Onward, Station, Stop, Timetable, BOTH, CHANGE_MINUTES_MOST, CHANGE_PENALTY_LEAST, CHANGE_PENALTY_MOST,
    LAST_MINUTE, MARKS, RIDE_PENALTY_MOST, SETTING_DOWN_ONLY, STATIONS_MOST, TRIPS_MOST,
};

/// As `largest`, with 8 stops to each trip and values of the most digits, so that the text's lines are long.
pub fn long_lines() -> Timetable {
    let stations =
        vec![Station { change_minutes: CHANGE_MINUTES_MOST, change_penalty: CHANGE_PENALTY_MOST }; STATIONS_MOST];
    let trip = (0..8u16).map(|place| Stop {
        station: 60 + place % 2,
        arrive: (place > 0).then_some(1_000 + 200 * place),
        onward: (place < 7).then_some(Onward { depart: 1_100 + 200 * place, penalty: RIDE_PENALTY_MOST }),
        mark: BOTH,
    });
    Timetable::new(stations, vec![trip.collect(); TRIPS_MOST])
}

/// As `largest`, with 8 stops to each trip and all on one way, each overtaking those that left before it: 256 lines.
pub fn overtaking() -> Timetable {
    let trip = |late: u16| {
        let stop = move |place: u16| Stop {
            station: 9 * place + 1,
            arrive: (place > 0).then_some(if place < 7 { 300 * place } else { LAST_MINUTE - late }),
            onward: (place < 7)
                .then_some(Onward { depart: if place > 0 { 300 * place } else { late }, penalty: place }),
            mark: BOTH,
        };
        (0..8).map(stop).collect()
    };
    let stations = vec![Station { change_minutes: 0, change_penalty: CHANGE_PENALTY_LEAST }; STATIONS_MOST];
    Timetable::new(stations, (0..TRIPS_MOST as u16).map(trip))
}

/// The most rows that a direct query can have.
pub const DIRECT_ROWS_MOST: u32 = 507;

/// One trip of 2,044 stops with a ride from station 1 to 2 for each penalty from 506 down to 0.
///
/// From each stop at a station a trip has at most one ride that counts, to the next stop at the other one: so the rides
/// of different rows share no stop. One of penalty p needs a stop for each 100 points, and one more, so that 507 rows
/// have 2,044 stops, and the 508th would bring them to 2,051.
pub fn most_rows() -> Timetable {
    with_rows(DIRECT_ROWS_MOST)
}

/// As `most_rows`, on a trip that is just long enough for so many rows.
fn with_rows(rows: u32) -> Timetable {
    let mut way = Vec::new();
    for penalty in (0..rows as u16).rev() {
        let rides = penalty.div_ceil(RIDE_PENALTY_MOST).max(1);
        for ride in 0..rides {
            let station = if ride == 0 { 1 } else { 3 + usize::from(ride % 2) };
            way.push((station, penalty.saturating_sub(RIDE_PENALTY_MOST * ride).min(RIDE_PENALTY_MOST)));
        }
        way.push((2, 0));
    }
    minute_by_minute(4, &way)
}

/// As `most_rows`, on a trip that is just long enough for so many rows, and nobody may board at stations 3 and 4: so no
/// change saves points, and a query from a store has all of these rows too.
pub fn rows_without_changes(rows: u32) -> Timetable {
    let mut timetable = with_rows(rows);
    let between = timetable.trips.values_mut().flatten().filter(|stop| stop.station > 2);
    between.for_each(|stop| stop.mark = SETTING_DOWN_ONLY);
    timetable
}

/// One trip of so many stops, each with this ride penalty, which can add up to 204,700. It meets stations 1, 2, .. once
/// each, at these places counted from 0 and rising; elsewhere it goes to and fro between two more.
pub fn one_way(stops: usize, penalty: u16, places: &[usize]) -> Timetable {
    let station = |place: usize| match places.iter().position(|&marked| marked == place) {
        Some(marked) => marked + 1,
        None => places.len() + 1 + place % 2,
    };
    let way: Way = (0..stops).map(|place| (station(place), penalty)).collect();
    minute_by_minute(places.len() + 2, &way)
}

/// For `one_way` with 2,048 stops and ride penalty 100: its ends, and where its total passes 65,536, 131,072 and
/// 196,608, each with places beside them.
pub const TELLING_PLACES: [usize; 16] =
    [0, 1, 654, 655, 656, 657, 1_309, 1_310, 1_311, 1_312, 1_965, 1_966, 1_967, 1_968, 2_046, 2_047];

/// A trip of so many stops by stations 63 and 64, with values of the most digits.
pub fn long_trip(stops: usize) -> Vec<Stop> {
    let mut trip = one_way(stops, RIDE_PENALTY_MOST, &[]).trips.remove(&1).expect("one trip");
    for (place, stop) in trip.iter_mut().enumerate() {
        stop.station = 63 + (place % 2) as u16;
        stop.mark = MARKS[place % 3];
    }
    trip
}

/// A timetable of one trip, which takes a minute from each stop to the next and waits nowhere.
fn minute_by_minute(stations: usize, way: &[(usize, u16)]) -> Timetable {
    let rides: Vec<(u16, u16)> = (1..way.len() as u16).map(|minute| (minute, minute + 1)).collect();
    let stations = vec![Station { change_minutes: 0, change_penalty: CHANGE_PENALTY_LEAST }; stations];
    Timetable::new(stations, [trip_on(way, &rides)])
}

/// A chain of diamonds from station 1: from each junction two ways lead to the next, with a change in between, and both
/// are as good. So the patterns to each junction are twice as many as those to the one before.
#[derive(Clone, Copy, Default)]
pub struct Diamonds {
    /// At most 20.
    pub count: usize,
    /// Whether one of the two ways arrives a minute later, and takes a bus of its own from there. Then its patterns
    /// count for what lies beyond, and not for the next stations themselves.
    pub late: bool,
    /// Whether there is one more station behind the last junction.
    pub beyond: bool,
    /// Stations on a way of their own from station 1, with a change at each.
    pub chain: u16,
}

impl Diamonds {
    pub fn timetable(&self) -> Timetable {
        let mut trips = Vec::new();
        let mut hop = |from: u16, to: u16, depart: u16, arrive: u16| {
            trips.push(trip_on(&[(from.into(), 0), (to.into(), 0)], &[(depart, arrive)]));
        };
        let late = u16::from(self.late);
        let step = 2 + late;
        for diamond in 0..self.count as u16 {
            let (junction, now) = (1 + 3 * diamond, step * diamond);
            for way in [junction + 1, junction + 2] {
                for wait in 0..=late {
                    hop(junction, way, now + wait, now + wait + 1);
                }
            }
            hop(junction + 1, junction + 3, now + 1 + late, now + step);
            hop(junction + 2, junction + 3, now + 1 + late, now + step + late);
        }
        let (mut last, end) = (1 + 3 * self.count as u16, step * self.count as u16 + late);
        if self.beyond {
            hop(last, last + 1, end, end + 1);
            last += 1;
        }
        for link in 0..self.chain {
            hop(if link == 0 { 1 } else { last + link }, last + link + 1, link, link + 1);
        }
        let stations = vec![Station { change_minutes: 0, change_penalty: 1 }; usize::from(last + self.chain)];
        Timetable::new(stations, trips)
    }
}

/// Twelve diamonds behind two shuttles, one behind the other, that leave so many times: whoever sets out takes each of
/// 4,096 patterns to the last junction, station 39, at each of these minutes. At most 400 times.
pub fn diamonds_behind_shuttles(departures: u16) -> Timetable {
    let Timetable { stations, trips, .. } = Diamonds { count: 12, ..Diamonds::default() }.timetable();
    let shuttle = |from: usize| {
        let way: Vec<(usize, u16)> = (0..2 * usize::from(departures)).map(|place| (from + place % 2, 0)).collect();
        let rides: Vec<(u16, u16)> = (0..2 * departures - 1).map(|ride| (2 * ride, 2 * ride + 1)).collect();
        trip_on(&way, &rides)
    };
    let later = |time: u16| time + 4 * departures;
    let behind = |stop: &Stop| Stop {
        station: stop.station + 2,
        arrive: stop.arrive.map(later),
        onward: stop.onward.map(|onward| Onward { depart: later(onward.depart), ..onward }),
        mark: stop.mark,
    };
    let trips = trips.values().map(|trip| trip.iter().map(behind).collect());
    Timetable::new([&stations[..2], &stations].concat(), trips.chain([shuttle(1), shuttle(2)]))
}
