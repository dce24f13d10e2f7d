//! A timetable as plain data, its limits, and its text.

use std::cmp::Ordering;
use std::collections::BTreeMap;
use std::fmt::{self, Display};

pub const STATIONS_MOST: usize = 64;
pub const WALKS_MOST: usize = 256;
pub const TRIPS_MOST: usize = 256;
pub const STOPS_MOST: usize = 2_048;
pub const TEXT_BYTES_MOST: usize = 65_536;
/// "Trip numbers may have gaps and go to 9,999."
pub const TRIP_NUMBER_MOST: u16 = 9_999;

pub const CHANGE_MINUTES_MOST: u16 = 240;
pub const CHANGE_PENALTY_LEAST: u16 = 1;
pub const CHANGE_PENALTY_MOST: u16 = 1_000;
pub const WALK_MINUTES_LEAST: u16 = 1;
pub const WALK_MINUTES_MOST: u16 = 60;
pub const LAST_MINUTE: u16 = 2_879;
pub const RIDE_PENALTY_MOST: u16 = 100;

/// The marks of a stop: "0 both, 1 boarding only, 2 setting down only".
pub const BOTH: u16 = 0;
pub const BOARDING_ONLY: u16 = 1;
pub const SETTING_DOWN_ONLY: u16 = 2;
pub const MARKS: [u16; 3] = [BOTH, BOARDING_ONLY, SETTING_DOWN_ONLY];

#[derive(Clone, Debug, Default, PartialEq, Eq)]
pub struct Timetable {
    /// Station 1 is the first.
    pub stations: Vec<Station>,
    /// Rising by their stations.
    pub walks: Vec<Walk>,
    /// The trips that run, by their numbers. Stop 1 is the first of each.
    pub trips: BTreeMap<u16, Vec<Stop>>,
}

#[derive(Clone, Copy, Debug, PartialEq, Eq)]
pub struct Station {
    pub change_minutes: u16,
    pub change_penalty: u16,
}

/// A change on foot. "The walk's minutes and penalty replace the station's."
#[derive(Clone, Copy, Debug, PartialEq, Eq)]
pub struct Walk {
    pub from: u16,
    pub to: u16,
    pub minutes: u16,
    pub penalty: u16,
}

#[derive(Clone, Copy, Debug, PartialEq, Eq)]
pub struct Stop {
    pub station: u16,
    /// Empty at stop 1.
    pub arrive: Option<u16>,
    /// Empty where the trip ends.
    pub onward: Option<Onward>,
    /// One of `MARKS`, also at a first and a last stop. In words that come from no text it may be any number.
    pub mark: u16,
}

/// "No ride may use a stop against its mark."
impl Stop {
    pub fn may_board(&self) -> bool {
        matches!(self.mark, BOTH | BOARDING_ONLY)
    }

    pub fn may_alight(&self) -> bool {
        matches!(self.mark, BOTH | SETTING_DOWN_ONLY)
    }
}

/// The ride to the next stop.
#[derive(Clone, Copy, Debug, PartialEq, Eq)]
pub struct Onward {
    pub depart: u16,
    pub penalty: u16,
}

impl Timetable {
    /// A timetable of trips 1, 2, 3.., as a text has it, without walks.
    pub fn new(stations: Vec<Station>, trips: impl IntoIterator<Item = Vec<Stop>>) -> Timetable {
        Timetable { stations, walks: Vec::new(), trips: (1..).zip(trips).collect() }
    }

    /// Its stations and walks alone.
    pub fn without_trips(&self) -> Timetable {
        Timetable { trips: BTreeMap::new(), ..self.clone() }
    }

    /// The walk from a station to itself, if there is one: "for a long platform".
    pub fn along(&self, station: u16) -> Option<&Walk> {
        self.walks.iter().find(|walk| (walk.from, walk.to) == (station, station))
    }

    /// How the walk from a station to itself compares with the change there, in minutes and in penalty.
    pub fn platform_kind(&self, station: u16) -> Option<(Ordering, Ordering)> {
        let Station { change_minutes, change_penalty } = self.stations[usize::from(station) - 1];
        self.along(station).map(|walk| (walk.minutes.cmp(&change_minutes), walk.penalty.cmp(&change_penalty)))
    }

    /// How many stops its trips have in all.
    pub fn stops(&self) -> usize {
        self.trips.values().map(Vec::len).sum()
    }

    /// Whether a stop has a mark other than 0.
    pub fn is_marked(&self) -> bool {
        self.trips.values().flatten().any(|stop| stop.mark != BOTH)
    }

    /// The timetable's text, where its trips are 1, 2, 3.. It is the only one: a number and a time have one form, and
    /// the lines have one order.
    pub fn to_text(&self) -> Vec<u8> {
        self.to_string().into_bytes()
    }
}

impl Display for Timetable {
    fn fmt(&self, out: &mut fmt::Formatter) -> fmt::Result {
        for (station, values) in (1..).zip(&self.stations) {
            writeln!(out, "S,{station},{},{}", values.change_minutes, values.change_penalty)?;
        }
        for Walk { from, to, minutes, penalty } in &self.walks {
            writeln!(out, "W,{from},{to},{minutes},{penalty}")?;
        }
        self.trips.iter().try_for_each(|(&trip, stops)| out.write_str(&trip_text(trip.into(), stops)))
    }
}

/// The T lines of a trip of this number.
pub fn trip_text(trip: u32, stops: &[Stop]) -> String {
    let line = |(number, stop): (usize, &Stop)| {
        let arrive = stop.arrive.map(clock).unwrap_or_default();
        let depart = stop.onward.map(|onward| clock(onward.depart)).unwrap_or_default();
        let penalty = stop.onward.map(|onward| onward.penalty.to_string()).unwrap_or_default();
        format!("T,{trip},{number},{},{arrive},{depart},{penalty},{}\n", stop.station, stop.mark)
    };
    (1..).zip(stops).map(line).collect()
}

/// A minute as a text has it: "`hh:mm`, 00:00 to 47:59, two digits each side".
pub fn clock(minute: u16) -> String {
    format!("{:02}:{:02}", minute / 60, minute % 60)
}
