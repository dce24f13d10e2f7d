//! Direct rides, written from document 01's "Connections and cost": every trip, every two of its stops. No line enters
//! into it.

use std::cmp::Reverse;

use crate::timetable::{Stop, Timetable, BOARDING_ONLY, SETTING_DOWN_ONLY};
use crate::words::STOP_WORDS;

/// The words of a row.
pub const ROW_WORDS: usize = 6;

/// From A at a minute to B.
#[derive(Clone, Copy, Debug, PartialEq, Eq)]
pub struct Query {
    pub from: u32,
    pub to: u32,
    pub minute: u32,
}

/// A single ride that is feasible for some query, and what it costs there.
#[derive(Clone, Copy, Debug, PartialEq, Eq)]
pub struct Ride {
    pub duration: u32,
    pub penalty: u32,
    pub depart: u32,
    pub trip: u32,
    pub board: u32,
    pub alight: u32,
}

impl Ride {
    pub fn cost(&self) -> (u32, u32) {
        (self.duration, self.penalty)
    }

    /// "Neither part is larger and one is smaller."
    pub fn dominates(&self, other: &Ride) -> bool {
        let larger = self.duration > other.duration || self.penalty > other.penalty;
        let smaller = self.duration < other.duration || self.penalty < other.penalty;
        !larger && smaller
    }

    /// Of rides of equal cost the first by this is shown: it "departs latest. .. Then its rides (trip, boarding stop,
    /// alighting stop) come first, compared number by number".
    pub fn rank(&self) -> impl Ord {
        (Reverse(self.depart), self.trip, self.board, self.alight)
    }
}

/// All single rides that are feasible for the query: "it boards at A at t or later, alights at B", and uses no stop
/// against its mark.
pub fn rides(timetable: &Timetable, query: Query) -> Vec<Ride> {
    let mut rides = Vec::new();
    for (&trip, stops) in &timetable.trips {
        let meets = |place: &usize, station: u32| u32::from(stops[*place].station) == station;
        let boards = |place: &usize| meets(place, query.from) && stops[*place].may_board();
        let alights = |place: &usize| meets(place, query.to) && stops[*place].may_alight();
        for board in (0..stops.len()).filter(boards) {
            for alight in (board + 1..stops.len()).filter(alights) {
                let (depart, arrive, penalty) = ridden(&stops[board..=alight]);
                if depart >= query.minute {
                    let duration = arrive - query.minute;
                    let [board, alight] = [board, alight].map(|place| place as u32 + 1);
                    rides.push(Ride { duration, penalty, depart, trip: trip.into(), board, alight });
                }
            }
        }
    }
    rides
}

/// Departure, arrival and "the sum of ride penalties over every stop ridden from", from the first of these stops of a
/// trip to the last.
fn ridden(stops: &[Stop]) -> (u32, u32, u32) {
    let (last, ridden_from) = stops.split_last().expect("a ride has stops");
    let onward = |stop: &Stop| stop.onward.expect("a stop ridden from is not its trip's last");
    let depart = onward(&ridden_from[0]).depart;
    let arrive = last.arrive.expect("a stop to alight at is not its trip's first");
    (depart.into(), arrive.into(), ridden_from.iter().map(|stop| u32::from(onward(stop).penalty)).sum())
}

/// The rows of a direct query: each cost that no feasible ride dominates, in rising duration, with the ride shown.
pub fn rows(timetable: &Timetable, query: Query) -> Vec<Ride> {
    let rides = rides(timetable, query);
    let mut rows: Vec<Ride> = Vec::new();
    for ride in &rides {
        if rides.iter().any(|other| other.dominates(ride)) {
            continue;
        }
        match rows.iter_mut().find(|row| row.cost() == ride.cost()) {
            Some(row) if ride.rank() < row.rank() => *row = *ride,
            Some(_) => {}
            None => rows.push(*ride),
        }
    }
    rows.sort_by_key(|row| row.duration);
    rows
}

pub fn to_words(rows: &[Ride]) -> Vec<u32> {
    rows.iter().flat_map(|row| [row.duration, row.penalty, 1, row.trip, row.board, row.alight]).collect()
}

/// As `rows`, but quickly: in one pass over the words of a timetable with a yes to question 9.
///
/// Of the rides of a trip that alight at one stop, only the one that boards last counts: it departs later than the
/// others, and its penalty is not above theirs. A stop where nobody may board, or nobody alight, is ridden through.
pub fn scan(timetable: &[u16], query: Query, rows: &mut Vec<Ride>) {
    rows.clear();
    let [stations, trips, stops] = [0, 1, 2].map(|at| usize::from(timetable[at]));
    let (stops, firsts) = timetable[3 + 2 * stations..].split_at(STOP_WORDS * stops);
    let (firsts, numbers) = firsts.split_at(trips + 1);
    for (&trip, ends) in numbers.iter().zip(firsts.windows(2)) {
        let stops = &stops[STOP_WORDS * usize::from(ends[0])..STOP_WORDS * usize::from(ends[1])];
        let mut boarded = None;
        for (number, stop) in (1..).zip(stops.chunks_exact(STOP_WORDS)) {
            let [station, arrive, depart, penalty, mark] = [0, 1, 2, 3, 4].map(|at| u32::from(stop[at]));
            if station == query.from && depart >= query.minute && mark != SETTING_DOWN_ONLY.into() {
                boarded = Some((number, depart, penalty));
                continue;
            }
            let Some((board, boarded_at, ridden)) = &mut boarded else { continue };
            if station == query.to && mark != BOARDING_ONLY.into() {
                let duration = arrive - query.minute;
                let (board, depart, penalty) = (*board, *boarded_at, *ridden);
                add(rows, Ride { duration, penalty, depart, trip: trip.into(), board, alight: number });
            }
            *ridden += penalty;
        }
    }
}

/// Keeps the undominated of these rows, which rise in duration and so fall in penalty, and of one more ride.
fn add(rows: &mut Vec<Ride>, ride: Ride) {
    let at = rows.partition_point(|row| row.duration < ride.duration);
    if at > 0 && rows[at - 1].penalty <= ride.penalty {
        return;
    }
    match rows.get_mut(at) {
        Some(row) if row.duration == ride.duration && row.penalty < ride.penalty => return,
        Some(row) if row.cost() == ride.cost() => {
            if ride.rank() < row.rank() {
                *row = ride;
            }
            return;
        }
        _ => {}
    }
    let dominated = rows[at..].iter().take_while(|row| row.penalty >= ride.penalty).count();
    if dominated == 0 {
        rows.insert(at, ride);
    } else {
        rows[at] = ride;
        rows.drain(at + 1..at + dominated);
    }
}

#[cfg(test)]
mod tests {
    use super::*;
    use crate::generate::{crowded, timetable, with_shared_ways, CROWDED, MIDDLING, SMALL};
    use crate::random::Random;
    use crate::words;

    /// Fails unless the rows are as document 01 describes them, one by one and as a whole.
    fn are_described(timetable: &Timetable, query: Query, rows: &[Ride]) {
        let rides = rides(timetable, query);
        for pair in rows.windows(2) {
            assert!(pair[0].duration < pair[1].duration && pair[0].penalty > pair[1].penalty, "{rows:?}");
        }
        for row in rows {
            assert!(rides.contains(row));
            assert!(!rides.iter().any(|ride| ride.dominates(row)));
            let as_good = |ride: &&Ride| ride.cost() == row.cost() && *ride != row;
            for ride in rides.iter().filter(as_good) {
                let first = (row.trip, row.board, row.alight) < (ride.trip, ride.board, ride.alight);
                assert!(row.depart > ride.depart || (row.depart == ride.depart && first), "{row:?} before {ride:?}");
            }
        }
        for ride in &rides {
            let shown = |row: &Ride| row.duration <= ride.duration && row.penalty <= ride.penalty;
            assert!(rows.iter().any(shown), "nothing shown that is as good as {ride:?}");
        }
    }

    fn compare(timetable: &Timetable, random: &mut Random) -> usize {
        let words = words::to_words(timetable);
        let stations = timetable.stations.len() as u32;
        let departs = timetable.trips.values().flatten().filter_map(|stop| stop.onward);
        let mut minutes: Vec<u32> = departs.map(|onward| onward.depart.into()).collect();
        minutes.push(0);
        let mut most = 0;
        let mut scanned = Vec::new();
        for (from, to) in (1..=stations).flat_map(|from| (1..=stations).map(move |to| (from, to))) {
            if from == to {
                continue;
            }
            for _ in 0..4 {
                let query = Query { from, to, minute: random.pick(&minutes) + random.below(2) as u32 };
                let rows = rows(timetable, query);
                are_described(timetable, query, &rows);
                scan(&words, query, &mut scanned);
                assert_eq!(scanned, rows, "{query:?} of\n{timetable}");
                most = most.max(rows.len());
            }
        }
        most
    }

    #[test]
    fn both_ways_to_find_rows_agree_and_fit_the_description() {
        let mut random = Random::new(1);
        let (mut most, mut marked) = (0, 0);
        for _ in 0..300 {
            let crowded = crowded(&mut random, &CROWDED);
            marked += usize::from(crowded.is_marked());
            most = most.max(compare(&crowded, &mut random));
            compare(&with_shared_ways(&mut random, &SMALL), &mut random);
            compare(&timetable(&mut random, &SMALL), &mut random);
        }
        for _ in 0..5 {
            compare(&with_shared_ways(&mut random, &MIDDLING), &mut random);
            compare(&timetable(&mut random, &MIDDLING), &mut random);
        }
        assert!(most > 2 && marked > 80, "no query had more than {most} rows; {marked} have marks");
    }
}
