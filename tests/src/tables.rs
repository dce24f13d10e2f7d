//! Line tables that are lent to a call: question 10, and where in them the trips of one line stand.

use std::collections::BTreeMap;
use std::ops::Range;

use crate::lines::{self, MARK_UNIT};
use crate::reference;
use crate::timetable::{Onward, Station, Stop, Timetable, STATIONS_MOST, TRIPS_MOST};
use crate::words::take;

/// Do the words begin with the line tables of this timetable?
pub fn are_of(timetable: &Timetable, words: &[u16]) -> bool {
    words.starts_with(&lines::to_words(timetable))
}

/// A timetable with the line tables that `words` begins with, if reading, cancelling and adding can lead to one. Line
/// tables tell nothing of changes: its stations have change minutes 0 and change penalty 1, and it has no walks.
///
/// Nothing is judged here but whether the words can be taken apart: the lines of the timetable that they would have are
/// written out, and the reader decides whether these lead back to the same words.
pub fn timetable_of(words: &[u16]) -> Option<Timetable> {
    let timetable = reference::led_to(&from_words(words)?)?;
    are_of(&timetable, words).then_some(timetable)
}

fn from_words(words: &[u16]) -> Option<Timetable> {
    let [stations, lines, trips] = words.first_chunk()?.map(usize::from);
    if stations > STATIONS_MOST || lines > trips || trips > TRIPS_MOST {
        return None; // too many to be written out
    }
    let mut stops_of_trips = BTreeMap::new();
    for &begin in words.get(4..4 + lines)? {
        stops_of_trips.extend(line_from_words(words.get(usize::from(begin)..)?)?);
    }
    let station = Station { change_minutes: 0, change_penalty: 1 };
    Some(Timetable { stations: vec![station; stations], walks: Vec::new(), trips: stops_of_trips })
}

/// The trips of the line whose words these begin with, each with its number.
fn line_from_words(words: &[u16]) -> Option<Vec<(u16, Vec<Stop>)>> {
    let (counts, mut rest) = words.split_first_chunk()?;
    let [positions, trips] = counts.map(usize::from);
    let numbers = take(&mut rest, trips)?;
    let course: Vec<&[u16]> = take(&mut rest, 3 * positions)?.chunks(3).collect();
    let penalties = course.windows(2).map(penalty_between).collect::<Option<Vec<u16>>>()?;
    let times = take(&mut rest, 2 * positions * trips)?;
    let stop = |place: usize, position: usize| {
        let (arrivals, departures) = times[2 * trips * position..][..2 * trips].split_at(trips);
        let onward = |&penalty: &u16| Onward { depart: departures[place], penalty };
        Stop {
            station: course[position][0] % MARK_UNIT,
            arrive: (position > 0).then_some(arrivals[place]),
            onward: penalties.get(position).map(onward),
            mark: course[position][0] / MARK_UNIT,
        }
    };
    let stops = |place: usize| (0..positions).map(|position| stop(place, position)).collect();
    Some(numbers.iter().enumerate().map(|(place, &number)| (number, stops(place))).collect())
}

/// The ride penalty between a position and the next, by their words, if it is one that can be written down. Whether the
/// first total is 0 does not show in it, and is left to the comparison of all words.
fn penalty_between(positions: &[&[u16]]) -> Option<u16> {
    let [here, next] = [0, 1].map(|at| u32::from(positions[at][1]) + 65_536 * u32::from(positions[at][2]));
    next.checked_sub(here)?.try_into().ok()
}

/// Where in the timetable's line tables the numbers of a line's trips stand, if there is this line.
pub fn piece(timetable: &Timetable, line: u32) -> Option<Range<usize>> {
    let lines = lines::lines(timetable);
    let place = usize::try_from(line).ok()?.checked_sub(1)?;
    let trips = lines.get(place)?.len();
    let words = |line: &Vec<u16>| {
        let (positions, trips) = (timetable.trips[&line[0]].len(), line.len());
        2 + trips + 3 * positions + 2 * positions * trips
    };
    let start = 4 + lines.len() + lines[..place].iter().map(words).sum::<usize>() + 2;
    Some(start..start + trips)
}

#[cfg(test)]
mod tests {
    use super::*;
    use crate::examples::M;
    use crate::generate::{crowded, timetable, with_gaps, with_shared_ways, CROWDED, LARGE, MIDDLING, SMALL};
    use crate::random::Random;

    #[test]
    fn line_tables_lead_back_to_their_timetables() {
        let mut random = Random::new(1);
        for (size, count) in [(CROWDED, 500), (SMALL, 500), (MIDDLING, 200), (LARGE, 20)] {
            for _ in 0..count {
                let gapless = match random.below(3) {
                    0 => timetable(&mut random, &size),
                    1 => with_shared_ways(&mut random, &size),
                    _ => crowded(&mut random, &CROWDED),
                };
                let mut timetable = with_gaps(&mut random, &gapless);
                let mut words = lines::to_words(&timetable);
                let length = words.len();
                words.push(random.word());
                timetable.stations.fill(Station { change_minutes: 0, change_penalty: 1 });
                timetable.walks.clear();
                assert_eq!(timetable_of(&words), Some(timetable));
                assert_eq!(timetable_of(&words[..length - 1]), None);
            }
        }
    }

    #[test]
    fn the_pieces_of_m() {
        let m = reference::accepted(M);
        assert_eq!([0, 1, 2, 3].map(|line| piece(&m, line)), [None, Some(8..9), Some(26..28), None]);
    }
}
