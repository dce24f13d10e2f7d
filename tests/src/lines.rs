//! Lines and line tables, written from document 01's sentences and docs/LAYOUT.md.

use crate::timetable::{Onward, Stop, Timetable};
use crate::words::word;

/// What a lent slice of line tables must have room for: question 8.
pub const LINE_WORDS: usize = 16_384;
/// The same for working space, in words of 32 bits.
pub const WORK_WORDS: usize = 16_384;
/// No line tables have more words than these, by docs/LAYOUT.md.
pub const LINE_WORDS_MOST: usize = 15_429;
/// A position's first word holds its station and its mark, which counts so much.
pub const MARK_UNIT: u16 = 128;

/// For each line the numbers of its trips, as they joined it.
pub fn lines(timetable: &Timetable) -> Vec<Vec<u16>> {
    let trips = &timetable.trips;
    let mut order: Vec<u16> = trips.keys().copied().collect();
    order.sort_by_key(|trip| (depart(&trips[trip][0]), *trip));
    let mut lines: Vec<Vec<u16>> = Vec::new();
    for trip in order {
        let takes = |line: &&mut Vec<u16>| {
            let last = &trips[&line[line.len() - 1]];
            same_way(last, &trips[&trip]) && nowhere_later(last, &trips[&trip])
        };
        match lines.iter_mut().find(takes) {
            Some(line) => line.push(trip),
            None => lines.push(vec![trip]),
        }
    }
    lines
}

/// "The same stations and ride penalties", and "trips of a line must agree in" the mark of each stop.
pub fn same_way(one: &[Stop], other: &[Stop]) -> bool {
    let same_stop = |(one, other): (&Stop, &Stop)| {
        one.station == other.station && penalty(one) == penalty(other) && one.mark == other.mark
    };
    one.len() == other.len() && one.iter().zip(other).all(same_stop)
}

/// "Nowhere later than it, in any arrival or departure", of two trips of the same way.
fn nowhere_later(one: &[Stop], other: &[Stop]) -> bool {
    one.iter().zip(other).all(|(one, other)| one.arrive <= other.arrive && depart(one) <= depart(other))
}

fn depart(stop: &Stop) -> Option<u16> {
    stop.onward.map(|Onward { depart, .. }| depart)
}

fn penalty(stop: &Stop) -> Option<u16> {
    stop.onward.map(|Onward { penalty, .. }| penalty)
}

/// The words of the timetable's line tables.
pub fn to_words(timetable: &Timetable) -> Vec<u16> {
    words_of(timetable, &lines(timetable))
}

/// The same words with the times of each line by trip, then by stop.
pub fn to_words_by_trip(timetable: &Timetable) -> Vec<u16> {
    laid_out(timetable, &lines(timetable), times_by_trip)
}

/// The words of tables with these lines, each of trips of one length, whether or not they are the timetable's.
pub fn words_of(timetable: &Timetable, lines: &[Vec<u16>]) -> Vec<u16> {
    laid_out(timetable, lines, times_by_stop)
}

/// The words of tables with these lines, and the times of a line as they are asked for.
fn laid_out(timetable: &Timetable, lines: &[Vec<u16>], times: fn(&[&[Stop]]) -> Vec<u16>) -> Vec<u16> {
    let pieces: Vec<Vec<u16>> = lines.iter().map(|line| line_words(timetable, line, times)).collect();
    let lists: Vec<Vec<u16>> =
        (1..=timetable.stations.len()).map(|station| list_words(timetable, lines, word(station))).collect();

    let first_piece = 4 + lines.len();
    let first_index = first_piece + pieces.iter().map(Vec::len).sum::<usize>();
    let first_list = first_index + lists.len() + 1;
    let mut words = [lists.len(), lines.len(), timetable.trips.len(), first_index].map(word).to_vec();
    words.extend(&begins(first_piece, &pieces)[..pieces.len()]);
    words.extend(pieces.concat());
    words.extend(begins(first_list, &lists));
    words.extend(lists.concat());
    words
}

/// Where each of the pieces begins if the first one begins at `first`, and where the last one ends.
fn begins(first: usize, pieces: &[Vec<u16>]) -> Vec<u16> {
    let mut next = first;
    let mut begins = vec![word(first)];
    for piece in pieces {
        next += piece.len();
        begins.push(word(next));
    }
    begins
}

fn line_words(timetable: &Timetable, line: &[u16], times: fn(&[&[Stop]]) -> Vec<u16>) -> Vec<u16> {
    let trips: Vec<&[Stop]> = line.iter().map(|trip| &timetable.trips[trip][..]).collect();
    let way = trips[0];
    let mut words = vec![word(way.len()), word(trips.len())];
    words.extend(line);
    let mut total = 0;
    for stop in way {
        words.push(stop.station + MARK_UNIT * stop.mark);
        words.extend(total_words(total));
        total += penalty(stop).map_or(0, u32::from);
    }
    words.extend(times(&trips));
    words
}

/// At each position the arrivals of all trips, then their departures.
fn times_by_stop(trips: &[&[Stop]]) -> Vec<u16> {
    let mut words = Vec::new();
    for position in 0..trips[0].len() {
        words.extend(trips.iter().map(|trip| trip[position].arrive.unwrap_or(0)));
        words.extend(trips.iter().map(|trip| depart(&trip[position]).unwrap_or(0)));
    }
    words
}

/// Of each trip arrival and departure, stop by stop.
fn times_by_trip(trips: &[&[Stop]]) -> Vec<u16> {
    let times = |stop: &Stop| [stop.arrive.unwrap_or(0), depart(stop).unwrap_or(0)];
    trips.iter().flat_map(|trip| trip.iter().flat_map(times)).collect()
}

/// The sum of the ride penalties before a position, in two words, the low one first.
pub fn total_words(total: u32) -> [u16; 2] {
    [total % 65_536, total / 65_536].map(|part| word(part as usize))
}

/// Line and position wherever a line meets the station, whatever the mark.
fn list_words(timetable: &Timetable, lines: &[Vec<u16>], station: u16) -> Vec<u16> {
    let mut words = Vec::new();
    for (number, line) in (1..).zip(lines) {
        for (position, stop) in (1..).zip(&timetable.trips[&line[0]]) {
            if stop.station == station {
                words.extend([number, position]);
            }
        }
    }
    words
}
