//! Direct rides: every row of a query, held against all single rides of the timetable.

use dairyepoch_tests::direct::{self, Query, Ride, ROW_WORDS};
use dairyepoch_tests::examples::M;
use dairyepoch_tests::ffi::{self, Reply};
use dairyepoch_tests::generate::{
    crowded, every_timetable, every_trip, largest, long_lines, most_rows, one_way, overtaking, timetable, with_gaps,
    with_shared_ways, with_trips, Size, CROWDED, DIRECT_ROWS_MOST, LARGE, MIDDLING, SMALL, TELLING_PLACES,
};
use dairyepoch_tests::handmade::{self, detour, hop, text_of_hops, Hop, Numbers, PENALTIES_PAST_A_WORD};
use dairyepoch_tests::host::{Host, ANSWER_WORDS};
use dairyepoch_tests::lent::{
    lend_any_words, noes, queries_of_wrong_stations, replies_to_tampered, Lent, LONGER_LENGTHS,
};
use dairyepoch_tests::lines::{lines, WORK_WORDS};
use dairyepoch_tests::random::Random;
use dairyepoch_tests::timetable::{Onward, Station, Stop, Timetable, LAST_MINUTE, RIDE_PENALTY_MOST};

/// The rows of a text's direct query, or the number of its refusal; they are also the reference's.
fn rows(text: &str, from: u32, to: u32, minute: u32) -> Result<Vec<[u32; ROW_WORDS]>, u32> {
    rows_of(&Lent::text(text), Query { from, to, minute })
}

/// The same of tables that are lent.
fn rows_of(lent: &Lent, query: Query) -> Result<Vec<[u32; ROW_WORDS]>, u32> {
    let mut answer = vec![0xabcd_abcd; ANSWER_WORDS];
    let reply = ffi::direct(&lent.timetable, &lent.lines, &mut vec![0; WORK_WORDS], query, &mut answer);
    assert_eq!(lent.direct(&mut Host::new(1), query), reply);
    let (rows, rest) = answer.split_at(ROW_WORDS * reply.beside as usize);
    assert!(rest.iter().all(|&word| word == 0xabcd_abcd), "a word past the rows was written");
    if reply.number == 0 {
        Ok(rows.chunks(ROW_WORDS).map(|row| row.try_into().expect("6 words")).collect())
    } else {
        Err(reply.number)
    }
}

/// A text of so many stations, whose changes do not matter to a direct ride, and of these trips.
fn text(stations: usize, trips: &[&[Numbers]]) -> String {
    handmade::text(&vec![(0, 1); stations], trips)
}

/// Trips from station 1 to 2, by departure, arrival and penalty.
fn shuttles(trips: &[(u16, u16, u16)]) -> String {
    let hops: Vec<Hop> = trips.iter().map(|&(depart, arrive, penalty)| hop(1, 2, depart, arrive, penalty)).collect();
    text_of_hops(&[(0, 1); 2], &hops)
}

#[test]
fn case_g_from_2_to_3_at_501() {
    assert_eq!(rows(M, 2, 3, 501), Ok(vec![[14, 0, 1, 3, 1, 2]]));
}

#[test]
fn case_h_from_2_to_3_at_503() {
    assert_eq!(rows(M, 2, 3, 503), Ok(vec![[17, 0, 1, 2, 1, 2]]));
}

#[test]
fn other_queries_of_m() {
    assert_eq!(rows(M, 1, 3, 470), Ok(vec![[90, 0, 1, 1, 1, 3]]));
    assert_eq!(rows(M, 1, 3, 480), Ok(vec![[80, 0, 1, 1, 1, 3]]));
    assert_eq!(rows(M, 1, 3, 481), Err(14));
    assert_eq!(rows(M, 1, 2, 0), Ok(vec![[500, 0, 1, 1, 1, 2]]));
    assert_eq!(rows(M, 2, 3, 502), Ok(vec![[13, 0, 1, 3, 1, 2]]));
    assert_eq!(rows(M, 2, 3, 504), Err(14));
    assert_eq!(rows(M, 3, 1, 0), Err(14));
    assert_eq!(rows(M, 2, 1, 0), Err(14));
}

#[test]
fn the_8_00_takes_twenty_minutes_and_the_8_05_thirty() {
    let valley_to_junction = shuttles(&[(480, 500, 0), (485, 515, 0)]);
    assert_eq!(rows(&valley_to_junction, 1, 2, 479), Ok(vec![[21, 0, 1, 1, 1, 2]]));
    assert_eq!(rows(&valley_to_junction, 1, 2, 480), Ok(vec![[20, 0, 1, 1, 1, 2]]));
    assert_eq!(rows(&valley_to_junction, 1, 2, 481), Ok(vec![[34, 0, 1, 2, 1, 2]]));
    assert_eq!(rows(&valley_to_junction, 1, 2, 483), Ok(vec![[32, 0, 1, 2, 1, 2]]));
    assert_eq!(rows(&valley_to_junction, 1, 2, 485), Ok(vec![[30, 0, 1, 2, 1, 2]]));
    assert_eq!(rows(&valley_to_junction, 1, 2, 486), Err(14));
}

#[test]
fn costs_are_compared_part_by_part() {
    // the slower one stays if its penalty is lower
    assert_eq!(
        rows(&shuttles(&[(10, 20, 5), (10, 30, 4), (10, 40, 0)]), 1, 2, 10),
        Ok(vec![[10, 5, 1, 1, 1, 2], [20, 4, 1, 2, 1, 2], [30, 0, 1, 3, 1, 2]])
    );
    // and goes if it is equal or higher
    assert_eq!(rows(&shuttles(&[(10, 20, 5), (10, 30, 5), (10, 40, 6)]), 1, 2, 10), Ok(vec![[10, 5, 1, 1, 1, 2]]));
    // of equal durations the lower penalty stays
    assert_eq!(rows(&shuttles(&[(10, 20, 5), (10, 20, 4), (9, 20, 3)]), 1, 2, 9), Ok(vec![[11, 3, 1, 3, 1, 2]]));
    // a late quick ride does not take the place of an early slow one that arrives first
    assert_eq!(rows(&shuttles(&[(10, 40, 0), (35, 41, 0)]), 1, 2, 0), Ok(vec![[40, 0, 1, 1, 1, 2]]));
    // a sum of duration and penalty would keep the second only
    assert_eq!(
        rows(&shuttles(&[(10, 20, 100), (10, 30, 0)]), 1, 2, 0),
        Ok(vec![[20, 100, 1, 1, 1, 2], [30, 0, 1, 2, 1, 2]])
    );
}

#[test]
fn penalties_of_every_stop_ridden_from_add_up() {
    let way: Vec<Numbers> = (0..30).map(|place| (place % 3 + 1, 10 * place, 10 * place + 5, 100)).collect();
    let text = text(3, &[&way]);
    assert_eq!(rows(&text, 1, 2, 0), Ok(vec![[10, 100, 1, 1, 1, 2]]));
    assert_eq!(rows(&text, 1, 3, 36), Ok(vec![[80 - 36, 200, 1, 1, 7, 9]]));
    let straight: Vec<Numbers> = (0..64).map(|place| (place + 1, place, place, 100)).collect();
    let text = self::text(64, &[&straight]);
    assert_eq!(rows(&text, 1, 64, 0), Ok(vec![[63, 6_300, 1, 1, 1, 64]]));
    assert_eq!(rows(&text, 2, 63, 0), Ok(vec![[62, 6_100, 1, 1, 2, 63]]));
    assert_eq!(rows(&text, 64, 1, 0), Err(14));
}

#[test]
fn penalties_between_any_two_stops_of_a_long_dear_trip() {
    let lent = Lent::new(&one_way(2_048, 100, &TELLING_PLACES), &mut Random::new(33));
    let stops = || (1..).zip(TELLING_PLACES.map(|place| place as u32 + 1));
    for (from, board) in stops() {
        for (to, alight) in stops().filter(|&(to, _)| to != from) {
            // the trip is at its first stop at minute 1, at its second at 2, ..
            let row = |&ridden: &u32| vec![[ridden, 100 * ridden, 1, 1, board, alight]];
            let expected = alight.checked_sub(board).as_ref().map(row).ok_or(14);
            assert_eq!(rows_of(&lent, Query { from, to, minute: board }), expected);
        }
    }
    assert_eq!(rows_of(&lent, Query { from: 1, to: 16, minute: 0 }), Ok(vec![[2_048, 204_700, 1, 1, 1, 2_048]]));
}

#[test]
fn penalties_of_several_trips_on_one_long_dear_line() {
    let mut timetable = one_way(1_024, 99, &[0, 600, 700, 1_023]);
    let mut later = timetable.trips[&1].clone();
    for stop in &mut later {
        stop.arrive = stop.arrive.map(|arrive| arrive + 3);
        stop.onward = stop.onward.map(|onward| Onward { depart: onward.depart + 3, ..onward });
    }
    timetable.trips.insert(2, later);
    assert_eq!(lines(&timetable), [[1, 2]]);
    let lent = Lent::new(&timetable, &mut Random::new(34));
    assert_eq!(rows_of(&lent, Query { from: 1, to: 4, minute: 1 }), Ok(vec![[1_023, 101_277, 1, 1, 1, 1_024]]));
    assert_eq!(rows_of(&lent, Query { from: 1, to: 3, minute: 2 }), Ok(vec![[702, 69_300, 1, 2, 1, 701]]));
    assert_eq!(rows_of(&lent, Query { from: 2, to: 4, minute: 602 }), Ok(vec![[425, 41_877, 1, 2, 601, 1_024]]));
    assert_eq!(rows_of(&lent, Query { from: 1, to: 2, minute: 5 }), Err(14));
}

#[test]
fn penalties_that_differ_by_more_than_a_word_tells() {
    for (quick, slow, both) in PENALTIES_PAST_A_WORD {
        let trips = [detour(1, 2, 0, 1_400, quick), detour(1, 2, 0, 1_500, slow)];
        let stops = [0, 1].map(|trip| trips[trip].len() as u32);
        let mut shown = vec![[1_400, quick, 1, 1, 1, stops[0]], [1_500, slow, 1, 2, 1, stops[1]]];
        shown.truncate(if both { 2 } else { 1 });
        assert_eq!(rows(&text(4, &[&trips[0], &trips[1]]), 1, 2, 0), Ok(shown), "{quick} and {slow}");
    }
}

#[test]
fn of_one_line_the_trip_that_departs_latest_is_shown() {
    // all on one line, which has no trip that overtakes another
    assert_eq!(rows(&shuttles(&[(10, 30, 0), (20, 30, 0)]), 1, 2, 5), Ok(vec![[25, 0, 1, 2, 1, 2]]));
    assert_eq!(rows(&shuttles(&[(20, 30, 0), (10, 30, 0)]), 1, 2, 5), Ok(vec![[25, 0, 1, 1, 1, 2]]));
    assert_eq!(rows(&shuttles(&[(10, 30, 0), (20, 30, 0), (29, 30, 0)]), 1, 2, 5), Ok(vec![[25, 0, 1, 3, 1, 2]]));
    assert_eq!(rows(&shuttles(&[(10, 30, 0), (20, 30, 0), (29, 31, 0)]), 1, 2, 5), Ok(vec![[25, 0, 1, 2, 1, 2]]));
    assert_eq!(rows(&shuttles(&[(10, 30, 0), (20, 30, 0), (20, 30, 0)]), 1, 2, 5), Ok(vec![[25, 0, 1, 2, 1, 2]]));
    // on the way from 1 to 3 the later trip is as good, from 1 to 2 it is not
    let trips: [&[_]; 2] =
        [&[(1, 0, 10, 0), (2, 20, 25, 0), (3, 40, 0, 0)], &[(1, 0, 11, 0), (2, 21, 25, 0), (3, 40, 0, 0)]];
    assert_eq!(rows(&text(3, &trips), 1, 2, 0), Ok(vec![[20, 0, 1, 1, 1, 2]]));
    assert_eq!(rows(&text(3, &trips), 1, 3, 0), Ok(vec![[40, 0, 1, 2, 1, 3]]));
    assert_eq!(rows(&text(3, &trips), 2, 3, 0), Ok(vec![[40, 0, 1, 1, 2, 3]]));
}

#[test]
fn between_lines_the_ride_that_departs_latest_is_shown_then_the_lowest_trip() {
    let straight = |depart| [(1, 0, depart, 3), (2, 30, 0, 0)];
    let round = |depart| [(1, 0, depart, 1), (3, 20, 20, 2), (2, 30, 0, 0)];
    for (trips, shown) in [
        ([&straight(10)[..], &round(12)[..]], [1, 2, 1, 3]),
        ([&straight(12), &round(10)], [1, 1, 1, 2]),
        ([&round(12), &straight(10)], [1, 1, 1, 3]),
        ([&round(10), &straight(12)], [1, 2, 1, 2]),
        ([&straight(11), &round(11)], [1, 1, 1, 2]),
        ([&round(11), &straight(11)], [1, 1, 1, 3]),
    ] {
        let row = [[30, 3].as_slice(), &shown].concat();
        assert_eq!(rows(&text(3, &trips), 1, 2, 0), Ok(vec![row.try_into().expect("6 words")]), "{trips:?}");
    }
    // trip 3 is on line 1, for it departs first; trip 2 is on line 3 and has the lower number
    let trips: [&[_]; 3] = [&[(2, 0, 1, 0), (1, 5, 0, 0)], &round(11), &[(3, 0, 0, 0), (1, 11, 11, 3), (2, 30, 0, 0)]];
    assert_eq!(rows(&text(3, &trips), 1, 2, 0), Ok(vec![[30, 3, 1, 2, 1, 3]]));
}

#[test]
fn a_trip_that_meets_a_station_twice() {
    // 1, 2, 1, 2
    let trip = [(1, 0, 0, 5), (2, 10, 11, 2), (1, 20, 21, 1), (2, 40, 0, 0)];
    let twice = text(2, &[&trip]);
    assert_eq!(rows(&twice, 1, 2, 0), Ok(vec![[10, 5, 1, 1, 1, 2], [40, 1, 1, 1, 3, 4]]));
    assert_eq!(rows(&twice, 1, 2, 1), Ok(vec![[39, 1, 1, 1, 3, 4]]));
    assert_eq!(rows(&twice, 1, 2, 22), Err(14));
    assert_eq!(rows(&twice, 2, 1, 0), Ok(vec![[20, 2, 1, 1, 2, 3]]));
    assert_eq!(rows(&twice, 2, 1, 12), Err(14));
    // 1, 2, 1, 3: where the loop costs nothing, boarding after it departs later
    for penalty in [0, 1] {
        let trip = [(1, 0, 0, penalty), (2, 10, 11, 0), (1, 20, 21, 4), (3, 50, 0, 0)];
        assert_eq!(rows(&text(3, &[&trip]), 1, 3, 0), Ok(vec![[50, 4, 1, 1, 3, 4]]));
    }
    // 2, 1, 2: the trip begins where the ride ends; 1, 3, 1, 2, 1: it ends where the ride begins
    assert_eq!(rows(&text(2, &[&[(2, 0, 0, 9), (1, 5, 6, 3), (2, 9, 0, 0)]]), 1, 2, 0), Ok(vec![[9, 3, 1, 1, 2, 3]]));
    let trip = [(1, 0, 0, 1), (3, 1, 1, 1), (1, 2, 2, 1), (2, 3, 3, 1), (1, 4, 0, 0)];
    assert_eq!(rows(&text(3, &[&trip]), 1, 2, 0), Ok(vec![[3, 1, 1, 1, 3, 4]]));
    assert_eq!(rows(&text(3, &[&trip]), 3, 1, 0), Ok(vec![[2, 1, 1, 1, 2, 3]]));
    assert_eq!(rows(&text(3, &[&trip]), 2, 3, 0), Err(14));
}

#[test]
fn the_last_minute_of_the_timetable() {
    let late = shuttles(&[(2_878, 2_879, 0), (0, 1, 0)]);
    assert_eq!(rows(&late, 1, 2, 0), Ok(vec![[1, 0, 1, 2, 1, 2]]));
    assert_eq!(rows(&late, 1, 2, 1), Ok(vec![[2_878, 0, 1, 1, 1, 2]]));
    assert_eq!(rows(&late, 1, 2, 2_878), Ok(vec![[1, 0, 1, 1, 1, 2]]));
    assert_eq!(rows(&late, 1, 2, 2_879), Err(14));
    assert_eq!(rows(&late, 1, 2, 2_880), Err(12));
}

/// What must have been met among the queries of generated timetables.
#[derive(Debug, Default)]
struct Met {
    none: usize,
    one_row: usize,
    several_rows: usize,
    tie_in_a_trip: usize,
    tie_in_a_line: usize,
    tie_between_lines: usize,
    tie_by_number: usize,
    later_trip_of_the_line: usize,
    long_ride: usize,
}

impl Met {
    /// Notes a query of a timetable with these lines.
    fn note(&mut self, timetable: &Timetable, lines: &[Vec<u16>], query: Query) {
        let rides = direct::rides(timetable, query);
        let rows = direct::rows(timetable, query);
        let line_of = |ride: &Ride| lines.iter().position(|line| line.contains(&(ride.trip as u16)));
        match rows.len() {
            0 => self.none += 1,
            1 => self.one_row += 1,
            _ => self.several_rows += 1,
        }
        for row in &rows {
            self.long_ride += usize::from(row.alight > row.board + 1);
            for tied in rides.iter().filter(|ride| ride.cost() == row.cost() && *ride != row) {
                self.tie_in_a_trip += usize::from(tied.trip == row.trip);
                let one_line = line_of(tied) == line_of(row);
                self.tie_in_a_line += usize::from(one_line && tied.trip != row.trip);
                self.tie_between_lines += usize::from(!one_line);
                self.tie_by_number += usize::from(tied.depart == row.depart);
                let same_stops = (tied.board, tied.alight) == (row.board, row.alight);
                self.later_trip_of_the_line += usize::from(one_line && same_stops && tied.depart < row.depart);
            }
        }
    }

    fn all(&self) -> bool {
        let Met { none, one_row, several_rows, tie_in_a_trip, tie_in_a_line, .. } = *self;
        let Met { tie_between_lines, tie_by_number, later_trip_of_the_line, long_ride, .. } = *self;
        let ties = [tie_in_a_trip, tie_in_a_line, tie_between_lines, tie_by_number, later_trip_of_the_line];
        [none, one_row, several_rows, long_ride].iter().chain(&ties).all(|&count| count > 20)
    }
}

/// All minutes at which a query's answer can differ from that of the minute before, those beside them, and the ends.
fn minutes(timetable: &Timetable) -> Vec<u32> {
    let departs = timetable.trips.values().flatten().filter_map(|stop| stop.onward).map(|onward| onward.depart);
    let around = departs.flat_map(|depart| [depart.saturating_sub(1), depart, (depart + 1).min(LAST_MINUTE)]);
    let mut minutes: Vec<u32> = around.chain([0, LAST_MINUTE]).map(u32::from).collect();
    minutes.sort_unstable();
    minutes.dedup();
    minutes
}

/// All two different stations of so many.
fn pairs(stations: usize) -> impl Iterator<Item = (u32, u32)> {
    let stations = stations as u32;
    let pairs = (1..=stations).flat_map(move |from| (1..=stations).map(move |to| (from, to)));
    pairs.filter(|(from, to)| from != to)
}

/// Asks all pairs of stations at all minutes that matter, and now and then with other lengths of the answer; of the
/// same trips under numbers that may have gaps.
fn all_queries(host: &mut Host, timetable: &Timetable, met: &mut Met, random: &mut Random) {
    let timetable = &with_gaps(random, timetable);
    let lent = Lent::new(timetable, random);
    let lines = lines(timetable);
    let minutes = minutes(timetable);
    for (from, to) in pairs(timetable.stations.len()) {
        for &minute in &minutes {
            let query = Query { from, to, minute };
            met.note(timetable, &lines, query);
            let reply = lent.direct(host, query);
            if reply.number == 0 && random.one_in(8) {
                lengths_around(host, &lent, query, reply.beside);
            }
        }
        for minute in [2_880, 0x1_0000, 0x8000_0000, u32::MAX] {
            assert_eq!(lent.direct(host, Query { from, to, minute }), Reply::refused(12));
        }
    }
}

/// Asks a query that has so many rows with too little room for them, with just enough, and with a word more.
fn lengths_around(host: &mut Host, lent: &Lent, query: Query, rows: u32) {
    let needed = ROW_WORDS * rows as usize;
    for (length, number) in [(0, 15), (1, 15), (needed - 1, 15), (needed, 0), (needed + 1, 0)] {
        assert_eq!(host.direct_to(&lent.timetable, &lent.lines, query, length).number, number, "{query:?}, {length}");
    }
}

#[test]
fn all_queries_of_crowded_timetables() {
    let mut host = Host::new(2);
    let mut random = Random::new(3);
    let mut met = Met::default();
    for _ in 0..800 {
        all_queries(&mut host, &crowded(&mut random, &CROWDED), &mut met, &mut random);
    }
    assert!(met.all(), "{met:?}");
}

#[test]
fn all_queries_of_small_timetables() {
    let mut host = Host::new(4);
    let mut random = Random::new(5);
    let mut met = Met::default();
    for _ in 0..150 {
        all_queries(&mut host, &timetable(&mut random, &SMALL), &mut met, &mut random);
        all_queries(&mut host, &with_shared_ways(&mut random, &SMALL), &mut met, &mut random);
    }
    assert!(met.one_row > 1_000 && met.several_rows > 50 && met.none > 1_000, "{met:?}");
}

#[test]
fn all_queries_of_long_loops() {
    let mut host = Host::new(6);
    let mut random = Random::new(7);
    let mut met = Met::default();
    for _ in 0..150 {
        let size = Size { stations: 2..=3, trips: 1..=3, stops_of_a_trip: 3..=9 };
        all_queries(&mut host, &crowded(&mut random, &size), &mut met, &mut random);
    }
    assert!(met.all(), "{met:?}");
}

/// Asks so many queries of a timetable, of any stations it has and about any of the minutes that matter.
fn some_queries(host: &mut Host, timetable: &Timetable, count: usize, random: &mut Random) -> usize {
    let lent = Lent::new(timetable, random);
    let minutes = minutes(timetable);
    let stops: Vec<Stop> = timetable.trips.values().flatten().copied().collect();
    let mut rows = 0;
    for _ in 0..count {
        let [from, to] = [0, 1].map(|_| random.pick(&stops).station.into());
        let minute = if random.one_in(2) { random.pick(&minutes) } else { 0 };
        rows += lent.direct(host, Query { from, to, minute }).beside as usize;
    }
    rows
}

#[test]
fn queries_of_middling_and_large_timetables() {
    let mut host = Host::new(8);
    let mut random = Random::new(9);
    let mut rows = 0;
    for (stations, trips, stops_of_a_trip, count, queries) in
        [(2..=20, 1..=20, 2..=12, 60, 100), (2..=8, 20..=60, 2..=20, 20, 60), (40..=64, 100..=256, 2..=16, 8, 30)]
    {
        let size = Size { stations, trips, stops_of_a_trip };
        for _ in 0..count {
            rows += some_queries(&mut host, &timetable(&mut random, &size), queries, &mut random);
            rows += some_queries(&mut host, &with_shared_ways(&mut random, &size), queries, &mut random);
        }
    }
    assert!(rows > 5_000, "only {rows}");
}

#[test]
fn queries_of_the_largest_timetables() {
    let mut host = Host::new(10);
    let mut random = Random::new(11);
    let dearest = one_way(2_048, RIDE_PENALTY_MOST, &[0, 500, 1_000, 2_047]);
    for timetable in [long_lines(), overtaking(), largest(&mut random), with_trips(&mut random, 2, &[2_048]), dearest] {
        assert!(some_queries(&mut host, &timetable, 20, &mut random) > 0);
    }
    let one_line = Lent::new(&long_lines(), &mut random);
    let query = Query { from: 61, to: 62, minute: 0 };
    assert_eq!(one_line.direct(&mut host, query), Reply::refused(14));
    let lines_of_one_trip = Lent::new(&overtaking(), &mut random);
    let query = Query { from: 1, to: 64, minute: 0 };
    assert_eq!(lines_of_one_trip.direct(&mut host, query), Reply::done(1));
}

#[test]
fn the_most_rows() {
    let mut host = Host::new(12);
    let lent = Lent::new(&most_rows(), &mut Random::new(13));
    let query = Query { from: 1, to: 2, minute: 0 };
    assert_eq!(lent.direct(&mut host, query), Reply { number: 0, beside: DIRECT_ROWS_MOST });
    lengths_around(&mut host, &lent, query, DIRECT_ROWS_MOST);
    for minute in [1_800, 1_900, 2_000, 2_042, 2_043, 2_044] {
        lent.direct(&mut host, Query { minute, ..query });
        lent.direct(&mut host, Query { from: 2, to: 1, minute });
        lent.direct(&mut host, Query { from: 3, to: 4, minute });
    }
}

/// Asks the pairs at minutes 0 to `last` of every timetable of so many trips, each one of these.
fn ask_every(stations: usize, trips: &[Vec<Stop>], count: usize, pairs: &[(u32, u32)], last: u32) {
    let mut host = Host::new(14);
    let mut random = Random::new(15);
    let mut rows = 0;
    let stations = vec![Station { change_minutes: 0, change_penalty: 1 }; stations];
    for timetable in every_timetable(&stations, trips, count) {
        let lent = Lent::new(&timetable, &mut random);
        for &(from, to) in pairs {
            for minute in 0..=last {
                rows += lent.direct(&mut host, Query { from, to, minute }).beside;
            }
        }
    }
    assert!(rows > 0);
}

#[test]
fn every_timetable_of_two_stations_and_two_trips() {
    let trips = [every_trip(2, 2, 3), every_trip(2, 3, 3)].concat();
    assert_eq!(trips.len(), 2 * 6 * 2 + 2 * 5 * 4);
    ask_every(2, &trips, 2, &[(1, 2), (2, 1)], 3);
}

#[test]
fn every_timetable_of_three_stations_and_two_trips() {
    let trips = [every_trip(3, 2, 2), every_trip(3, 3, 2)].concat();
    assert_eq!(trips.len(), 6 * 3 * 2 + 12 * 4);
    ask_every(3, &trips, 2, &[(1, 2), (3, 1)], 1);
}

#[test]
fn every_timetable_of_two_stations_and_three_trips() {
    let trips = every_trip(2, 2, 2);
    assert_eq!(trips.len(), 2 * 3 * 2);
    ask_every(2, &trips, 3, &[(1, 2)], 2);
}

#[test]
fn every_timetable_of_one_trip_with_a_loop() {
    let trips = [every_trip(2, 4, 4), every_trip(3, 4, 4), every_trip(2, 5, 4)].concat();
    ask_every(3, &trips, 1, &[(1, 2), (2, 3)], 2);
}

#[test]
fn stations_that_are_not_there_or_equal_give_11() {
    let mut host = Host::new(16);
    let mut random = Random::new(17);
    let mut timetables = vec![with_trips(&mut random, 1, &[]), with_trips(&mut random, 64, &[8; 256]), most_rows()];
    timetables.extend((0..200).map(|_| crowded(&mut random, &CROWDED)));
    for timetable in timetables {
        let lent = Lent::new(&timetable, &mut random);
        for query in queries_of_wrong_stations(&mut random, timetable.stations.len()) {
            assert_eq!(lent.direct(&mut host, query), Reply::refused(11));
        }
    }
}

#[test]
fn the_first_no_ends_it() {
    let mut random = Random::new(18);
    let good = Lent::text(M);
    for ([slice, timetable, lines, station, minute, none, room], number) in noes([8, 9, 10, 11, 12, 14, 15]) {
        let shorts = if slice { &[0, 1, 56, 16_383][..] } else { &[] };
        let lent = good.with_noes(timetable, lines);
        let (from, to) = if none { (3, 1) } else { (2, 3) };
        let queries = match station {
            true => vec![(0, to), (from, 0), (4, to), (from, 4), (from, from), (u32::MAX, to), (from, u32::MAX)],
            false => vec![(from, to)],
        };
        let lengths = if room { &[0, 5][..] } else { &[6] };
        for (from, to) in queries {
            let minute = if minute { random.pick(&[2_880, 2_881, 65_536, u32::MAX]) } else { 501 };
            let query = Query { from, to, minute };
            lent.lend(shorts, 19, |host, timetable, lines| {
                for &length in lengths {
                    let reply = host.direct_to(timetable, lines, query, length);
                    assert_eq!(reply, Reply { number, beside: u32::from(number == 0) }, "{query:?}");
                }
            });
        }
    }
}

#[test]
fn slices_that_are_not_there() {
    let lent = Lent::text(M);
    let mut work = vec![7; WORK_WORDS];
    for (from, to, minute, number) in [(2, 3, 501, 15), (3, 1, 501, 14), (2, 3, 2_880, 12), (2, 2, 501, 11)] {
        let query = Query { from, to, minute };
        let reply = ffi::direct_to_nothing(&lent.timetable, &lent.lines, &mut work, query);
        assert_eq!(reply, Reply::refused(number));
        assert_eq!(ffi::direct_of_nothing(query), Reply::refused(8));
    }
}

#[test]
fn slices_of_16384_words_or_more_are_long_enough() {
    let mut random = Random::new(23);
    let lent = Lent::new(&overtaking(), &mut random);
    let query = Query { from: 1, to: 64, minute: 0 };
    for length in LONGER_LENGTHS {
        let longer = lent.longer(length, &mut random);
        let mut host = Host::lending_both(0, length, 24);
        assert_eq!(longer.direct(&mut host, query).number, 0);
        assert_eq!(Host::new(24).direct(&longer.timetable, &lent.lines, query).number, 0);
        assert_eq!(Host::new(24).direct(&lent.timetable, &longer.lines, query).number, 0);
        assert_eq!(lent.direct(&mut host, query).number, 0);
    }
}

#[test]
fn tables_of_another_timetable_give_10() {
    let mut host = Host::new(25);
    let mut random = Random::new(26);
    let mut tally = [0; 16];
    for _ in 0..2_000 {
        let [one, other] = [0, 1].map(|_| Lent::new(&crowded(&mut random, &CROWDED), &mut random));
        let query = Query { from: 1, to: 2, minute: random.below(20) as u32 };
        tally[host.direct(&one.timetable, &other.lines, query).number as usize] += 1;
    }
    assert!(tally[10] > 1_800, "by reply number: {tally:?}");
}

#[test]
fn words_of_either_table_tampered_with() {
    let timetable = |random: &mut Random| crowded(random, &CROWDED);
    let tally = replies_to_tampered(27, 4_000, timetable, |host, lent, random| {
        lent.direct(host, Query { from: 1, to: 2, minute: random.below(3) as u32 })
    });
    assert!(tally[9] > 500 && tally[10] > 1_500, "by reply number: {tally:?}");
}

#[test]
fn slices_of_any_words() {
    let anything = |random: &mut Random| Query {
        from: random.word().into(),
        to: random.word().into(),
        minute: random.bits() as u32,
    };
    let not_there = Query { from: u32::MAX, to: u32::MAX, minute: u32::MAX };
    lend_any_words(29, 300, anything, not_there, Host::direct);
}

#[test]
fn what_reading_and_building_wrote_is_taken() {
    let mut host = Host::new(31);
    let mut random = Random::new(32);
    for size in [SMALL, MIDDLING, LARGE] {
        for _ in 0..20 {
            let timetable = with_shared_ways(&mut random, &size);
            let written = Lent::written(&timetable, &mut vec![0; WORK_WORDS], &mut random);
            let minutes = minutes(&timetable);
            for (from, to) in pairs(timetable.stations.len().min(3)) {
                let reply = written.direct(&mut host, Query { from, to, minute: random.pick(&minutes) });
                assert!([0, 14].contains(&reply.number), "{reply:?}");
            }
        }
    }
}
