//! Set-down and boarding stops: the mark of a stop in text, words and tables, and what it forbids to rides.

mod every_marking;
mod extra_trips;
mod refusals;
mod rides;
mod tables;

use dairyepoch_tests::direct::Query;
use dairyepoch_tests::examples::M;
use dairyepoch_tests::expected;
use dairyepoch_tests::ffi::Reply;
use dairyepoch_tests::host::{lent, Host};
use dairyepoch_tests::lent::Lent;
use dairyepoch_tests::lines::{self, lines};
use dairyepoch_tests::random::Random;
use dairyepoch_tests::reference::accepted;
use dairyepoch_tests::timetable::{Timetable, BOTH, LAST_MINUTE};
use dairyepoch_tests::words::STOP_WORDS;

/// M with a mark at a stop of a trip.
fn m_with(trip: u16, stop: usize, mark: u16) -> Timetable {
    let mut timetable = accepted(M);
    timetable.trips.get_mut(&trip).expect("a trip of M")[stop - 1].mark = mark;
    timetable
}

/// Every call on a timetable: reading, both tables, both layouts, direct rides, and from every station the store and
/// the queries from it, at these minutes. How many rows and how many refusals with 14.
fn all_calls(host: &mut Host, timetable: &Timetable, minutes: &[u32], random: &mut Random) -> [usize; 2] {
    host.expect_read(timetable.to_text(), 0, (timetable.to_string().lines().count()) as u32);
    let lent = Lent::new(timetable, random);
    assert_eq!(host.check_timetable(&lent.timetable), 0);
    host.expect_lines(&lent.timetable, 0, lines(timetable).len() as u32);
    assert_eq!(host.check_lines(&lent.timetable, &lent.lines), 0);
    assert_eq!(host.check_lines_alone(&lent.lines), 0);
    assert_eq!(host.times_by_trip(&lent.timetable, &lent.lines).number, 0);
    let by_trip = self::lent(lines::to_words_by_trip(timetable), random);
    assert_eq!(host.times_by_stop(&lent.timetable, &by_trip).number, 0);
    let stations = timetable.stations.len() as u32;
    let mut found = [0; 2];
    for from in 1..=stations {
        let store = expected::store_words(timetable, from).expect("a store that is made");
        assert_eq!(lent.make_store(host, from), Reply::done(store.len()));
        for to in (1..=stations).filter(|&to| to != from) {
            for &minute in minutes {
                let query = Query { from, to, minute };
                lent.direct(host, query);
                let reply = host.query(lent.with(&store), query);
                found[usize::from(reply.number == 14)] += if reply.number == 0 { reply.beside as usize } else { 1 };
            }
        }
    }
    found
}

/// The same trips with all marks 0.
fn unmarked(timetable: &Timetable) -> Timetable {
    let mut unmarked = timetable.clone();
    unmarked.trips.values_mut().flatten().for_each(|stop| stop.mark = BOTH);
    unmarked
}

/// The minutes around departures, and the ends.
fn minutes(timetable: &Timetable) -> Vec<u32> {
    let departs = timetable.trips.values().flatten().filter_map(|stop| stop.onward).map(|onward| onward.depart);
    let mut minutes: Vec<u32> = departs.flat_map(|depart| [depart, depart + 1]).map(u32::from).collect();
    minutes.extend([0, LAST_MINUTE.into()]);
    minutes.sort_unstable();
    minutes.dedup();
    minutes.retain(|&minute| minute <= LAST_MINUTE.into());
    minutes
}

/// Where a stop's mark stands in timetable words; stops count from 0, over all trips.
fn mark_at(words: &[u16], stop: usize) -> usize {
    3 + 2 * usize::from(words[0]) + STOP_WORDS * stop + 4
}
