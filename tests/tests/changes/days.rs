//! Days of random changes, with direct rides, stores and queries after each.

use crate::Room;
use dairyepoch_tests::damage::damaged;
use dairyepoch_tests::direct::Query;
use dairyepoch_tests::expected;
use dairyepoch_tests::ffi::Reply;
use dairyepoch_tests::generate::{
    changing, crowded, largest, long_lines, overtaking, rural, timetable, walked, with_gaps, with_platforms,
    with_shared_ways, Size, CHANGING, CROWDED, MIDDLING, SMALL,
};
use dairyepoch_tests::host::{Host, QUERY_WORDS};
use dairyepoch_tests::lent::Lent;
use dairyepoch_tests::lines::{lines, WORK_WORDS};
use dairyepoch_tests::random::Random;
use dairyepoch_tests::search::{self, Network};
use dairyepoch_tests::timetable::{trip_text, Stop, Timetable, LAST_MINUTE};
use dairyepoch_tests::words::timetable_of;

/// What must have been met in random sequences of changes.
#[derive(Debug, Default)]
struct Met {
    cancelled: usize,
    added: usize,
    none_left: usize,
    gaps: usize,
    between: usize,
    back_again: usize,
    old_store_shows_less: usize,
    old_store_shows_all: usize,
    rows: usize,
    /// Rows with a change on foot to another station, and with one along a platform.
    on_foot: usize,
    platforms: usize,
    replies: [usize; 20],
}

/// A control room's day: trips that run, trips that may come, and stores that were made some changes ago.
struct Day {
    room: Room,
    model: Timetable,
    pool: Vec<Vec<Stop>>,
    /// Of source 1, 2, ..; the timetable is not too large to have them.
    stores: Vec<Vec<u16>>,
    random: Random,
}

impl Day {
    /// A day that begins with a part of the timetable's trips, under numbers that may have gaps.
    fn new(timetable: &Timetable, seed: u64) -> Day {
        let mut random = Random::new(seed);
        let pool: Vec<Vec<Stop>> = timetable.trips.values().cloned().collect();
        let running = pool.iter().filter(|_| !random.one_in(3)).cloned().collect::<Vec<_>>();
        let mut model =
            Timetable { walks: timetable.walks.clone(), ..Timetable::new(timetable.stations.clone(), running) };
        let mut room = Room { host: Host::new(seed), tables: Lent::any(&mut random) };
        // what reading and building write is where a day begins
        room.tables = Lent::written(&model, &mut vec![0; WORK_WORDS], &mut random);
        if random.one_in(2) {
            model = with_gaps(&mut random, &model);
            room.tables = Lent::new(&model, &mut random);
        }
        let stores = Vec::new();
        let mut day = Day { room, model, pool, stores, random };
        day.stores = day.made_stores();
        day
    }

    fn made_stores(&self) -> Vec<Vec<u16>> {
        let stations = 1..=self.model.stations.len() as u32;
        stations.map(|source| expected::store_words(&self.model, source).expect("a store that is made")).collect()
    }

    /// The number of a trip that runs, where there is one.
    fn running(&mut self) -> u32 {
        let running: Vec<u16> = self.model.trips.keys().copied().collect();
        if running.is_empty() {
            return 1;
        }
        self.random.pick(&running).into()
    }

    /// The number of any trip, or one that is no trip's.
    fn any(&mut self) -> u32 {
        match self.random.below(8) {
            0..=4 => self.random.within(1..=self.pool.len() + 3) as u32,
            5 | 6 => self.random.pick(&[9_998, 9_999, 5_000, 256, 257]),
            _ => self.random.pick(&[0, 10_000, 65_535, 65_536, 65_537, u32::MAX]),
        }
    }

    fn change(&mut self, met: &mut Met) {
        let reply = if self.random.one_in(2) {
            let trip = if self.random.one_in(4) { self.any() } else { self.running() };
            self.cancel(trip, met)
        } else {
            let trip = if self.random.one_in(8) { self.running() } else { self.any() };
            self.add(trip, met)
        };
        met.replies[reply.number as usize] += 1;
        self.room.holds(&self.model);
    }

    fn cancel(&mut self, trip: u32, met: &mut Met) -> Reply {
        let runs = u16::try_from(trip).ok().and_then(|trip| self.model.trips.remove(&trip));
        let reply = self.room.cancel(trip);
        assert_eq!(reply.number, if runs.is_some() { 0 } else { 18 }, "cancelling {trip}");
        met.cancelled += usize::from(reply.number == 0);
        met.none_left += usize::from(reply.number == 0 && self.model.trips.is_empty());
        reply
    }

    fn add(&mut self, trip: u32, met: &mut Met) -> Reply {
        let random = &mut self.random;
        let stops = self.pool[random.below(self.pool.len())].clone();
        let written = if random.one_in(8) { random.within(1..=9_999) as u32 } else { trip };
        let whole = trip_text(written, &stops).into_bytes();
        let text = if random.one_in(4) { damaged(random, &whole) } else { whole.clone() };
        let reply = self.room.add(trip, &text);
        let number = u16::try_from(trip).unwrap_or(0);
        let runs = self.model.trips.contains_key(&number);
        assert_eq!(reply.number == 19, runs, "adding {trip}");
        if text == whole && trip == written && !runs {
            let free = (1..=9_999).contains(&trip);
            assert_eq!(reply.number == 0, free, "adding {trip}");
        }
        if reply.number == 0 {
            met.added += 1;
            met.between += usize::from(self.model.trips.range(number..).next().is_some());
            // a damaged text may be that of another trip
            let timetable = timetable_of(&self.room.tables.timetable).expect("a timetable");
            met.back_again += usize::from(text == whole);
            self.model.trips.insert(number, timetable.trips[&number].clone());
            if text == whole {
                assert_eq!(self.model.trips[&number], stops);
            }
        }
        reply
    }

    /// Asks everything of the tables as they are now.
    fn look(&mut self, met: &mut Met) {
        let Day { room: Room { host, tables }, model, random, .. } = self;
        let Lent { timetable, lines: line_tables } = &*tables;
        assert_eq!(host.check_timetable(timetable), 0);
        assert_eq!(host.build_lines(timetable), Reply::done(lines(model).len()));
        assert_eq!(host.check_lines(timetable, line_tables), 0);
        assert_eq!(host.check_lines_alone(line_tables), 0);
        let gaps = model.trips.keys().last().is_some_and(|&last| usize::from(last) > model.trips.len());
        met.gaps += usize::from(gaps);
        let stations = model.stations.len();
        if stations < 2 {
            return;
        }
        let network = Network::new(model);
        for _ in 0..3 {
            let from = random.within(1..=stations) as u32;
            let to = (from as usize + random.below(stations - 1)) % stations + 1;
            let departures: Vec<u32> = network.minutes(from).into_iter().chain([0, LAST_MINUTE.into()]).collect();
            let query = Query { from, to: to as u32, minute: random.pick(&departures) };
            tables.direct(host, query);
            // from the store of some time ago: the running connections whose pattern it holds
            let old = &self.stores[from as usize - 1];
            let shown = host.query(tables.with(old), query);
            // from a store that is made now: what the whole list has
            let made = expected::store_words(model, from).expect("a store that is made");
            assert_eq!(tables.make_store(host, from), Reply::done(made.len()));
            let whole = search::whole(&network, query);
            let expected = expected::answer_of(&whole, query, QUERY_WORDS);
            let reply = host.query_as(tables.with(&made), query, QUERY_WORDS, expected);
            met.rows += whole.len();
            met.on_foot += whole.iter().filter(|row| row.is_on_foot()).count();
            met.platforms += whole.iter().filter(|row| row.platforms(model).next().is_some()).count();
            met.old_store_shows_less += usize::from(reply.number == 0 && shown != reply);
            met.old_store_shows_all += usize::from(reply.number == 0 && shown == reply);
        }
        if self.random.one_in(6) {
            self.stores = self.made_stores();
        }
    }
}

fn days(seed: u64, count: u64, changes: usize, timetable: impl Fn(&mut Random) -> Timetable) -> Met {
    let mut random = Random::new(seed);
    let mut met = Met::default();
    for at in 0..count {
        let timetable = timetable(&mut random);
        if timetable.trips.is_empty() {
            continue;
        }
        let mut day = Day::new(&timetable, 1_000 * seed + at);
        for _ in 0..changes {
            day.change(&mut met);
            day.look(&mut met);
        }
    }
    met
}

#[test]
fn days_where_changing_pays() {
    let met = days(10, 250, 12, |random| changing(random, &CHANGING));
    let Met { cancelled, added, gaps, between, back_again, old_store_shows_less, old_store_shows_all, .. } = met;
    let counts = [cancelled, added, gaps, between, back_again, old_store_shows_less, old_store_shows_all];
    let refused = [2, 3, 4, 18, 19].map(|number| met.replies[number]);
    assert!(counts.iter().all(|&count| count > 100) && refused.iter().all(|&count| count > 5), "{met:?}");
}

/// A change of trips keeps the walks.
#[test]
fn days_with_walks() {
    let villages = Size { stations: 4..=8, ..CHANGING };
    let met = days(20, 150, 12, |random| {
        let plain = changing(random, &villages);
        let on_foot = walked(random, &plain);
        with_platforms(random, &on_foot)
    });
    let counts = [met.cancelled, met.added, met.on_foot, met.platforms, met.old_store_shows_less];
    assert!(counts.iter().all(|&count| count > 30), "{met:?}");
}

#[test]
fn days_of_crowded_lines() {
    let size = Size { stations: 2..=3, trips: 1..=9, stops_of_a_trip: 2..=4 };
    let met = days(11, 200, 12, |random| crowded(random, &size));
    assert!(met.cancelled > 300 && met.added > 300 && met.none_left > 10 && met.rows > 1_000, "{met:?}");
    let met = days(12, 150, 12, |random| with_shared_ways(random, &CROWDED));
    assert!(met.cancelled > 200 && met.added > 200, "{met:?}");
}

#[test]
fn days_of_any_small_and_middling_timetables() {
    let met = days(13, 200, 10, |random| timetable(random, &SMALL));
    assert!(met.cancelled > 200 && met.added > 200 && met.none_left > 20, "{met:?}");
    let met = days(14, 20, 12, |random| with_shared_ways(random, &MIDDLING));
    assert!(met.cancelled > 40 && met.added > 20, "{met:?}");
}

/// Days at the limits: a change of the largest timetables is looked at in its words alone.
#[test]
fn days_at_the_limits() {
    let mut random = Random::new(15);
    for timetable in [largest(&mut random), rural(&mut random, 8), overtaking(), long_lines()] {
        let mut room = Room::new(&timetable);
        let mut model = timetable.clone();
        let mut gone: Vec<Vec<Stop>> = Vec::new();
        for _ in 0..30 {
            if random.one_in(2) && !gone.is_empty() {
                let trip = random.within(1..=600) as u16;
                if model.trips.contains_key(&trip) {
                    room.refuses(trip.into(), "", 19, 0);
                    continue;
                }
                let stops = gone.swap_remove(random.below(gone.len()));
                assert_eq!(room.add(trip.into(), trip_text(trip.into(), &stops)).number, 0);
                model.trips.insert(trip, stops);
            } else {
                let running: Vec<u16> = model.trips.keys().copied().collect();
                let trip = random.pick(&running);
                assert_eq!(room.cancel(trip.into()).number, 0);
                gone.push(model.trips.remove(&trip).expect("it runs"));
            }
            room.holds(&model);
        }
        let Lent { timetable, lines: tables } = &room.tables;
        assert_eq!(room.host.build_lines(timetable), Reply::done(lines(&model).len()));
        assert_eq!(room.host.check_lines(timetable, tables), 0);
        assert_eq!(room.host.check_lines_alone(tables), 0);
    }
}
