//! Line tables with times by stop, which every call takes, and with times by trip: the two calls that translate, and
//! the question 10 that each of them asks of the layout it takes.

use dairyepoch_tests::examples::M;
use dairyepoch_tests::ffi::{self, Reply};
use dairyepoch_tests::generate::{
    crowded, largest, long_lines, one_way, overtaking, rural, timetable, with_shared_ways, with_trips, CROWDED, LARGE,
    MIDDLING, SMALL,
};
use dairyepoch_tests::host::{lent, longer, Host};
use dairyepoch_tests::lent::{damaged, noes, Lent, LONGER_LENGTHS};
use dairyepoch_tests::lines::{self, lines, LINE_WORDS, WORK_WORDS};
use dairyepoch_tests::random::Random;
use dairyepoch_tests::reference::accepted;
use dairyepoch_tests::timetable::{Timetable, RIDE_PENALTY_MOST};
use dairyepoch_tests::words::{to_words, TIMETABLE_WORDS};

/// M's tables by trip, written by hand: line 1 has one trip, so that its words are the same in both layouts.
#[rustfmt::skip]
const M_BY_TRIP: [u16; 56] = [
    3, 2, 3, 42,
    6, 24,
    3, 1,  1,  1, 0, 0,  2, 0, 0,  3, 0, 0,  0, 480,  500, 501,  560, 0,
    2, 2,  3, 2,  2, 0, 0,  3, 0, 0,  0, 502, 515, 0,  0, 503, 520, 0,
    46, 48, 52, 56,
    1, 1,
    1, 2,  2, 1,
    1, 3,  2, 2,
];

/// Timetables with lines of several trips and of one, overtaken trips, equal times and stations met twice.
fn any_timetable(random: &mut Random) -> Timetable {
    match random.below(4) {
        0 => timetable(random, &SMALL),
        1 => with_shared_ways(random, &SMALL),
        _ => crowded(random, &CROWDED),
    }
}

/// Timetables of 64 stations, 256 trips and 2,048 stops, of one line, of 256 and of any, and of a single trip.
fn timetables_at_the_limits(random: &mut Random) -> [Timetable; 6] {
    let dearest = one_way(2_048, RIDE_PENALTY_MOST, &[0, 2_047]);
    [long_lines(), overtaking(), largest(random), with_trips(random, 64, &[2_048]), dearest, rural(random, 8)]
}

/// A timetable's words, and its line tables in both layouts.
struct Both {
    timetable: Vec<u16>,
    by_stop: Vec<u16>,
    by_trip: Vec<u16>,
    length: usize,
}

impl Both {
    fn new(timetable: &Timetable, random: &mut Random) -> Both {
        let Lent { timetable: words, lines: by_stop } = Lent::new(timetable, random);
        let turned = lines::to_words_by_trip(timetable);
        let length = turned.len();
        Both { timetable: words, by_stop, by_trip: lent(turned, random), length }
    }

    fn layouts_differ(&self) -> bool {
        self.by_stop[..self.length] != self.by_trip[..self.length]
    }
}

/// The other layout of tables by their words alone: the times of a line are taken as a matrix of positions and trips.
fn transposed(words: &[u16]) -> Vec<u16> {
    let mut turned = words.to_vec();
    for line in 0..usize::from(words[1]) {
        let at = usize::from(words[4 + line]);
        let [positions, trips] = [0, 1].map(|count| usize::from(words[at + count]));
        let times = at + 2 + trips + 3 * positions;
        for (position, row) in words[times..].chunks(2 * trips).take(positions).enumerate() {
            let (arrivals, departures) = row.split_at(trips);
            for (trip, (&arrive, &depart)) in arrivals.iter().zip(departures).enumerate() {
                let place = times + 2 * (trip * positions + position);
                turned[place..place + 2].copy_from_slice(&[arrive, depart]);
            }
        }
    }
    turned
}

/// Both calls on tables of both layouts: each takes one, and the other too only where both are the same words.
fn translate(host: &mut Host, timetable: &Timetable, random: &mut Random) -> bool {
    let both = Both::new(timetable, random);
    let count = Reply::done(lines(timetable).len());
    let wrong = if both.layouts_differ() { Reply::refused(10) } else { count };
    assert_eq!(host.times_by_trip(&both.timetable, &both.by_stop), count);
    assert_eq!(host.times_by_stop(&both.timetable, &both.by_trip), count);
    assert_eq!(host.times_by_trip(&both.timetable, &both.by_trip), wrong);
    assert_eq!(host.times_by_stop(&both.timetable, &both.by_stop), wrong);
    assert_eq!(host.check_lines(&both.timetable, &both.by_trip), wrong.number);
    assert_eq!(both.layouts_differ(), lines(timetable).iter().any(|line| line.len() > 1 && differs(timetable, line)));
    assert_eq!(transposed(&both.by_stop[..both.length]), both.by_trip[..both.length]);
    there_and_back(&both, random);
    both.layouts_differ()
}

/// Whether the times of a line of several trips stand in another order, by trip: equal times may hide it.
fn differs(timetable: &Timetable, line: &[u16]) -> bool {
    let alone = Timetable {
        trips: line.iter().map(|trip| (*trip, timetable.trips[trip].clone())).collect(),
        ..timetable.without_trips()
    };
    lines::to_words(&alone) != lines::to_words_by_trip(&alone)
}

/// What one call wrote is lent to the other, which must write the words lent first.
fn there_and_back(both: &Both, random: &mut Random) {
    let mut work = vec![0; WORK_WORDS];
    let [mut other, mut back] = [0; 2].map(|_| lent(Vec::new(), random));
    assert_eq!(ffi::times_by_trip(&both.timetable, &both.by_stop, &mut work, &mut other).number, 0);
    assert_eq!(ffi::times_by_stop(&both.timetable, &other, &mut work, &mut back).number, 0);
    assert_eq!(back[..both.length], both.by_stop[..both.length]);
    assert_eq!(ffi::times_by_stop(&both.timetable, &both.by_trip, &mut work, &mut back).number, 0);
    assert_eq!(ffi::times_by_trip(&both.timetable, &back, &mut work, &mut other).number, 0);
    assert_eq!(other[..both.length], both.by_trip[..both.length]);
}

#[test]
fn times_by_trip_of_m() {
    let timetable = accepted(M);
    assert_eq!(lines::to_words_by_trip(&timetable), M_BY_TRIP);
    let mut random = Random::new(1);
    assert!(translate(&mut Host::new(2), &timetable, &mut random));
}

#[test]
fn generated_timetables_in_both_layouts() {
    let mut host = Host::new(3);
    let mut random = Random::new(4);
    let mut different = 0;
    for _ in 0..3_000 {
        different += usize::from(translate(&mut host, &any_timetable(&mut random), &mut random));
    }
    assert!((500..2_900).contains(&different), "{different} of 3,000 have two layouts");
    for (size, count) in [(MIDDLING, 200), (LARGE, 20)] {
        for _ in 0..count {
            translate(&mut host, &timetable(&mut random, &size), &mut random);
            translate(&mut host, &with_shared_ways(&mut random, &size), &mut random);
        }
    }
}

#[test]
fn timetables_at_the_limits_in_both_layouts() {
    let mut host = Host::new(5);
    let mut random = Random::new(6);
    for timetable in timetables_at_the_limits(&mut random) {
        translate(&mut host, &timetable, &mut random);
    }
    for stations in [1, 2, 3, 63, 64] {
        for lengths in [&[][..], &[2], &[2; 256], &[8; 256], &[2_048], &[1_024; 2]] {
            if stations > 1 || lengths.is_empty() {
                translate(&mut host, &with_trips(&mut random, stations, lengths), &mut random);
            }
        }
    }
}

/// Lines of one trip are the same words in both layouts, and so are tables without a line: either call takes them.
#[test]
fn one_layout_for_the_other_passes_where_both_are_the_same_words() {
    let mut host = Host::new(7);
    let mut random = Random::new(8);
    for timetable in [with_trips(&mut random, 1, &[]), with_trips(&mut random, 64, &[2_048]), overtaking()] {
        assert!(!translate(&mut host, &timetable, &mut random));
    }
    assert!(translate(&mut host, &long_lines(), &mut random));
}

/// Changes one word, in one of several ways.
fn tamper(words: &mut [u16], at: usize, kind: usize, random: &mut Random) {
    match kind {
        0 => words[at] = words[at].wrapping_add(1),
        1 => words[at] = words[at].wrapping_sub(1),
        2 => words[at] = random.word(),
        _ => words.swap(at, at + 1),
    }
}

const KINDS: usize = 4;

#[test]
fn each_word_of_many_tables_tampered_with_in_both_layouts() {
    let mut host = Host::new(9);
    let mut random = Random::new(10);
    let mut tally = [0; 11];
    for _ in 0..40 {
        let mut both = Both::new(&any_timetable(&mut random), &mut random);
        for at in 0..both.length {
            for kind in 0..KINDS {
                let (word, next) = (both.by_stop[at], both.by_stop[at + 1]);
                tamper(&mut both.by_stop, at, kind, &mut random);
                tally[host.times_by_trip(&both.timetable, &both.by_stop).number as usize] += 1;
                (both.by_stop[at], both.by_stop[at + 1]) = (word, next);
                let (word, next) = (both.by_trip[at], both.by_trip[at + 1]);
                tamper(&mut both.by_trip, at, kind, &mut random);
                tally[host.times_by_stop(&both.timetable, &both.by_trip).number as usize] += 1;
                (both.by_trip[at], both.by_trip[at + 1]) = (word, next);
            }
        }
    }
    assert!(tally[0] > 100 && tally[10] > 10_000, "by reply number: {tally:?}");
}

#[test]
fn words_at_the_limits_tampered_with_in_both_layouts() {
    let mut host = Host::new(11);
    let mut random = Random::new(12);
    for timetable in timetables_at_the_limits(&mut random) {
        let mut both = Both::new(&timetable, &mut random);
        for round in 0..60 {
            let at = if round < 6 { round } else { random.below(both.length) };
            let (word, next) = (both.by_stop[at], both.by_stop[at + 1]);
            tamper(&mut both.by_stop, at, round % KINDS, &mut random);
            host.times_by_trip(&both.timetable, &both.by_stop);
            (both.by_stop[at], both.by_stop[at + 1]) = (word, next);
            let (word, next) = (both.by_trip[at], both.by_trip[at + 1]);
            tamper(&mut both.by_trip, at, round % KINDS, &mut random);
            host.times_by_stop(&both.timetable, &both.by_trip);
            (both.by_trip[at], both.by_trip[at + 1]) = (word, next);
        }
    }
}

#[test]
fn words_behind_the_tables_are_not_judged() {
    let mut host = Host::new(13);
    let mut random = Random::new(14);
    for timetable in [accepted(M), with_trips(&mut random, 1, &[]), long_lines()] {
        let mut both = Both::new(&timetable, &mut random);
        for filler in [0, 1, 64, 2_880, 0x7fff, 0x8000, 0xffff] {
            both.by_stop[both.length..].fill(filler);
            both.by_trip[both.length..].fill(filler);
            assert_eq!(host.times_by_trip(&both.timetable, &both.by_stop).number, 0);
            assert_eq!(host.times_by_stop(&both.timetable, &both.by_trip).number, 0);
        }
    }
}

#[test]
fn the_first_no_ends_a_translation() {
    let both = Both::new(&accepted(M), &mut Random::new(15));
    for ([short, no_timetable, no_lines], number) in noes([8, 9, 10]) {
        let words = if no_timetable { damaged(both.timetable.clone()) } else { both.timetable.clone() };
        let harmed = |tables: &[u16]| {
            let mut tables = tables.to_vec();
            tables[55] += u16::from(no_lines); // M's last
            tables
        };
        let [by_stop, by_trip] = [&both.by_stop, &both.by_trip].map(|tables| harmed(tables));
        let lengths: &[usize] = if short { &[0, 1, 55, 56, TIMETABLE_WORDS - 1] } else { &[] };
        for &length in lengths {
            for mut host in [Host::lending(length, 16), Host::lending_both(LINE_WORDS, length, 17)] {
                assert_eq!(host.times_by_trip(&words, &by_stop).number, number);
                assert_eq!(host.times_by_stop(&words, &by_trip).number, number);
            }
            let mut host = Host::new(18);
            for (words, by_stop, by_trip) in
                [(&words[..length], &by_stop[..], &by_trip[..]), (&words[..], &by_stop[..length], &by_trip[..length])]
            {
                assert_eq!(host.times_by_trip(words, by_stop).number, number);
                assert_eq!(host.times_by_stop(words, by_trip).number, number);
            }
        }
        if !short {
            let mut host = Host::new(19);
            assert_eq!(host.times_by_trip(&words, &by_stop).number, number);
            assert_eq!(host.times_by_stop(&words, &by_trip).number, number);
        }
    }
    assert_eq!(ffi::translate_nothing(), [Reply::refused(8); 2]);
}

#[test]
fn any_words_in_the_place_of_a_table() {
    let mut host = Host::new(20);
    let mut random = Random::new(21);
    let both = Both::new(&accepted(M), &mut random);
    for _ in 0..300 {
        let any = Lent::any(&mut random);
        assert_eq!(host.times_by_trip(&any.timetable, &both.by_stop).number, 9);
        assert_eq!(host.times_by_stop(&any.timetable, &both.by_trip).number, 9);
        assert_eq!(host.times_by_trip(&both.timetable, &any.lines).number, 10);
        assert_eq!(host.times_by_stop(&both.timetable, &any.lines).number, 10);
    }
    let ones = vec![u16::MAX; LINE_WORDS];
    assert_eq!(host.times_by_trip(&both.timetable, &ones).number, 10);
    assert_eq!(host.times_by_stop(&both.timetable, &ones).number, 10);
}

#[test]
fn longer_slices_change_nothing() {
    let mut random = Random::new(22);
    let timetable = with_shared_ways(&mut random, &MIDDLING);
    let both = Both::new(&timetable, &mut random);
    let words = lent(to_words(&timetable), &mut random);
    for length in LONGER_LENGTHS {
        let [words, by_stop, by_trip] =
            [&words, &both.by_stop, &both.by_trip].map(|words| longer(words, length, &mut random));
        let mut host = Host::lending_both(length, length, 23);
        assert_eq!(host.times_by_trip(&words, &by_stop).number, 0);
        assert_eq!(host.times_by_stop(&words, &by_trip).number, 0);
    }
}
