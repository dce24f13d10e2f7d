//! The line tables of timetables: which trips share a line, and every word.

use dairyepoch_tests::examples::M;
use dairyepoch_tests::ffi::{self, Reply};
use dairyepoch_tests::generate::{
    largest, long_lines, one_way, overtaking, timetable, with_shared_ways, with_trips, Size, LARGE, MIDDLING, SMALL,
};
use dairyepoch_tests::handmade;
use dairyepoch_tests::host::{self, longer, Host};
use dairyepoch_tests::lent::damaged;
use dairyepoch_tests::lines::{lines, same_way, LINE_WORDS, LINE_WORDS_MOST, WORK_WORDS};
use dairyepoch_tests::random::Random;
use dairyepoch_tests::reference::accepted;
use dairyepoch_tests::timetable::{clock, Stop, Timetable};
use dairyepoch_tests::words::{to_words, TIMETABLE_WORDS};

#[rustfmt::skip]
const M_LINES: [u16; 56] = [
    3, 2, 3, 42,
    6, 24,
    3, 1,  1,  1, 0, 0,  2, 0, 0,  3, 0, 0,  0, 480,  500, 501,  560, 0,
    2, 2,  3, 2,  2, 0, 0,  3, 0, 0,  0, 0, 502, 503,  515, 520, 0, 0,
    46, 48, 52, 56,
    1, 1,
    1, 2,  2, 1,
    1, 3,  2, 2,
];

/// The timetable's words in a slice of the least length, with any words behind them.
fn lent(timetable: &Timetable, random: &mut Random) -> Vec<u16> {
    host::lent(to_words(timetable), random)
}

fn lent_text(text: &str) -> Vec<u16> {
    lent(&accepted(text), &mut Random::new(0))
}

/// What is built of the words, as far as docs/LAYOUT.md says that it goes; it must be a success.
fn built(timetable: &[u16]) -> Vec<u16> {
    let mut words = vec![0xabcd; LINE_WORDS];
    let reply = ffi::build_lines(timetable, &mut words, &mut vec![0; WORK_WORDS]);
    assert_eq!(reply, Reply { number: 0, beside: u32::from(words[1]) });
    let stations = usize::from(words[0]);
    let end = usize::from(words[usize::from(words[3]) + stations]);
    assert!(words[end..].iter().all(|&word| word == 0xabcd), "a word past the tables was written");
    words.truncate(end);
    words
}

/// The trips' numbers, line by line, as they stand in the words built.
fn built_lines(timetable: &[u16]) -> Vec<Vec<u16>> {
    let words = built(timetable);
    let line = |&begin: &u16| {
        let piece = &words[usize::from(begin)..];
        piece[2..2 + usize::from(piece[1])].to_vec()
    };
    words[4..4 + usize::from(words[1])].iter().map(line).collect()
}

/// The lines of a text, which are also the reference's.
fn text_lines(text: &str) -> Vec<Vec<u16>> {
    let words = lent_text(text);
    assert_eq!(Host::new(1).build_lines(&words).number, 0);
    built_lines(&words)
}

/// Trips from station 1 to 2, by departure and arrival.
fn shuttles(times: &[(u16, u16)]) -> String {
    let trip = |(trip, &(depart, arrive)): (usize, &(u16, u16))| {
        format!("T,{trip},1,1,,{},0,0\nT,{trip},2,2,{},,,0\n", clock(depart), clock(arrive))
    };
    "S,1,0,1\nS,2,0,1\n".to_string() + &(1..).zip(times).map(trip).collect::<String>()
}

/// Two trips over stations 1, 2, 1, each by the rest of its lines.
fn two_trips(trips: [[&str; 3]; 2]) -> String {
    let trip = |(trip, rests): (usize, [&str; 3])| {
        format!("T,{trip},1,1,{},0\nT,{trip},2,2,{},0\nT,{trip},3,1,{},0\n", rests[0], rests[1], rests[2])
    };
    "S,1,0,1\nS,2,0,1\n".to_string() + &(1..).zip(trips).map(trip).collect::<String>()
}

#[test]
fn case_e_the_lines_of_m() {
    assert_eq!(text_lines(M), [vec![1], vec![3, 2]]);
    Host::new(2).expect_lines(&lent_text(M), 0, 2);
}

#[test]
fn m_leads_to_its_words() {
    assert_eq!(built(&lent_text(M)), M_LINES);
}

#[test]
fn case_f_overtaken_by_a_minute() {
    assert_eq!(text_lines(&M.replace("08:40", "08:34")), [vec![1], vec![3], vec![2]]);
    assert_eq!(text_lines(&M.replace("08:40", "08:35")), [vec![1], vec![3, 2]]);
}

#[test]
fn without_trips_there_are_empty_lists_only() {
    assert_eq!(built(&lent_text("S,1,0,1\n")), [1, 0, 0, 4, 6, 6]);
    assert_eq!(built(&lent_text("S,1,0,1\nS,2,240,1000\n")), [2, 0, 0, 4, 7, 7, 7]);
    let mut host = Host::new(3);
    let mut random = Random::new(4);
    for stations in 1..=64 {
        host.expect_lines(&lent(&with_trips(&mut random, stations, &[]), &mut random), 0, 0);
    }
}

#[test]
fn trips_are_taken_by_first_departure_then_number() {
    assert_eq!(text_lines(&shuttles(&[(30, 40), (10, 20), (20, 30)])), [[2, 3, 1]]);
    assert_eq!(text_lines(&shuttles(&[(10, 20), (10, 20), (10, 20)])), [[1, 2, 3]]);
    assert_eq!(text_lines(&shuttles(&[(10, 20), (10, 30)])), [[1, 2]]);
    assert_eq!(text_lines(&shuttles(&[(10, 30), (10, 20)])), [[1], [2]]);
    assert_eq!(text_lines(&shuttles(&[(256, 300), (1, 301), (255, 302)])), [vec![2, 3], vec![1]]);
}

#[test]
fn a_trip_joins_the_lowest_line_that_takes_it() {
    assert_eq!(text_lines(&shuttles(&[(0, 100), (10, 50), (20, 200), (30, 60)])), [[1, 3], [2, 4]]);
    assert_eq!(text_lines(&shuttles(&[(0, 100), (1, 90), (2, 80), (3, 95)])), [vec![1], vec![2, 4], vec![3]]);
}

#[test]
fn a_trip_is_held_against_the_last_of_a_line() {
    assert_eq!(text_lines(&shuttles(&[(0, 100), (10, 200), (20, 150)])), [vec![1, 2], vec![3]]);
    assert_eq!(text_lines(&shuttles(&[(0, 100), (10, 200), (20, 150), (30, 199)])), [[1, 2], [3, 4]]);
}

#[test]
fn each_arrival_and_departure_counts() {
    let first = [",01:40,0", "02:00,02:10,0", "02:30,,"];
    for (second, lines) in [
        (first, 1),
        ([",01:41,0", "02:00,02:10,0", "02:30,,"], 1),
        ([",01:41,0", "01:59,02:10,0", "02:30,,"], 2),
        ([",01:41,0", "02:01,02:09,0", "02:31,,"], 2),
        ([",01:41,0", "02:01,02:11,0", "02:29,,"], 2),
        ([",01:39,0", "02:00,02:10,0", "02:30,,"], 1),
        ([",01:39,0", "02:01,02:10,0", "02:30,,"], 2),
        ([",01:39,0", "02:00,02:11,0", "02:30,,"], 2),
        ([",01:39,0", "02:00,02:10,0", "02:31,,"], 2),
    ] {
        assert_eq!(text_lines(&two_trips([first, second])).len(), lines, "{second:?}");
    }
}

#[test]
fn each_penalty_and_station_counts() {
    let first = [",01:40,5", "02:00,02:10,0", "02:30,,"];
    for second in [
        [",01:40,4", "02:00,02:10,0", "02:30,,"],
        [",01:40,5", "02:00,02:10,1", "02:30,,"],
        [",01:40,0", "02:00,02:10,5", "02:30,,"],
    ] {
        assert_eq!(text_lines(&two_trips([first, second])), [[1], [2]], "{second:?}");
    }
    let stations = "S,1,0,1\nS,2,0,1\nS,3,0,1\n";
    for (one, other) in [([1, 2, 3], [1, 2, 1]), ([1, 2, 3], [2, 1, 3]), ([1, 2, 1], [3, 2, 1]), ([1, 2, 1], [1, 3, 1])]
    {
        let trip = |trip: usize, way: [usize; 3]| {
            format!(
                "T,{trip},1,{},,00:00,0,0\nT,{trip},2,{},00:01,00:01,0,0\nT,{trip},3,{},00:02,,,0\n",
                way[0], way[1], way[2]
            )
        };
        let text = |second| stations.to_string() + &trip(1, one) + &trip(2, second);
        assert_eq!(text_lines(&text(other)), [[1], [2]]);
        assert_eq!(text_lines(&text(one)), [[1, 2]]);
    }
}

#[test]
fn a_trip_that_goes_on_is_on_another_line() {
    let short = "T,1,1,1,,00:00,0,0\nT,1,2,2,00:01,,,0\n";
    let long = "T,2,1,1,,00:00,0,0\nT,2,2,2,00:01,00:01,0,0\nT,2,3,1,00:02,,,0\n";
    assert_eq!(text_lines(&format!("S,1,0,1\nS,2,0,1\n{short}{long}")), [[1], [2]]);
    let long = long.replace("T,2,", "T,1,");
    let short = short.replace("T,1,", "T,2,");
    assert_eq!(text_lines(&format!("S,1,0,1\nS,2,0,1\n{long}{short}")), [[1], [2]]);
}

#[test]
fn a_station_met_twice_is_listed_twice() {
    let text = two_trips([[",00:07,1", "00:08,00:09,2", "00:10,,"], [",00:07,1", "00:09,00:09,2", "00:11,,"]]);
    #[rustfmt::skip]
    let words = [
        2, 1, 2, 30,
        5,
        3, 2,  1, 2,  1, 0, 0,  2, 1, 0,  1, 3, 0,  0, 0, 7, 7,  8, 9, 9, 9,  10, 11, 0, 0,
        33, 37, 39,
        1, 1,  1, 3,
        1, 2,
    ];
    assert_eq!(built(&lent_text(&text)), words);
}

/// The words of a position of one trip that has this ride penalty at each of 2,048 stops; places count from 0.
fn position(penalty: u16, place: usize) -> [u16; 3] {
    let words = lent(&one_way(2_048, penalty, &[0, 2_047]), &mut Random::new(30));
    Host::new(31).expect_lines(&words, 0, 1);
    built(&words)[8 + 3 * place..][..3].try_into().expect("3 words")
}

#[test]
fn a_total_has_two_words_the_low_one_first() {
    for (place, words) in [
        (0, [1, 0, 0]),
        (1, [4, 100, 0]),
        (2, [3, 200, 0]),
        (655, [4, 65_500, 0]),
        (656, [3, 64, 1]),
        (1_310, [3, 65_464, 1]),
        (1_311, [4, 28, 2]),
        (1_966, [3, 65_528, 2]),
        (1_967, [4, 92, 3]),
        (2_043, [4, 7_692, 3]),
        (2_046, [3, 7_992, 3]),
        (2_047, [2, 8_092, 3]),
    ] {
        assert_eq!(position(100, place), words, "place {place}");
    }
    // exactly 65,535, 65,536 and 131,072
    assert_eq!(position(51, 1_285), [4, 65_535, 0]);
    assert_eq!(position(51, 1_286), [3, 50, 1]);
    assert_eq!(position(64, 1_023), [4, 65_472, 0]);
    assert_eq!(position(64, 1_024), [3, 0, 1]);
    assert_eq!(position(0, 2_047), [2, 0, 0]);
    assert_eq!([1_310, 1_311].map(|place| position(50, place)), [[3, 65_500, 0], [4, 14, 1]]);
}

#[test]
fn each_line_has_totals_of_its_own() {
    let trips: [&[_]; 2] = [&[(1, 0, 10, 7), (2, 20, 20, 90), (1, 30, 0, 0)], &[(2, 0, 15, 5), (1, 25, 0, 0)]];
    #[rustfmt::skip]
    let words = [
        2, 2, 2, 37,
        6, 24,
        3, 1,  1,  1, 0, 0,  2, 7, 0,  1, 97, 0,  0, 10,  20, 20,  30, 0,
        2, 1,  2,  2, 0, 0,  1, 5, 0,  0, 15,  25, 0,
        40, 46, 50,
        1, 1,  1, 3,  2, 2,
        1, 2,  2, 1,
    ];
    assert_eq!(built(&lent_text(&handmade::text(&[(0, 1); 2], &trips))), words);
}

/// What must have been met among generated timetables.
#[derive(Debug, Default)]
struct Met {
    shared: usize,
    single: usize,
    overtaken: usize,
    out_of_number: usize,
    equal_departures: usize,
    equal_trips: usize,
    loops: usize,
    none: usize,
}

impl Met {
    fn note(&mut self, timetable: &Timetable) {
        let trips = &timetable.trips;
        let lines = lines(timetable);
        let pairs = |of: &dyn Fn(u16, u16) -> bool| {
            (0..lines.len()).any(|one| (0..one).any(|other| of(lines[one][0], lines[other][0])))
        };
        let neighbours = |of: &dyn Fn(u16, u16) -> bool| {
            lines.iter().any(|line| line.windows(2).any(|trips| of(trips[0], trips[1])))
        };
        let departs = |trip: u16| trips[&trip][0].onward;
        let meets_twice = |stops: &Vec<Stop>| {
            (0..stops.len()).any(|one| (0..one).any(|other| stops[one].station == stops[other].station))
        };
        self.shared += usize::from(lines.iter().any(|line| line.len() > 1));
        self.single += usize::from(lines.iter().any(|line| line.len() == 1));
        self.overtaken += usize::from(pairs(&|one, other| same_way(&trips[&one], &trips[&other])));
        self.out_of_number += usize::from(neighbours(&|one, next| one > next));
        self.equal_departures += usize::from(neighbours(&|one, next| departs(one) == departs(next)));
        self.equal_trips += usize::from(neighbours(&|one, next| trips[&one] == trips[&next]));
        self.loops += usize::from(trips.values().any(meets_twice));
        self.none += usize::from(trips.is_empty());
    }

    fn all(&self) -> bool {
        let Met { shared, single, overtaken, out_of_number, equal_departures, equal_trips, loops, none } = *self;
        let counts = [shared, single, overtaken, out_of_number, equal_departures, equal_trips, loops, none];
        counts.iter().all(|&count| count > 0)
    }
}

fn timetables_with_shared_ways(size: &Size, count: u64) -> Met {
    let mut host = Host::new(count);
    let mut random = Random::new(count);
    let mut met = Met::default();
    for _ in 0..count {
        let timetable = with_shared_ways(&mut random, size);
        met.note(&timetable);
        host.expect_lines(&lent(&timetable, &mut random), 0, lines(&timetable).len() as u32);
    }
    met
}

#[test]
fn small_timetables_with_shared_ways() {
    let size = Size { stations: 2..=3, trips: 0..=6, stops_of_a_trip: 2..=4 };
    let met = timetables_with_shared_ways(&size, 10_000);
    assert!(met.all(), "{met:?}");
}

#[test]
fn middling_timetables_with_shared_ways() {
    let met = timetables_with_shared_ways(&MIDDLING, 3_000);
    assert!(met.all(), "{met:?}");
}

#[test]
fn large_timetables_with_shared_ways() {
    let met = timetables_with_shared_ways(&LARGE, 200);
    assert!(Met { none: 1, ..met }.all(), "{met:?}");
}

#[test]
fn timetables_of_any_kind() {
    let mut host = Host::new(5);
    let mut random = Random::new(6);
    for (size, count) in [(SMALL, 5_000), (MIDDLING, 1_000), (LARGE, 100)] {
        for _ in 0..count {
            assert_eq!(host.build_lines(&lent(&timetable(&mut random, &size), &mut random)).number, 0);
        }
    }
    for _ in 0..50 {
        let words = lent(&largest(&mut random), &mut random);
        assert_eq!(host.build_lines(&words).number, 0);
        assert!(built(&words).len() <= LINE_WORDS_MOST);
    }
}

#[test]
fn the_words_that_reading_wrote_are_taken() {
    let mut host = Host::new(7);
    let mut random = Random::new(8);
    for _ in 0..500 {
        let mut words: Vec<u16> = (0..TIMETABLE_WORDS).map(|_| random.word()).collect();
        assert_eq!(ffi::read(&with_shared_ways(&mut random, &MIDDLING).to_text(), &mut words).number, 0);
        assert_eq!(host.build_lines(&words).number, 0);
    }
}

#[test]
fn lines_of_one_trip_each_at_the_limits() {
    let words = lent(&overtaking(), &mut Random::new(9));
    Host::new(10).expect_lines(&words, 0, 256);
    assert_eq!(built(&words).len(), LINE_WORDS_MOST);
    let singles: Vec<Vec<u16>> = (1..=256).map(|trip| vec![trip]).collect();
    assert_eq!(built_lines(&words), singles);
}

#[test]
fn one_line_of_all_trips_at_the_limits() {
    let mut random = Random::new(11);
    let equal = lent(&long_lines(), &mut random);
    Host::new(12).expect_lines(&equal, 0, 1);
    assert_eq!(built_lines(&equal), [(1..=256).collect::<Vec<u16>>()]);
    // numbered backwards
    let falling: Vec<(u16, u16)> = (0..256).map(|trip| (2_000 - trip, 2_879 - trip)).collect();
    assert_eq!(text_lines(&shuttles(&falling)), [(1..=256).rev().collect::<Vec<u16>>()]);
}

#[test]
fn one_trip_of_all_stops() {
    let mut random = Random::new(13);
    for stations in [2, 3, 63, 64] {
        let words = lent(&with_trips(&mut random, stations, &[2_048]), &mut random);
        Host::new(14).expect_lines(&words, 0, 1);
        assert_eq!(built(&words).len(), 4 + 1 + (2 + 1 + 6_144 + 4_096) + stations + 1 + 4_096);
    }
}

#[test]
fn a_slice_too_short_gives_8_before_9() {
    let mut random = Random::new(15);
    let whole: Vec<Vec<u16>> =
        [accepted(M), overtaking(), long_lines()].iter().map(|timetable| lent(timetable, &mut random)).collect();
    const ENOUGH: usize = 16_384;
    for words in &whole {
        for words in [words.clone(), damaged(words.clone())] {
            for short in [0, 1, 51, 56, 15_429, 16_383] {
                Host::new(16).expect_lines(&words[..short], 8, 0);
                Host::lending_both(short, ENOUGH, 17).expect_lines(&words, 8, 0);
                Host::lending_both(ENOUGH, short, 18).expect_lines(&words, 8, 0);
                Host::lending_both(short, short, 19).expect_lines(&words[..short], 8, 0);
            }
        }
        Host::new(20).expect_lines(&damaged(words.clone()), 9, 0);
    }
    assert_eq!(ffi::build_lines_of_nothing(), Reply::refused(8));
}

#[test]
fn slices_of_16384_words_or_more_are_long_enough() {
    let mut random = Random::new(21);
    let words = lent(&overtaking(), &mut random);
    for length in [16_384, 16_385, 20_000, 65_535, 65_536, 65_537, 2 * 65_536] {
        let longer = longer(&words, length, &mut random);
        for (timetable, length, work_length) in
            [(&longer, 16_384, 16_384), (&words, length, 16_384), (&words, 16_384, length), (&longer, length, length)]
        {
            let mut host = Host::lending_both(length, work_length, 22);
            host.expect_lines(timetable, 0, 256);
            host.expect_lines(&damaged(timetable.clone()), 9, 0);
        }
    }
}

#[test]
fn words_past_the_timetable_do_not_count() {
    let mut host = Host::new(23);
    for behind in [0, 1, 2_880, 0xffff] {
        let mut words = to_words(&accepted(M));
        words.resize(TIMETABLE_WORDS, behind);
        host.expect_lines(&words, 0, 2);
        assert_eq!(built(&words), M_LINES);
    }
}

#[test]
fn each_word_changed_gives_9_or_other_tables() {
    let mut host = Host::new(24);
    let mut random = Random::new(25);
    let mut tally = [0; 10];
    let table = lent_text(M);
    let edges =
        [0, 1, 2, 3, 4, 64, 65, 100, 101, 241, 256, 257, 502, 515, 2_049, 2_880, 16_383, 16_384, 0x8000, 0xffff];
    for at in 0..51 {
        for value in edges.into_iter().chain([random.word(), table[at] ^ 1, table[at].wrapping_add(1)]) {
            let mut words = table.clone();
            words[at] = value;
            tally[host.build_lines(&words).number as usize] += 1;
        }
    }
    assert!(tally[0] > 50 && tally[9] > 500 && tally[0] + tally[9] == 51 * 23, "by reply number: {tally:?}");
}

#[test]
fn timetables_damaged_at_random() {
    let mut host = Host::new(26);
    let mut random = Random::new(27);
    let mut tally = [0; 10];
    for (size, count) in [(SMALL, 5_000), (MIDDLING, 2_000), (LARGE, 200)] {
        for _ in 0..count {
            let timetable = with_shared_ways(&mut random, &size);
            let length = to_words(&timetable).len();
            let mut words = lent(&timetable, &mut random);
            for _ in 0..random.within(1..=2) {
                let at = random.below(length);
                words[at] = match random.below(3) {
                    0 => random.word(),
                    1 => words[at].wrapping_add(1),
                    _ => words[at].wrapping_sub(1),
                };
            }
            tally[host.build_lines(&words).number as usize] += 1;
        }
    }
    assert!(tally[0] > 500 && tally[9] > 500, "by reply number: {tally:?}");
}

#[test]
fn slices_of_random_words_give_9() {
    let mut host = Host::new(28);
    let mut random = Random::new(29);
    for _ in 0..300 {
        let words: Vec<u16> = (0..TIMETABLE_WORDS).map(|_| random.word()).collect();
        host.expect_lines(&words, 9, 0);
        host.expect_lines(&vec![words[0]; TIMETABLE_WORDS], 9, 0);
    }
}
