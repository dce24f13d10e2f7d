//! Stores: every word of what a store call writes, held against the patterns of all optimal connections.

use std::time::{Duration, Instant};

use dairyepoch_tests::connections::{self, Transfer};
use dairyepoch_tests::examples::M;
use dairyepoch_tests::expected::{self, LISTED_MOST};
use dairyepoch_tests::ffi::{self, Reply};
use dairyepoch_tests::generate::{
    changing, crowded, every_timetable, every_trip, largest, long_lines, most_rows, overtaking, rural, timetable,
    with_gaps, with_shared_ways, with_trips, Diamonds, Size, BUSY, CHANGING, CROWDED, LARGE, MIDDLING, SMALL,
};
use dairyepoch_tests::handmade::{hop, text, text_of_hops};
use dairyepoch_tests::host::{Host, STORE_WORDS};
use dairyepoch_tests::lent::{lend_any_words, noes, replies_to_tampered, Lent, LONGER_LENGTHS};
use dairyepoch_tests::lines::WORK_WORDS;
use dairyepoch_tests::random::Random;
use dairyepoch_tests::search::{self, Network};
use dairyepoch_tests::store::{Store, NODES_MOST, STORE_WORDS_MOST};
use dairyepoch_tests::timetable::{Station, Stop, Timetable};

/// The words of a source's store, or the number of the refusal; they are also the reference's.
fn store(text: &str, source: u32) -> Result<Vec<u16>, u32> {
    let lent = Lent::text(text);
    let mut store = vec![0xabcd; STORE_WORDS];
    let reply = ffi::make_store(&lent.timetable, &lent.lines, &mut vec![0; WORK_WORDS], source, &mut store);
    assert_eq!(lent.make_store(&mut Host::new(1), source), reply);
    let (words, rest) = store.split_at(reply.beside as usize);
    assert!(rest.iter().all(|&word| word == 0xabcd), "a word past the store was written");
    if reply.number == 0 {
        Ok(words.to_vec())
    } else {
        Err(reply.number)
    }
}

/// The sequences of a source's store, each without the source: the stations of the changes, then the target. Without
/// walks one boards where one has alighted, and the station is named once here.
fn sequences(text: &str, source: u32) -> Vec<Vec<u16>> {
    let words = store(text, source).expect("a store that is made");
    let store = Store::from_words(&words).expect("all its words");
    let station = |(alighted, boarded): (u16, u16)| {
        assert_eq!(alighted, boarded);
        alighted
    };
    let named = |(changes, target): (Vec<Transfer>, u16)| changes.into_iter().map(station).chain([target]).collect();
    let mut sequences: Vec<Vec<u16>> = store.sequences().into_iter().map(named).collect();
    sequences.sort_unstable();
    sequences
}

#[test]
fn case_b_the_store_of_1() {
    assert_eq!(store(M, 1), Ok(vec![1, 3, 2, 2, 0, 2, 0, 3, 0, 3, 1]));
}

#[test]
fn case_c_the_store_of_2() {
    assert_eq!(store(M, 2), Ok(vec![0, 1, 3, 0]));
}

#[test]
fn case_d_the_store_of_3() {
    assert_eq!(store(M, 3), Ok(vec![0, 0]));
}

#[test]
fn case_i_station_2_with_4_change_minutes() {
    assert_eq!(store(&M.replace("S,2,3,10", "S,2,4,10"), 1), Ok(vec![0, 2, 2, 0, 3, 0]));
}

#[test]
fn m_with_other_changes() {
    // with 2 change minutes trip 3 is caught, which dominates trip 2; the pattern is the same
    assert_eq!(store(&M.replace("S,2,3,10", "S,2,2,10"), 1), Ok(vec![1, 3, 2, 2, 0, 2, 0, 3, 0, 3, 1]));
    // where staying aboard arrives as early, the change is dominated
    assert_eq!(store(&M.replace("T,1,3,3,09:20", "T,1,3,3,08:40"), 1), Ok(vec![0, 2, 2, 0, 3, 0]));
    assert_eq!(store(&M.replace("T,1,3,3,09:20", "T,1,3,3,08:41"), 1), Ok(vec![1, 3, 2, 2, 0, 2, 0, 3, 0, 3, 1]));
    // where staying aboard costs as much as the change, it is dominated
    assert_eq!(store(&M.replace("08:21,0", "08:21,10"), 1), Ok(vec![1, 2, 2, 2, 0, 2, 0, 3, 1]));
    assert_eq!(store(&M.replace("08:21,0", "08:21,9"), 1), Ok(vec![1, 3, 2, 2, 0, 2, 0, 3, 0, 3, 1]));
    // change minutes at the source and the target are nobody's
    assert_eq!(store(&M.replace("S,1,2,10", "S,1,240,10").replace("S,3,5,10", "S,3,240,10"), 1), store(M, 1));
}

#[test]
fn the_customers_mistakes_do_not_lose_a_sequence() {
    // the 8:05 is slower than the 8:00, and who comes at 8:03 has no other: with it the change at 2 to the late bus
    let trips: [&[_]; 4] =
        [&hop(1, 2, 480, 500, 0), &hop(1, 2, 485, 515, 0), &hop(2, 3, 505, 510, 0), &hop(2, 4, 516, 520, 0)];
    assert_eq!(sequences(&text(&[(1, 1); 4], &trips), 1), [vec![2], vec![2, 3], vec![2, 4]]);
    // from 1 at 480 there is a way by 5 which is quicker; it is only there for those who come at 481 or later that
    // changing at 2 pays
    let trips: [&[_]; 4] =
        [&hop(1, 5, 480, 490, 0), &hop(5, 4, 490, 500, 0), &hop(1, 2, 485, 515, 0), &hop(2, 4, 515, 520, 0)];
    assert_eq!(sequences(&text(&[(0, 1); 5], &trips), 1), [vec![2], vec![2, 4], vec![5], vec![5, 4]]);
    // who stays in the seat needs no change minutes; who leaves it does
    let stay = [(1, 0, 10, 0), (2, 20, 20, 0), (3, 30, 0, 0)];
    assert_eq!(sequences(&text(&[(240, 1); 3], &[&stay]), 1), [vec![2], vec![3]]);
    // the slower way without a change is kept beside the quicker one with it, and the other way round
    let slow = [(1, 0, 10, 0), (2, 20, 25, 0), (3, 90, 0, 0)];
    assert_eq!(sequences(&text(&[(0, 1); 3], &[&slow, &hop(2, 3, 20, 30, 0)]), 1), [vec![2], vec![2, 3], vec![3]]);
}

#[test]
fn equal_costs_are_all_stored() {
    // by 2 or by 3 to 4, and there is a tie
    let ways = |late: u16, penalty: u16| {
        let trips: [&[_]; 4] =
            [&hop(1, 2, 10, 20, 0), &hop(1, 3, 11, 20, 0), &hop(2, 4, 30, 40, 0), &hop(3, 4, 30, 40 + late, penalty)];
        text(&[(5, 7); 4], &trips)
    };
    assert_eq!(sequences(&ways(0, 0), 1), [vec![2], vec![2, 4], vec![3], vec![3, 4]]);
    // one minute or one point more and only those who miss the bus to 2 go by 3
    assert_eq!(sequences(&ways(1, 0), 1), [vec![2], vec![2, 4], vec![3], vec![3, 4]]);
    // and with the bus to 3 leaving as early, nobody does
    let early =
        |text: String| text.replace("T,2,1,3,,00:11", "T,2,1,3,,00:10").replace("T,2,1,1,,00:11", "T,2,1,1,,00:10");
    assert_eq!(sequences(&early(ways(0, 0)), 1), [vec![2], vec![2, 4], vec![3], vec![3, 4]]);
    assert_eq!(sequences(&early(ways(1, 0)), 1), [vec![2], vec![2, 4], vec![3]]);
    assert_eq!(sequences(&early(ways(0, 1)), 1), [vec![2], vec![2, 4], vec![3]]);
    // a direct ride of equal cost is stored beside the changes
    let trips: [&[_]; 3] = [&hop(1, 2, 10, 20, 0), &hop(2, 3, 20, 30, 0), &hop(1, 3, 10, 30, 1)];
    assert_eq!(sequences(&text(&[(0, 1); 3], &trips), 1), [vec![2], vec![2, 3], vec![3]]);
    assert_eq!(sequences(&text(&[(0, 2); 3], &trips), 1), [vec![2], vec![3]]);
    // one trip, left and boarded again where the ride penalties of staying and the change penalty are equal: but to
    // stay costs nothing more than to leave and board at the same stop, so there is no such tie
    let one = [(1, 0, 10, 3), (2, 20, 20, 3), (3, 30, 0, 0)];
    assert_eq!(sequences(&text(&[(0, 1); 3], &[&one]), 1), [vec![2], vec![3]]);
}

#[test]
fn loops_of_a_trip() {
    // 1, 2, 3, 2, 4: leaving at 2 before an expensive loop and boarding the same trip after it pays
    let trip = |loop_penalty| {
        [(1, 0, 10, 0), (2, 20, 20, loop_penalty), (3, 30, 30, loop_penalty), (2, 40, 41, 0), (4, 50, 0, 0)]
    };
    let stations = [(1, 10); 4];
    assert_eq!(sequences(&text(&stations, &[&trip(4)]), 1), [vec![2], vec![3], vec![4]]);
    assert_eq!(sequences(&text(&stations, &[&trip(5)]), 1), [vec![2], vec![2, 4], vec![3], vec![4]]);
    assert_eq!(sequences(&text(&stations, &[&trip(6)]), 1), [vec![2], vec![2, 4], vec![3]]);
    assert_eq!(sequences(&text(&[(21, 10); 4], &[&trip(6)]), 1), [vec![2], vec![2, 4], vec![3]]);
    assert_eq!(sequences(&text(&[(22, 10); 4], &[&trip(6)]), 1), [vec![2], vec![3], vec![4]]);
    // to return to the source is never optimal for the source, nor is a pattern that passes it
    let round = [(1, 0, 10, 9), (2, 20, 20, 9), (1, 30, 30, 9), (3, 40, 0, 0)];
    assert_eq!(sequences(&text(&[(0, 1); 3], &[&round]), 1), [vec![2], vec![3]]);
    assert_eq!(sequences(&text(&[(0, 1); 3], &[&round]), 2), [vec![1], vec![3]]);
    // 1, 2, 1, 2: both rides to 2
    let twice = [(1, 0, 0, 5), (2, 10, 11, 2), (1, 20, 21, 1), (2, 40, 0, 0)];
    assert_eq!(sequences(&text(&[(0, 1); 2], &[&twice]), 1), [vec![2]]);
}

#[test]
fn change_minutes_to_the_minute() {
    for change_minutes in [0, 1, 2, 239, 240] {
        let onward = hop(2, 3, 20 + change_minutes, 300, 0);
        let too_early = hop(2, 3, 19 + change_minutes, 300, 0);
        let stations = [(7, 9), (change_minutes, 9), (8, 9)];
        let trips: [&[_]; 2] = [&hop(1, 2, 10, 20, 0), &onward];
        assert_eq!(sequences(&text(&stations, &trips), 1), [vec![2], vec![2, 3]]);
        let trips: [&[_]; 2] = [&hop(1, 2, 10, 20, 0), &too_early];
        assert_eq!(sequences(&text(&stations, &trips), 1), [vec![2]]);
    }
    // many changes within one minute are not possible: a ride takes a minute
    let trips: Vec<_> = (1..64).map(|station| hop(station, station + 1, 10, 11, 0)).collect();
    let at_once = text_of_hops(&[(0, 1); 64], &trips);
    assert_eq!(sequences(&at_once, 1), [vec![2]]);
}

#[test]
fn chains_of_many_changes() {
    // each to the next with no minute to spare: 62 nodes in a row, 63 arcs, patterns of 1 to 63 rides
    let trips: Vec<_> = (1..64).map(|station| hop(station, station + 1, station, station + 1, 0)).collect();
    let chain = text_of_hops(&[(0, 1000); 64], &trips);
    let words = store(&chain, 1).expect("a store");
    assert_eq!(words[..2], [62, 63]);
    assert_eq!(words[2..8], [2, 2, 0, 3, 3, 1]);
    assert_eq!(words[185..192], [63, 63, 61, 2, 0, 3, 1]);
    assert_eq!(words[words.len() - 2..], [64, 62]);
    assert_eq!(store(&chain, 63), Ok(vec![0, 1, 64, 0]));
    assert_eq!(store(&chain, 64), Ok(vec![0, 0]));
    // one minute of change at station 40 and the rest is out of reach
    let mut stations = [(0, 1); 64];
    stations[39] = (1, 1);
    let broken = text_of_hops(&stations, &trips);
    assert_eq!(store(&broken, 1).map(|words| words[..2].to_vec()), Ok(vec![38, 39]));
    // there and back between two stations on 256 trips: nothing but direct rides is optimal
    let trips: Vec<_> = (0..256).map(|at| hop(at % 2 + 1, 2 - at % 2, at, at + 1, 0)).collect();
    let shuttle = text_of_hops(&[(0, 1); 2], &trips);
    assert_eq!(store(&shuttle, 1), Ok(vec![0, 1, 2, 0]));
}

#[test]
fn shorter_nodes_come_first_and_arcs_rise() {
    // 1 to 5 to 4 to 3 to 2, and 1 to 3 to 5 later on
    let trips: [&[_]; 6] = [
        &hop(1, 5, 10, 11, 0),
        &hop(5, 4, 11, 12, 0),
        &hop(4, 3, 12, 13, 0),
        &hop(3, 2, 13, 14, 0),
        &hop(1, 3, 20, 21, 0),
        &hop(3, 5, 21, 22, 0),
    ];
    let words = store(&text(&[(0, 1); 5], &trips), 1);
    // nodes: 3; 5; 5,4; 5,4,3. arcs: 2 by 5,4,3; 3 direct and by 5,4; 4 by 5; 5 direct and by 3
    let expected = [4, 6, 3, 3, 0, 5, 5, 0, 4, 4, 2, 3, 3, 3, 2, 4, 3, 0, 3, 3, 4, 2, 5, 0, 5, 1];
    assert_eq!(words, Ok(expected.to_vec()));
    // 1 to 2 to 4 to 5, and 1 to 3 to 5 later on. Nodes: 2; 3; 2,4. Arcs: 2; 3; 4 by 2; 5 by 3 and by 2,4
    let trips: [&[_]; 5] = [
        &hop(1, 2, 10, 11, 0),
        &hop(2, 4, 11, 12, 0),
        &hop(4, 5, 12, 13, 0),
        &hop(1, 3, 11, 12, 0),
        &hop(3, 5, 12, 14, 0),
    ];
    let words = store(&text(&[(0, 1); 5], &trips), 1);
    assert_eq!(words, Ok(vec![3, 5, 2, 2, 0, 3, 3, 0, 4, 4, 1, 2, 0, 3, 0, 4, 1, 5, 2, 5, 3]));
}

/// What must have been met among the stores of generated timetables.
#[derive(Debug, Default)]
struct Met {
    listed: usize,
    searched: usize,
    empty: usize,
    direct_only: usize,
    with_changes: usize,
    of_two_changes: usize,
    a_tie: usize,
    several_to_one_target: usize,
}

/// Has the stores of all sources made, now and then in slices around their length; of the same trips under numbers that
/// may have gaps.
fn all_sources(host: &mut Host, timetable: &Timetable, met: &mut Met, random: &mut Random) {
    let timetable = &with_gaps(random, timetable);
    let lent = Lent::new(timetable, random);
    for source in 1..=timetable.stations.len() as u32 {
        let reply = lent.make_store(host, source);
        if reply.number != 0 {
            assert_eq!(reply, Reply::refused(15));
            continue;
        }
        match connections::list(timetable, source, LISTED_MOST) {
            Some(list) => {
                met.listed += 1;
                let tied = |one: &connections::Connection, other: &connections::Connection| {
                    (one.arrive, one.penalty, one.to) == (other.arrive, other.penalty, other.to)
                        && one.changes != other.changes
                };
                met.a_tie += usize::from(list.iter().any(|one| list.iter().take(50).any(|other| tied(one, other))));
            }
            None => met.searched += 1,
        }
        let words = expected::store_words(timetable, source).expect("a store that is made");
        let store = Store::from_words(&words).expect("all its words");
        assert!(store.well_made(timetable.stations.len()), "question 13 has its yes");
        match store.nodes.len() {
            0 if store.arcs.is_empty() => met.empty += 1,
            0 => met.direct_only += 1,
            _ => met.with_changes += 1,
        }
        met.of_two_changes += usize::from(store.nodes.iter().any(|&(_, _, parent)| parent > 0));
        met.several_to_one_target += usize::from(store.arcs.windows(2).any(|pair| pair[0].0 == pair[1].0));
        if random.one_in(8) {
            lengths_around(host, &lent, source, &words);
        }
    }
    for source in [0, timetable.stations.len() as u32 + 1] {
        assert_eq!(lent.make_store(host, source), Reply::refused(11));
    }
}

/// Has a store made with too little room for it, with just enough, and with a word more.
fn lengths_around(host: &mut Host, lent: &Lent, source: u32, words: &[u16]) {
    let needed = words.len();
    for (length, number) in [(0, 15), (1, 15), (2, 15), (needed - 1, 15), (needed, 0), (needed + 1, 0)] {
        let number = if length >= needed { 0 } else { number };
        let expected =
            if number == 0 { (Reply::done(needed), words.to_vec()) } else { (Reply::refused(15), Vec::new()) };
        host.make_store_as(&lent.timetable, &lent.lines, source, length, expected);
    }
}

#[test]
fn all_sources_of_timetables_where_changing_pays() {
    let mut host = Host::new(2);
    let mut random = Random::new(3);
    let mut met = Met::default();
    for _ in 0..1_500 {
        all_sources(&mut host, &changing(&mut random, &CHANGING), &mut met, &mut random);
    }
    let Met { listed, searched, empty, direct_only, with_changes, of_two_changes, a_tie, several_to_one_target } = met;
    let counts = [empty, direct_only, with_changes, of_two_changes, a_tie, several_to_one_target];
    assert!(listed > 3_000 && searched > 5 && counts.iter().all(|&count| count > 20), "{met:?}");
}

#[test]
fn all_sources_of_other_small_timetables() {
    let mut host = Host::new(4);
    let mut random = Random::new(5);
    let mut met = Met::default();
    for _ in 0..300 {
        all_sources(&mut host, &crowded(&mut random, &CROWDED), &mut met, &mut random);
        all_sources(&mut host, &timetable(&mut random, &SMALL), &mut met, &mut random);
        all_sources(&mut host, &with_shared_ways(&mut random, &SMALL), &mut met, &mut random);
        let loops = Size { stations: 2..=3, trips: 1..=4, stops_of_a_trip: 3..=9 };
        all_sources(&mut host, &changing(&mut random, &loops), &mut met, &mut random);
    }
    assert!(met.listed > 1_500 && met.empty > 100 && met.direct_only > 500 && met.with_changes > 100, "{met:?}");
}

#[test]
fn all_sources_of_middling_timetables() {
    let mut host = Host::new(6);
    let mut random = Random::new(7);
    let mut met = Met::default();
    let size = Size { stations: 5..=20, trips: 20..=60, stops_of_a_trip: 2..=10 };
    for _ in 0..6 {
        all_sources(&mut host, &changing(&mut random, &size), &mut met, &mut random);
        all_sources(&mut host, &with_shared_ways(&mut random, &MIDDLING), &mut met, &mut random);
        all_sources(&mut host, &timetable(&mut random, &MIDDLING), &mut met, &mut random);
    }
    assert!(met.searched > 20 && met.of_two_changes > 20, "{met:?}");
}

/// Has the stores of these sources made, with the search's words beside them; how many were made, and refused.
fn made(timetable: &Timetable, sources: impl Iterator<Item = u32>) -> [usize; 2] {
    let mut host = Host::new(8);
    let lent = Lent::new(timetable, &mut Random::new(9));
    let network = Network::new(timetable);
    let mut counts = [0; 2];
    for source in sources {
        let expected = match search::patterns(&network, source).map(|patterns| patterns.to_words()) {
            Some(words) => (Reply::done(words.len()), words),
            None => (Reply::refused(15), Vec::new()),
        };
        counts[usize::from(expected.0.number != 0)] += 1;
        host.make_store_as(&lent.timetable, &lent.lines, source, STORE_WORDS, expected);
    }
    counts
}

#[test]
fn all_sources_of_a_rural_timetable_at_the_limits() {
    assert_eq!(made(&rural(&mut Random::new(10), 8), 1..=64), [64, 0]);
}

#[test]
fn all_sources_of_busy_timetables_at_the_limits() {
    let mut random = Random::new(33);
    for _ in 0..2 {
        assert_eq!(made(&changing(&mut random, &BUSY), 1..=64), [64, 0]);
    }
}

#[test]
fn all_sources_of_any_timetable_at_the_limits() {
    let mut random = Random::new(11);
    made(&largest(&mut random), 1..=64);
    made(&with_trips(&mut random, 64, &[8; 256]), 1..=64);
    made(&timetable(&mut random, &LARGE), 1..=40);
}

#[test]
fn sources_of_other_timetables_at_the_limits() {
    assert_eq!(made(&long_lines(), [1, 60, 61, 62].into_iter()), [4, 0]);
    assert_eq!(made(&overtaking(), [1, 2, 10, 55, 64].into_iter()), [5, 0]);
    assert_eq!(made(&most_rows(), 1..=4), [4, 0]);
    let one_trip = with_trips(&mut Random::new(12), 2, &[2_048]);
    assert_eq!(made(&one_trip, 1..=2), [2, 0]);
}

#[test]
fn diamonds_double_the_patterns() {
    for count in 1..=9 {
        let timetable = Diamonds { count, ..Diamonds::default() }.timetable();
        let patterns = search::patterns(&Network::new(&timetable), 1).expect("not too many");
        assert_eq!(patterns.counts(), (3 * (1 << count) - 4, 4 * (1 << count) - 4));
        let sources = [1, 2, 4].into_iter();
        assert_eq!(made(&timetable, sources), [3, 0]);
    }
}

#[test]
fn chains_of_diamonds_are_refused_quickly() {
    for (count, late) in [(13, false), (16, true), (20, false), (20, true)] {
        let timetable = Diamonds { count, late, beyond: true, chain: 1 }.timetable();
        let lent = Lent::new(&timetable, &mut Random::new(13));
        let began = Instant::now();
        Host::new(14).make_store_as(&lent.timetable, &lent.lines, 1, STORE_WORDS, (Reply::refused(15), Vec::new()));
        assert!(began.elapsed() < Duration::from_secs(20), "{:?}", began.elapsed());
        assert_eq!(expected::store_words(&timetable, 1), None);
    }
}

/// Has the store of source 1 made, which has so many nodes and arcs, in slices around its length.
fn counted(diamonds: Diamonds, nodes: usize, arcs: usize) {
    let timetable = diamonds.timetable();
    let lent = Lent::new(&timetable, &mut Random::new(15));
    let mut host = Host::new(16);
    let patterns = search::patterns(&Network::new(&timetable), 1);
    if nodes > NODES_MOST || arcs > NODES_MOST {
        assert!(patterns.is_none());
        host.make_store_as(&lent.timetable, &lent.lines, 1, STORE_WORDS, (Reply::refused(15), Vec::new()));
        return;
    }
    let patterns = patterns.expect("not too many");
    assert_eq!(patterns.counts(), (nodes, arcs));
    let words = patterns.to_words();
    assert_eq!(words.len(), 2 + 3 * nodes + 2 * arcs);
    for length in [words.len(), words.len() + 1] {
        host.make_store_as(&lent.timetable, &lent.lines, 1, length, (Reply::done(words.len()), words.clone()));
    }
    for length in [words.len() - 1, words.len() - 2, 2, 0] {
        host.make_store_as(&lent.timetable, &lent.lines, 1, length, (Reply::refused(15), Vec::new()));
    }
}

#[test]
fn stores_of_16382_to_16384_arcs() {
    let diamonds = Diamonds { count: 12, ..Diamonds::default() };
    counted(Diamonds { chain: 1, ..diamonds }, 12_284, 16_381);
    counted(Diamonds { chain: 2, ..diamonds }, 12_285, 16_382);
    counted(Diamonds { chain: 3, ..diamonds }, 12_286, 16_383);
    counted(Diamonds { chain: 4, ..diamonds }, 12_287, 16_384);
    counted(Diamonds { chain: 5, ..diamonds }, 12_288, 16_385);
}

#[test]
fn stores_of_16382_to_16384_nodes() {
    let diamonds = Diamonds { count: 12, late: true, beyond: true, chain: 0 };
    let (nodes, arcs) = (16_380, 12_287);
    for chain in 2..=6 {
        counted(Diamonds { chain, ..diamonds }, nodes + usize::from(chain) - 1, arcs + usize::from(chain));
    }
}

/// Makes the stores of every timetable of so many trips, each one of these.
fn make_every(stations: &[Station], trips: &[Vec<Stop>], count: usize, sources: &[u32]) {
    let mut host = Host::new(17);
    let mut random = Random::new(18);
    let mut words = 0;
    for timetable in every_timetable(stations, trips, count) {
        let lent = Lent::new(&timetable, &mut random);
        for &source in sources {
            words += lent.make_store(&mut host, source).beside as usize;
        }
    }
    assert!(words > 0);
}

#[test]
fn every_timetable_of_three_stations_and_two_trips() {
    let trips = [every_trip(3, 2, 2), every_trip(3, 3, 2)].concat();
    for change_minutes in [0, 1] {
        make_every(&[Station { change_minutes, change_penalty: 1 }; 3], &trips, 2, &[1]);
    }
}

#[test]
fn every_timetable_of_one_trip_with_a_loop() {
    let trips = [every_trip(2, 4, 4), every_trip(3, 4, 3)].concat();
    make_every(&[Station { change_minutes: 0, change_penalty: 1 }; 3], &trips, 1, &[1, 2]);
}

#[test]
fn sources_that_are_not_there_give_11() {
    let mut host = Host::new(19);
    let mut random = Random::new(20);
    let diamonds = Diamonds { count: 20, ..Diamonds::default() }.timetable();
    let mut timetables = vec![with_trips(&mut random, 1, &[]), with_trips(&mut random, 64, &[8; 256]), diamonds];
    timetables.extend((0..100).map(|_| changing(&mut random, &CHANGING)));
    for timetable in timetables {
        let lent = Lent::new(&timetable, &mut random);
        let next = timetable.stations.len() as u32 + 1;
        for source in [0, next, next + 1, 0xffff, 0x1_0000, 0x1_0001, 0x8000_0000, 0x8000_0001, u32::MAX] {
            for length in [0, 2, STORE_WORDS] {
                let reply = host.make_store_in(&lent.timetable, &lent.lines, source, length);
                assert_eq!(reply, Reply::refused(11), "source {source}");
            }
        }
    }
}

#[test]
fn the_first_no_ends_it() {
    let good = Lent::text(M);
    for ([slice, timetable, lines, source, room], number) in noes([8, 9, 10, 11, 15]) {
        let shorts = if slice { &[0, 1, 56, 16_383][..] } else { &[] };
        let sources = if source { &[0, 4, u32::MAX][..] } else { &[1] };
        let lengths = if room { &[0, 1, 2, 10][..] } else { &[11, 12] };
        let expected = if number == 0 { Reply::done(11) } else { Reply::refused(number) };
        good.with_noes(timetable, lines).lend(shorts, 21, |host, timetable, lines| {
            for &source in sources {
                for &length in lengths {
                    let reply = host.make_store_in(timetable, lines, source, length);
                    assert_eq!(reply, expected, "{source}, {length}");
                }
            }
        });
    }
}

#[test]
fn slices_that_are_not_there() {
    let lent = Lent::text(M);
    let mut work = vec![7; WORK_WORDS];
    for (source, number) in [(0, 11), (1, 15), (2, 15), (3, 15), (4, 11), (u32::MAX, 11)] {
        let reply = ffi::make_store_of_no_words(&lent.timetable, &lent.lines, &mut work, source);
        assert_eq!(reply, Reply::refused(number));
        assert_eq!(ffi::make_store_of_nothing(source), Reply::refused(8));
    }
}

#[test]
fn longer_slices_are_long_enough() {
    let mut random = Random::new(25);
    let lent = Lent::text(M);
    for length in LONGER_LENGTHS {
        let longer = lent.longer(length, &mut random);
        assert_eq!(longer.make_store(&mut Host::lending_both(0, length, 26), 1), Reply::done(11));
        assert_eq!(Host::new(26).make_store(&longer.timetable, &lent.lines, 1), Reply::done(11));
        assert_eq!(Host::new(26).make_store(&lent.timetable, &longer.lines, 1), Reply::done(11));
        let mut store = vec![9; length];
        let reply = ffi::make_store(&longer.timetable, &longer.lines, &mut vec![0; length], 1, &mut store);
        assert_eq!((reply, &store[..11]), (Reply::done(11), &[1, 3, 2, 2, 0, 2, 0, 3, 0, 3, 1][..]));
        assert!(store[11..].iter().all(|&word| word == 9));
    }
}

#[test]
fn words_of_either_table_tampered_with() {
    let timetable = |random: &mut Random| changing(random, &SMALL);
    let tally = replies_to_tampered(27, 3_000, timetable, |host, lent, _| lent.make_store(host, 1));
    assert!(tally[9] > 400 && tally[10] > 1_000 && tally[0] > 100, "by reply number: {tally:?}");
}

#[test]
fn slices_of_any_words() {
    lend_any_words(29, 200, |random| random.bits() as u32, u32::MAX, Host::make_store);
}

#[test]
fn what_reading_and_building_wrote_is_taken() {
    let mut host = Host::new(31);
    let mut random = Random::new(32);
    for _ in 0..60 {
        let timetable = changing(&mut random, &CHANGING);
        let written = Lent::written(&timetable, &mut vec![0; WORK_WORDS], &mut random);
        for source in 1..=timetable.stations.len() as u32 {
            assert_eq!(written.make_store(&mut host, source).number, 0);
        }
    }
    assert_eq!(STORE_WORDS_MOST, 81_917);
}
