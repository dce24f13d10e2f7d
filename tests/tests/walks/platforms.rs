//! Two rules for one platform: a walk from a station to itself.

use crate::village;
use dairyepoch_tests::answers::{rows, rows_from, store};
use dairyepoch_tests::connections::Rule;
use dairyepoch_tests::direct::Query;
use dairyepoch_tests::examples::{M, M_WORDS};
use dairyepoch_tests::expected;
use dairyepoch_tests::ffi::{self, Reply};
use dairyepoch_tests::generate::{changing, walked, CHANGING};
use dairyepoch_tests::handmade::{hop, Numbers};
use dairyepoch_tests::host::{Host, QUERY_WORDS, STORE_WORDS};
use dairyepoch_tests::lent::Lent;
use dairyepoch_tests::lines::{LINE_WORDS, WORK_WORDS};
use dairyepoch_tests::random::Random;
use dairyepoch_tests::reference::accepted;
use dairyepoch_tests::search::{self, Network};
use dairyepoch_tests::words::TIMETABLE_WORDS;

#[test]
fn on_a_long_platform_the_walk_goes_first() {
    let slow = (5, 50);
    for (station, walk, leaves, penalty) in [
        // quicker and dearer: from 25 on the station's own change would be in time, and cheaper
        (slow, (2, 2, 2, 70), 21, None),
        (slow, (2, 2, 2, 70), 22, Some(70)),
        (slow, (2, 2, 2, 70), 24, Some(70)),
        (slow, (2, 2, 2, 70), 25, Some(70)),
        (slow, (2, 2, 2, 70), 60, Some(70)),
        // slower and cheaper
        (slow, (2, 2, 9, 7), 25, None),
        (slow, (2, 2, 9, 7), 28, None),
        (slow, (2, 2, 9, 7), 29, Some(7)),
        // quicker and cheaper
        (slow, (2, 2, 1, 1), 20, None),
        (slow, (2, 2, 1, 1), 21, Some(1)),
        (slow, (2, 2, 1, 1), 60, Some(1)),
        // slower and dearer
        (slow, (2, 2, 60, 1_000), 79, None),
        (slow, (2, 2, 60, 1_000), 80, Some(1_000)),
        ((0, 1), (2, 2, 1, 2), 20, None),
        ((0, 1), (2, 2, 1, 2), 21, Some(2)),
        // alike in one or in both
        (slow, (2, 2, 5, 51), 25, Some(51)),
        (slow, (2, 2, 5, 49), 25, Some(49)),
        (slow, (2, 2, 6, 50), 25, None),
        (slow, (2, 2, 4, 50), 24, Some(50)),
        (slow, (2, 2, 5, 50), 24, None),
        (slow, (2, 2, 5, 50), 25, Some(50)),
    ] {
        let trips: [&[Numbers]; 2] = [&hop(1, 2, 10, 20, 0), &hop(2, 3, leaves, 90, 0)];
        let timetable = village(&[(0, 1), station, (0, 1)], &[walk], &trips);
        let shown = penalty.map(|penalty| vec![90, penalty, 2, 1, 1, 2, 2, 1, 2]).ok_or(14);
        assert_eq!(rows(&timetable, 1, 3, 0), shown, "{station:?}, {walk:?}, leaving at {leaves}");
        let words: &[u16] = if penalty.is_some() { &[1, 2, 2, 2, 0, 2, 0, 3, 1] } else { &[0, 1, 2, 0] };
        assert_eq!(store(&timetable, 1), words, "{station:?}, {walk:?}, leaving at {leaves}");
    }
}

#[test]
fn a_long_platform_leaves_other_changes_as_they_were() {
    let platforms = [(1, 1, 60, 1_000), (2, 2, 60, 1_000), (3, 3, 60, 1_000), (4, 4, 60, 1_000)];
    // on foot from one platform to another
    let trips: [&[Numbers]; 2] = [&hop(1, 2, 10, 20, 0), &hop(3, 4, 25, 30, 2)];
    let mut walks = platforms.to_vec();
    walks.insert(2, (2, 3, 5, 7));
    let shown = Ok(vec![30, 9, 2, 1, 1, 2, 2, 1, 2]);
    assert_eq!(rows(&village(&[(0, 1); 4], &walks, &trips), 1, 4, 0), shown);
    // at a station that has none, also if one can walk from there to others and back
    let trips: [&[Numbers]; 2] = [&hop(1, 2, 10, 20, 0), &hop(2, 4, 23, 30, 2)];
    let stations = [(9, 9), (3, 5), (9, 9), (9, 9)];
    let walks = [platforms[0], (1, 2, 60, 1_000), (2, 1, 60, 1_000), (2, 3, 60, 1_000), platforms[2], platforms[3]];
    let shown = Ok(vec![30, 7, 2, 1, 1, 2, 2, 1, 2]);
    assert_eq!(rows(&village(&stations, &walks, &trips), 1, 4, 0), shown);
    // who begins at a platform, ends there or stays aboard changes nothing there
    let through: [&[Numbers]; 1] = [&[(1, 0, 10, 1), (2, 20, 20, 2), (3, 30, 0, 0)]];
    let timetable = village(&[(0, 1); 4], &platforms, &through);
    assert_eq!(rows(&timetable, 1, 2, 10), Ok(vec![10, 1, 1, 1, 1, 2]));
    assert_eq!(rows(&timetable, 2, 3, 20), Ok(vec![10, 2, 1, 1, 2, 3]));
    assert_eq!(rows(&timetable, 1, 3, 10), Ok(vec![20, 3, 1, 1, 1, 3]));
}

/// M with these W lines.
fn m_with(walks: &str) -> String {
    M.replacen("T,", &format!("{walks}T,"), 1)
}

#[test]
fn the_values_of_a_station_with_a_long_platform_are_still_read() {
    let mut host = Host::new(31);
    let text = m_with("W,2,2,4,15\n");
    host.expect_read(&text, 0, 11);
    for (values, number) in [("240,1000", 0), ("0,1", 0), ("241,10", 3), ("3,0", 3), ("3,1001", 3), ("3,", 2)] {
        let (number, line) = if number == 0 { (0, 11) } else { (number, 2) };
        host.expect_read(text.replace("S,2,3,10", &format!("S,2,{values}")), number, line);
    }
    // they stand in the words, and the line tables are M's
    let (plain, platform) = (Lent::text(M), Lent::text(&text));
    let mut written = vec![0; TIMETABLE_WORDS];
    assert_eq!(ffi::read(text.as_bytes(), &mut written), Reply::done(11));
    let expected = [&M_WORDS[..M_WORDS.len() - 4], &[0, 0, 1, 1], &[2, 2, 4, 15]].concat();
    assert_eq!(written[..expected.len()], expected);
    let [lines, other_lines] = [&plain, &platform].map(|lent| {
        let (mut lines, mut work) = (vec![0; LINE_WORDS], vec![0; WORK_WORDS]);
        assert_eq!(ffi::build_lines(&lent.timetable, &mut lines, &mut work).number, 0);
        lines
    });
    assert_eq!(lines, other_lines);
}

#[test]
fn m_with_a_long_platform_at_2() {
    let platform = accepted(&m_with("W,2,2,4,15\n"));
    assert_eq!(rows(&platform, 1, 3, 470), Ok(vec![90, 0, 1, 1, 1, 3]));
    assert_eq!(store(&platform, 1), [0, 2, 2, 0, 3, 0]);
    // from the store that was made before, whose sequence nobody can take any more
    assert_eq!(rows_from(&platform, &[1, 3, 2, 2, 0, 2, 0, 3, 0, 3, 1], 1, 3, 470), Ok(vec![90, 0, 1, 1, 1, 3]));
    // a minute less, and trip 2 is reached, for 15 points; another, and trip 3 is, which arrives before it
    for (minutes, trip, duration) in [(3, 2, 50), (2, 3, 45), (1, 3, 45)] {
        let timetable = accepted(&m_with(&format!("W,2,2,{minutes},15\n")));
        let shown = Ok(vec![duration, 15, 2, 1, 1, 2, trip, 1, 2, 90, 0, 1, 1, 1, 3]);
        assert_eq!(rows(&timetable, 1, 3, 470), shown, "{minutes}");
        assert_eq!(store(&timetable, 1), [1, 3, 2, 2, 0, 2, 0, 3, 0, 3, 1], "{minutes}");
    }
}

/// "A timetable without such a line keeps all its rows": those of request One.
#[test]
fn without_a_long_platform_all_is_as_before() {
    let mut host = Host::new(32);
    let mut random = Random::new(33);
    let (mut stores, mut on_foot) = (0, 0);
    for _ in 0..150 {
        let plain = changing(&mut random, &CHANGING);
        let mut timetable = walked(&mut random, &plain);
        timetable.walks.retain(|walk| walk.from != walk.to);
        let lent = Lent::new(&timetable, &mut random);
        let network = Network::by(&timetable, Rule::BothOpen);
        let stations = timetable.stations.len() as u32;
        for from in 1..=stations {
            let words = search::patterns(&network, from).expect("not too many").to_words();
            let expected = (Reply::done(words.len()), words.clone());
            host.make_store_as(&lent.timetable, &lent.lines, from, STORE_WORDS, expected);
            stores += 1;
            for to in (1..=stations).filter(|&to| to != from) {
                for &minute in &network.minutes(from) {
                    let query = Query { from, to, minute };
                    let rows = search::whole(&network, query);
                    let expected = expected::answer_of(&rows, query, QUERY_WORDS);
                    host.query_as(lent.with(&words), query, QUERY_WORDS, expected);
                    on_foot += rows.iter().filter(|row| row.is_on_foot()).count();
                }
            }
        }
    }
    assert!(stores > 400 && on_foot > 100, "{stores}, {on_foot}");
}
