//! The questions to a query in their order, and slices of any words and lengths.

use crate::{minutes, others, WithStore};
use dairyepoch_tests::connections;
use dairyepoch_tests::direct::Query;
use dairyepoch_tests::expected;
use dairyepoch_tests::ffi::{self, Reply, Tables};
use dairyepoch_tests::generate::{changing, CHANGING, SMALL};
use dairyepoch_tests::host::{lent, longer, Host, QUERY_WORDS};
use dairyepoch_tests::lent::{noes, queries_of_wrong_stations, replies_to_tampered, Lent, LONGER_LENGTHS};
use dairyepoch_tests::lines::{LINE_WORDS, WORK_WORDS};
use dairyepoch_tests::random::Random;
use dairyepoch_tests::store;
use dairyepoch_tests::words::TIMETABLE_WORDS;

#[test]
fn stations_that_are_not_there_or_equal_give_11_and_minutes_12() {
    let mut host = Host::new(35);
    let mut random = Random::new(36);
    for _ in 0..60 {
        let timetable = changing(&mut random, &CHANGING);
        let store = if random.one_in(2) { vec![0, 0] } else { vec![1, 1, 1] };
        let lent = WithStore::new(&timetable, store, &mut random);
        for query in queries_of_wrong_stations(&mut random, timetable.stations.len()) {
            assert_eq!(lent.ask(&mut host, query), Reply::refused(11));
        }
        for minute in [2_880, 2_881, 0xffff, 0x1_0000, 0x8000_0000, u32::MAX] {
            assert_eq!(lent.ask(&mut host, Query { from: 1, to: 2, minute }), Reply::refused(12));
        }
    }
}

#[test]
fn the_first_no_ends_it() {
    let mut random = Random::new(37);
    let good = WithStore::of_m(&mut random);
    for (noes, number) in noes([8, 9, 10, 11, 12, 13, 14, 15]) {
        let [slice, timetable, lines, station, minute, store, none, room] = noes;
        let shorts = if slice { &[0, 56, 16_383][..] } else { &[] };
        let store = match (store, none) {
            (true, _) => random.pick(&[&[][..], &[0], &[0, 2, 3, 0, 3, 0], &[0, 16_384], &[1, 0, 2, 2, 1]]),
            (false, true) => random.pick(&[&[0, 0][..], &[1, 1, 2, 2, 0, 2, 0], &[1, 1, 3, 3, 0, 3, 1]]),
            (false, false) => &good.store,
        };
        let query = match station {
            true => random.pick(&[(0, 3), (1, 0), (4, 3), (1, 4), (1, 1), (u32::MAX, 3), (1, u32::MAX)]),
            false => (1, 3),
        };
        let minute = if minute { random.pick(&[2_880, 2_881, 65_536, u32::MAX]) } else { 470 };
        let query = Query { from: query.0, to: query.1, minute };
        let lengths = if room { &[0, 14][..] } else { &[15] };
        good.lent.with_noes(timetable, lines).lend(shorts, 38, |host, timetable, lines| {
            for &length in lengths {
                let reply = host.query_to(Tables { timetable, lines, store }, query, length);
                assert_eq!(reply, Reply { number, beside: 2 * u32::from(number == 0) }, "{query:?} {store:?}");
            }
        });
    }
}

#[test]
fn slices_that_are_not_there() {
    let with_store = WithStore::of_m(&mut Random::new(42));
    let mut work = vec![7; WORK_WORDS];
    for (from, to, minute, number) in [(1, 3, 470, 15), (3, 1, 470, 14), (1, 3, 2_880, 12), (2, 2, 470, 11)] {
        let query = Query { from, to, minute };
        assert_eq!(ffi::query_to_nothing(with_store.tables(), &mut work, query), Reply::refused(number));
        let Lent { timetable, lines } = &with_store.lent;
        let without = ffi::query_of_no_store(timetable, lines, &mut work, query);
        assert_eq!(without, [Reply::refused(number.min(13)), Reply::refused(8)]);
    }
}

#[test]
fn longer_slices_are_long_enough() {
    let mut random = Random::new(43);
    let WithStore { lent, store } = WithStore::of_m(&mut random);
    let query = Query { from: 1, to: 3, minute: 470 };
    for length in LONGER_LENGTHS {
        let longer_tables = lent.longer(length, &mut random);
        let longer_store = longer(&store, length, &mut random);
        let tables = longer_tables.with(&longer_store);
        assert_eq!(Host::lending_both(0, length, 44).query(tables, query), Reply::done(2));
        let mut answer = vec![5; length];
        let reply = ffi::query(tables, &mut vec![0; length], query, &mut answer);
        assert_eq!(reply, Reply::done(2));
        assert_eq!(answer[..15], [50, 10, 2, 1, 1, 2, 2, 1, 2, 90, 0, 1, 1, 1, 3]);
        assert!(answer[15..].iter().all(|&word| word == 5));
    }
}

#[test]
fn words_of_either_table_tampered_with() {
    let timetable = |random: &mut Random| changing(random, &SMALL);
    let tally = replies_to_tampered(45, 2_000, timetable, |host, lent, random| {
        host.query(lent.with(&[0, 1, 2, 0]), Query { from: 1, to: 2, minute: random.below(3) as u32 })
    });
    assert!(tally[9] > 300 && tally[10] > 700, "by reply number: {tally:?}");
}

#[test]
fn slices_of_any_words() {
    let mut host = Host::new(47);
    let mut random = Random::new(48);
    let WithStore { lent: good, store: good_store } = WithStore::of_m(&mut random);
    for round in 0..150 {
        let any = Lent::any(&mut random);
        let store = lent(Vec::new(), &mut random);
        let store = &store[..random.below(store.len())];
        let anything = Query { from: random.word().into(), to: random.word().into(), minute: random.bits() as u32 };
        let near = Query { from: 1, to: 3, minute: random.below(600) as u32 };
        for query in [anything, near] {
            let mut number = |timetable: &[u16], lines: &[u16], store: &[u16]| {
                host.query(Tables { timetable, lines, store }, query).number
            };
            assert_eq!(number(&any.timetable, &any.lines, store), 9);
            assert_eq!(number(&any.timetable, &good.lines, &good_store), 9);
            assert_eq!(number(&good.timetable, &any.lines, &good_store), 10);
            assert_eq!(number(&good.timetable, &vec![any.lines[0]; LINE_WORDS], store), 10);
            assert_eq!(number(&vec![any.timetable[0]; TIMETABLE_WORDS], &good.lines, store), 9);
            number(&good.timetable, &good.lines, store);
            // small numbers, which are more often well made
            let small: Vec<u16> = (0..round % 30).map(|_| random.below(4) as u16).collect();
            number(&good.timetable, &good.lines, &small);
            number(&good.timetable, &good.lines, &good_store[..random.below(11)]);
        }
    }
    let ones = vec![u16::MAX; TIMETABLE_WORDS];
    let query = Query { from: u32::MAX, to: u32::MAX, minute: u32::MAX };
    good.beside_ones(|timetable, lines| host.query(Tables { timetable, lines, store: &ones }, query));
    let query = Query { from: 1, to: 3, minute: 0 };
    assert_eq!(host.query(good.with(&ones), query).number, 13);
}

#[test]
fn what_the_other_calls_wrote_is_taken() {
    let mut host = Host::new(49);
    let mut random = Random::new(50);
    let mut met = 0;
    for _ in 0..60 {
        let timetable = changing(&mut random, &CHANGING);
        let mut work = vec![0; WORK_WORDS];
        let written = Lent::written(&timetable, &mut work, &mut random);
        for from in 1..=timetable.stations.len() as u32 {
            let mut store = vec![0x7777; 4_000];
            let reply = ffi::make_store(&written.timetable, &written.lines, &mut work, from, &mut store);
            assert_eq!(reply.number, 0);
            let list = connections::list(&timetable, from, 200_000).expect("not too many");
            for to in others(timetable.stations.len(), from) {
                let query = Query { from, to, minute: random.pick(&minutes(&list).into_iter().collect::<Vec<_>>()) };
                let rows = connections::rows(store::feasible(&list, query), query.minute);
                met += rows.len();
                let expected = expected::answer_of(&rows, query, QUERY_WORDS);
                host.query_as(written.with(&store), query, QUERY_WORDS, expected);
            }
        }
    }
    assert!(met > 100, "{met}");
}
