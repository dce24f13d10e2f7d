//! The page of what differs between the two rules for one platform, and the library beside it.

use std::collections::BTreeMap;
use std::fs;

use dairyepoch_tests::connections::{to_words, Rule};
use dairyepoch_tests::direct::Query;
use dairyepoch_tests::examples::M;
use dairyepoch_tests::expected;
use dairyepoch_tests::ffi::Reply;
use dairyepoch_tests::host::{Host, QUERY_WORDS, STORE_WORDS};
use dairyepoch_tests::lent::Lent;
use dairyepoch_tests::random::Random;
use dairyepoch_tests::reference::accepted;
use dairyepoch_tests::two_rules::{
    minutes, other_answers, other_stores, page, pairs, platform, sources, Displays, OtherAnswers, OtherStore,
};

const PAGE: &str = concat!(env!("CARGO_MANIFEST_DIR"), "/../docs/two-rules.md");

/// The displays of the page's timetable before and now.
fn before_and_now() -> [Displays; 2] {
    [Rule::BothOpen, Rule::WalkFirst].map(|rule| Displays::new(&platform(), rule))
}

fn all_queries() -> impl Iterator<Item = Query> {
    pairs(&platform()).into_iter().flat_map(|(from, to)| minutes().map(move |minute| Query { from, to, minute }))
}

#[test]
fn the_page_is_what_the_program_prints() {
    let written = fs::read_to_string(PAGE).expect("docs/two-rules.md");
    assert!(written == page(), "docs/two-rules.md is not what `cargo run --release --bin two_rules` prints");
}

/// What the readings of document 02 say of this timetable.
#[test]
fn one_store_and_the_queries_of_one_pair_differ() {
    let [before, now] = before_and_now();
    let stores = other_stores(&platform(), &before, &now);
    let [OtherStore { source: 1, before: old, now: new }] = &stores[..] else { panic!("{stores:?}") };
    assert_eq!((&old[..], &new[..]), (&[1, 3, 2, 2, 0, 2, 0, 3, 0, 3, 1][..], &[0, 2, 2, 0, 3, 0][..]));
    let answers = other_answers(&platform(), &before, &now);
    let [OtherAnswers { from: 1, to: 3, first: 0, last: 480, before: old, now: new }] = &answers[..] else {
        panic!("{answers:?}")
    };
    assert_eq!(to_words(old, 470), [50, 10, 2, 1, 1, 2, 2, 1, 2, 90, 0, 1, 1, 1, 3]);
    assert_eq!(to_words(new, 470), [90, 0, 1, 1, 1, 3]);
}

/// Before, the W line itself changed nothing in M.
#[test]
fn before_it_was_as_without_the_walk() {
    let [before, _] = before_and_now();
    let mut rows = 0;
    for rule in [Rule::BothOpen, Rule::WalkFirst] {
        let plain = Displays::new(&accepted(M), rule);
        assert!(sources(&platform()).all(|source| plain.store(source) == before.store(source)));
        for query in all_queries() {
            assert_eq!(plain.rows(query), before.rows(query), "{query:?}");
            rows += before.rows(query).len();
        }
    }
    assert!(rows > 3_000, "{rows}");
}

#[test]
fn the_library_stores_what_the_page_says() {
    let timetable = platform();
    let [before, now] = before_and_now();
    let listed: BTreeMap<u32, OtherStore> =
        other_stores(&timetable, &before, &now).into_iter().map(|store| (store.source, store)).collect();
    let lent = Lent::new(&timetable, &mut Random::new(1));
    let mut host = Host::new(2);
    let (mut differ, mut same) = (0, 0);
    for source in sources(&timetable) {
        let words = now.store(source);
        let expected = (Reply::done(words.len()), words.clone());
        host.make_store_as(&lent.timetable, &lent.lines, source, STORE_WORDS, expected);
        match listed.get(&source) {
            Some(store) => {
                assert_eq!([&store.before, &store.now], [&before.store(source), &words]);
                assert_ne!(store.before, store.now, "source {source} is listed");
                differ += 1;
            }
            None => {
                assert_eq!(before.store(source), words, "source {source} is not listed");
                same += 1;
            }
        }
    }
    assert_eq!((differ, same), (1, 2));
}

/// Also from a store of before: its sequences that nobody can take any more show nothing.
#[test]
fn the_library_shows_what_the_page_says() {
    let timetable = platform();
    let [before, now] = before_and_now();
    let listed = other_answers(&timetable, &before, &now);
    let lent = Lent::new(&timetable, &mut Random::new(3));
    let stores = [&before, &now].map(|displays| sources(&timetable).map(|at| displays.store(at)).collect::<Vec<_>>());
    let mut host = Host::new(4);
    let (mut differ, mut same, mut none) = (0, 0, 0);
    for query in all_queries() {
        let rows = now.rows(query);
        for stores in &stores {
            let expected = expected::answer_of(&rows, query, QUERY_WORDS);
            host.query_as(lent.with(&stores[query.from as usize - 1]), query, QUERY_WORDS, expected);
        }
        none += usize::from(rows.is_empty());
        let covers = |run: &&OtherAnswers| {
            (run.from, run.to) == (query.from, query.to) && (run.first..=run.last).contains(&query.minute)
        };
        let [before, now] = [&before.rows(query), &rows].map(|rows| to_words(rows, query.minute));
        match listed.iter().filter(covers).collect::<Vec<_>>()[..] {
            [run] => {
                assert_eq!([&run.before, &run.now].map(|rows| to_words(rows, query.minute)), [&before[..], &now]);
                assert_ne!(before, now, "{query:?} is listed");
                differ += 1;
            }
            [] => {
                assert_eq!(before, now, "{query:?} is not listed");
                same += 1;
            }
            _ => panic!("{query:?} is listed twice"),
        }
    }
    assert_eq!((differ, same), (481, 6 * 2_880 - 481));
    assert!((1_000..16_000).contains(&none), "{none} without a connection");
}
