//! Stores that are well made, and words that are none.

use crate::{chain, others, rows_from, WithStore};
use dairyepoch_tests::direct::Query;
use dairyepoch_tests::examples::M;
use dairyepoch_tests::expected;
use dairyepoch_tests::ffi::Reply;
use dairyepoch_tests::generate::{changing, CHANGING};
use dairyepoch_tests::handmade::{hop, text_of_hops};
use dairyepoch_tests::host::Host;
use dairyepoch_tests::random::Random;
use dairyepoch_tests::reference::accepted;
use dairyepoch_tests::store::{Store, NODES_MOST};

/// Asks M from a store; the reply's number.
fn number_from(words: &[u16]) -> u32 {
    let lent = WithStore::new(&accepted(M), words.to_vec(), &mut Random::new(29));
    let reply = lent.ask(&mut Host::new(30), Query { from: 1, to: 3, minute: 470 });
    // an ill-made store is told of even where no arc has the target
    if reply.number == 13 {
        assert_eq!(lent.ask(&mut Host::new(31), Query { from: 3, to: 1, minute: 0 }), Reply::refused(13));
        assert_eq!(lent.ask(&mut Host::new(32), Query { from: 3, to: 2, minute: 2_879 }), Reply::refused(13));
    }
    reply.number
}

#[test]
fn stores_with_words_missing_give_13() {
    let good = [1, 3, 2, 2, 0, 2, 0, 3, 0, 3, 1];
    assert_eq!(number_from(&good), 0);
    for length in 0..good.len() {
        assert_eq!(number_from(&good[..length]), 13, "{length} words");
    }
    assert_eq!(number_from(&[0, 0]), 14);
    assert_eq!(number_from(&[0, 1, 3]), 13);
    assert_eq!(number_from(&[1, 0, 3, 3]), 13);
    assert_eq!(number_from(&[1, 0, 3, 3, 0]), 14);
}

#[test]
fn stores_of_too_many_nodes_or_arcs_give_13() {
    let nodes = |count: usize| Store { nodes: vec![(2, 2, 0); count], arcs: vec![(2, 0), (3, 0), (3, 1)] }.to_words();
    assert_eq!(number_from(&nodes(NODES_MOST)), 0);
    assert_eq!(number_from(&nodes(NODES_MOST + 1)), 13);
    assert_eq!(number_from(&nodes(NODES_MOST)[..2 + 3 * NODES_MOST + 5]), 13);
    for count in [16_384, 32_767, 32_768, 65_535] {
        let mut words = vec![0; 5 * 65_536];
        words[0] = count;
        assert_eq!(number_from(&words), 13, "{count} nodes");
        words[..4].copy_from_slice(&[0, count, 1, 0]);
        assert_eq!(number_from(&words), 13, "{count} arcs");
    }
    // as many arcs as can be, to three targets: each from another node
    let arcs = |count: usize| {
        let nodes = vec![(2, 2, 0); 5_462];
        let arcs = (1..=3).flat_map(|target| (0..=5_462).map(move |node| (target, node))).take(count).collect();
        Store { nodes, arcs }.to_words()
    };
    assert_eq!(number_from(&arcs(NODES_MOST)), 0);
    assert_eq!(number_from(&arcs(NODES_MOST + 1)), 13);
}

#[test]
fn stores_with_stations_that_are_not_listed_give_13() {
    for wrong in [0, 4, 64, 65, 256 + 2, 32_768 + 2, u16::MAX] {
        assert_eq!(number_from(&[1, 3, wrong, 2, 0, 2, 0, 3, 0, 3, 1]), 13, "a node alighted at {wrong}");
        assert_eq!(number_from(&[1, 3, 2, wrong, 0, 2, 0, 3, 0, 3, 1]), 13, "a node boarded at {wrong}");
        assert_eq!(number_from(&[1, 3, 2, 2, 0, 2, 0, 3, 0, wrong, 1]), 13, "an arc to {wrong}");
        let unused = [2, 3, 2, 2, 0, wrong, 1, 1, 2, 0, 3, 0, 3, 1];
        assert_eq!(number_from(&unused), 13, "a node at {wrong} that no arc uses");
        assert_eq!(number_from(&[1, 2, 2, 2, 0, 1, 0, wrong, 0]), 13, "no arc to 3 but one to {wrong}");
    }
    assert_eq!(number_from(&[1, 3, 1, 1, 0, 1, 0, 3, 0, 3, 1]), 0);
    assert_eq!(number_from(&[1, 3, 3, 3, 0, 1, 0, 3, 0, 3, 1]), 0);
    // two stations between which there is no walk are no fault of the store
    assert_eq!(number_from(&[1, 3, 1, 3, 0, 1, 0, 3, 0, 3, 1]), 0);
    assert_eq!(number_from(&[1, 1, 2, 1, 0, 3, 1]), 14);
}

#[test]
fn stores_with_parents_not_below_give_13() {
    for wrong in [1, 2, 3, 256, 32_768, u16::MAX] {
        assert_eq!(number_from(&[1, 3, 2, 2, wrong, 2, 0, 3, 0, 3, 1]), 13, "parent {wrong} of node 1");
    }
    for wrong in [2, 3, 258, u16::MAX] {
        let wrong_parent = [3, 2, 2, 2, 0, 1, 1, wrong, 2, 2, 1, 2, 0, 3, 0];
        assert_eq!(number_from(&wrong_parent), 13, "parent {wrong} of node 2");
    }
    assert_eq!(number_from(&[3, 2, 2, 2, 0, 1, 1, 1, 2, 2, 2, 2, 0, 3, 0]), 0);
    assert_eq!(number_from(&[3, 2, 2, 2, 0, 1, 1, 1, 2, 2, 1, 2, 0, 3, 0]), 0);
}

#[test]
fn stores_with_predecessors_that_are_not_there_give_13() {
    for wrong in [2, 3, 257, 16_383, 16_384, u16::MAX] {
        assert_eq!(number_from(&[1, 3, 2, 2, 0, 2, 0, 3, 0, 3, wrong]), 13, "predecessor {wrong}");
        assert_eq!(number_from(&[1, 3, 2, 2, 0, 2, wrong, 3, 0, 3, 1]), 13, "predecessor {wrong}");
    }
    assert_eq!(number_from(&[0, 1, 3, 1]), 13);
}

#[test]
fn stores_with_arcs_that_do_not_rise_give_13() {
    let with = |arcs: [(u16, u16); 3]| Store { nodes: vec![(2, 2, 0), (2, 2, 0)], arcs: arcs.to_vec() }.to_words();
    assert_eq!(number_from(&with([(2, 0), (3, 0), (3, 1)])), 0);
    assert_eq!(number_from(&with([(3, 0), (3, 1), (3, 2)])), 0);
    assert_eq!(number_from(&with([(1, 2), (2, 1), (3, 0)])), 0);
    for arcs in [
        [(3, 0), (3, 0), (3, 1)],
        [(3, 0), (3, 1), (3, 1)],
        [(2, 0), (3, 1), (3, 0)],
        [(3, 0), (2, 0), (3, 1)],
        [(2, 0), (3, 0), (2, 1)],
        [(3, 2), (2, 1), (1, 0)],
        [(1, 0), (1, 0), (3, 0)],
    ] {
        assert_eq!(number_from(&with(arcs)), 13, "{arcs:?}");
    }
}

#[test]
fn patterns_above_64_rides_give_13() {
    assert_eq!(number_from(&chain(62).to_words()), 14);
    assert_eq!(number_from(&chain(63).to_words()), 14);
    assert_eq!(number_from(&chain(64).to_words()), 13);
    assert_eq!(number_from(&chain(65).to_words()), 13);
    assert_eq!(number_from(&chain(16_383).to_words()), 13);
    // a longer chain of nodes that no arc uses is no pattern
    for nodes in [64, 65, 1_000, 16_383] {
        let unused = Store { arcs: vec![(3, 0), (3, 63)], ..chain(nodes) };
        assert_eq!(number_from(&unused.to_words()), 0, "{nodes} nodes");
        let used = Store { arcs: vec![(1, 64), (3, 0)], ..chain(nodes) };
        assert_eq!(number_from(&used.to_words()), 13, "{nodes} nodes");
    }
}

#[test]
fn long_patterns_are_followed() {
    // 63 changes to and fro between 1 and 2, then to 3: within an hour, and over both days, where working space has no
    // room for what is left to pay after each of them
    for pace in [1, 44] {
        let ride = |at: u16, from: u16, to: u16| hop(from, to, pace * at, pace * at + 1, 0);
        let mut trips: Vec<_> = (0..63).map(|at| ride(at, 1 + at % 2, 2 - at % 2)).collect();
        trips.extend([ride(63, 2, 3), hop(1, 3, 63 * pace, 63 * pace + 7, 0)]);
        // a later bus on each leg, which costs a point
        trips.extend((0..63).map(|at| hop(1 + at % 2, 2 - at % 2, pace * at + pace / 2, pace * (at + 1), 1)));
        let to_and_fro = text_of_hops(&[(0, 1); 3], &trips);
        let rides: Vec<[u32; 3]> = (1..=64).map(|trip| [trip, 1, 2]).collect();
        let answer = |nodes: u16, minute: u32| rows_from(&to_and_fro, &chain(nodes).to_words(), 1, 3, minute);
        assert_eq!(answer(63, 0), Ok(vec![(63 * u32::from(pace) + 1, 63, rides)]));
        assert_eq!(answer(62, 0).map(|rows| rows[0].2.len()), Ok(63));
        assert_eq!(answer(63, u32::from(pace)), Err(14));
        assert_eq!(answer(61, 3 * u32::from(pace)).map(|rows| rows[0].2.len()), Err(14));
    }
}

#[test]
fn words_of_a_store_tampered_with() {
    let mut host = Host::new(33);
    let mut random = Random::new(34);
    let mut tally = [0; 16];
    for _ in 0..400 {
        let timetable = changing(&mut random, &CHANGING);
        let from = random.within(1..=timetable.stations.len()) as u32;
        let made = expected::store_words(&timetable, from).expect("a store that is made");
        let mut lent = WithStore::new(&timetable, Vec::new(), &mut random);
        for _ in 0..8 {
            lent.store = made.clone();
            for _ in 0..random.within(1..=2) {
                let at = random.below(made.len());
                lent.store[at] = match random.below(5) {
                    0 => random.word(),
                    1 => lent.store[at].wrapping_add(1),
                    2 => lent.store[at].wrapping_sub(1),
                    3 => random.below(8) as u16,
                    _ => u16::MAX,
                };
            }
            let to = random.pick(&others(timetable.stations.len(), from).collect::<Vec<_>>());
            tally[lent.ask(&mut host, Query { from, to, minute: random.below(30) as u32 }).number as usize] += 1;
        }
    }
    assert!(tally[13] > 500 && tally[0] > 50 && tally[14] > 50, "by reply number: {tally:?}");
}
