//! Making stores.

use std::hint::black_box;
use std::time::Duration;

use crate::tables::lent;
use crate::timing::{medians_within, report, ENOUGH};
use crate::wanted;
use dairyepoch_tests::ffi::make_store;
use dairyepoch_tests::lines::WORK_WORDS;
use dairyepoch_tests::search::{self, Network};
use dairyepoch_tests::store::STORE_WORDS_MOST;
use dairyepoch_tests::timetable::Timetable;

/// Times the stores of all sources, each against the search of the reference, which asks no question.
pub fn storing(what: &str, timetable: &Timetable) {
    if !wanted(what) {
        return;
    }
    let [table, lines] = lent(timetable);
    let network = Network::new(timetable);
    let (mut store, mut work) = (vec![0; STORE_WORDS_MOST], vec![0; WORK_WORDS]);
    let (mut largest, mut refused) = (0, 0);
    let mut times = Vec::new();
    let stations = timetable.stations.len() as u32;
    for source in 1..=stations {
        let reply = make_store(&table, &lines, &mut work, source, &mut store);
        let words = search::patterns(&network, source).map(|patterns| patterns.to_words());
        assert_eq!(reply.number, if words.is_some() { 0 } else { 15 });
        assert!(words.is_none_or(|words| words == store[..reply.beside as usize]), "the store of {source}");
        refused += u32::from(reply.number == 15);
        largest = largest.max(reply.beside);
        let [library, reference] = medians_within(
            [
                &mut || {
                    black_box(make_store(black_box(&table), &lines, &mut work, source, &mut store));
                },
                &mut || {
                    black_box(search::patterns(black_box(&network), source).map(|patterns| patterns.to_words()));
                },
            ],
            ENOUGH / stations / 2,
        );
        times.push((library, reference, source));
    }
    let count = times.len() as u32;
    let [library, reference] = [|time: &(_, _, _)| time.0, |time: &(_, _, _)| time.1]
        .map(|part| times.iter().map(part).sum::<Duration>() / count);
    println!("{what}: {count} sources, {refused} refused, the largest has {largest} words");
    report("  mean", library, reference);
    let worst = times.iter().max().expect("a station is listed");
    report(&format!("  worst of the library, source {}", worst.2), worst.0, worst.1);
    let worst = times.iter().max_by_key(|time| time.1).expect("a station is listed");
    report(&format!("  worst of the reference, source {}", worst.2), worst.0, worst.1);
}
