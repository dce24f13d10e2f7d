//! Queries by hand: the customer's cases, where planners slip, and the rule for equal cost.

use crate::{rows, rows_from};
use dairyepoch_tests::examples::M;
use dairyepoch_tests::handmade::{hop, text};

#[test]
fn case_a_the_two_queries() {
    let rows_at_470 = vec![(50, 10, vec![[1, 1, 2], [2, 1, 2]]), (90, 0, vec![[1, 1, 3]])];
    assert_eq!(rows(M, 1, 3, 470), Ok(rows_at_470));
    assert_eq!(rows(M, 1, 3, 481), Err(14));
}

#[test]
fn case_g_from_2_to_3_at_501() {
    assert_eq!(rows(M, 2, 3, 501), Ok(vec![(14, 0, vec![[3, 1, 2]])]));
}

#[test]
fn case_h_from_2_to_3_at_503() {
    assert_eq!(rows(M, 2, 3, 503), Ok(vec![(17, 0, vec![[2, 1, 2]])]));
}

#[test]
fn case_j_the_store_of_2_given_for_source_1() {
    assert_eq!(rows_from(M, &[0, 1, 3, 0], 1, 3, 470), Ok(vec![(90, 0, vec![[1, 1, 3]])]));
}

#[test]
fn other_stores_for_m() {
    let changing_only = [1, 1, 2, 2, 0, 3, 1];
    let row = (50, 10, vec![[1, 1, 2], [2, 1, 2]]);
    assert_eq!(rows_from(M, &changing_only, 1, 3, 470), Ok(vec![row.clone()]));
    // the words behind are nobody's
    assert_eq!(rows_from(M, &[1, 1, 2, 2, 0, 3, 1, 3, 0, 65_535], 1, 3, 470), Ok(vec![row]));
    assert_eq!(rows_from(M, &changing_only, 1, 2, 470), Err(14));
    assert_eq!(rows_from(M, &[0, 0], 1, 3, 470), Err(14));
    assert_eq!(rows_from(M, &[1, 0, 2, 2, 0], 1, 3, 470), Err(14));
    // for source 2 the sequence reads 2, 2, 3: no ride leads from 2 to 2
    assert_eq!(rows_from(M, &changing_only, 2, 3, 470), Err(14));
    // leaving trip 1 at station 2 and boarding it again takes 3 minutes, which it does not wait
    assert_eq!(rows_from(M, &changing_only, 1, 3, 480), Ok(vec![(40, 10, vec![[1, 1, 2], [2, 1, 2]])]));
}

#[test]
fn the_customers_three_mistakes() {
    // the 8:00 takes twenty minutes, the 8:05 thirty: who comes at 8:03 has the 8:05
    let valley = text(&[(0, 1); 2], &[&hop(1, 2, 480, 500, 0), &hop(1, 2, 485, 515, 0)]);
    assert_eq!(rows(&valley, 1, 2, 479), Ok(vec![(21, 0, vec![[1, 1, 2]])]));
    assert_eq!(rows(&valley, 1, 2, 480), Ok(vec![(20, 0, vec![[1, 1, 2]])]));
    assert_eq!(rows(&valley, 1, 2, 483), Ok(vec![(32, 0, vec![[2, 1, 2]])]));
    assert_eq!(rows(&valley, 1, 2, 486), Err(14));
    // also where the junction lies on the way
    let trips: [&[_]; 3] = [&hop(1, 2, 480, 500, 0), &hop(1, 2, 485, 515, 0), &hop(2, 3, 520, 530, 0)];
    let beyond = text(&[(5, 1); 3], &trips);
    assert_eq!(rows(&beyond, 1, 3, 483), Ok(vec![(47, 1, vec![[2, 1, 2], [3, 1, 2]])]));
    assert_eq!(rows(&beyond, 1, 3, 480), Ok(vec![(50, 1, vec![[2, 1, 2], [3, 1, 2]])]));
    // who stays in the seat is charged no change time
    let stay = [(1, 0, 10, 0), (2, 20, 20, 0), (3, 30, 0, 0)];
    assert_eq!(rows(&text(&[(240, 1_000); 3], &[&stay]), 1, 3, 0), Ok(vec![(30, 0, vec![[1, 1, 3]])]));
    // the slower way without a change stands beside the quickest
    let slow = [(1, 0, 10, 0), (2, 20, 25, 0), (3, 90, 0, 0)];
    let both = text(&[(0, 1); 3], &[&slow, &hop(2, 3, 20, 30, 0)]);
    assert_eq!(rows(&both, 1, 3, 0), Ok(vec![(30, 1, vec![[1, 1, 2], [2, 1, 2]]), (90, 0, vec![[1, 1, 3]])]));
}

#[test]
fn where_planners_slip() {
    // duration counts from the minute, not from boarding
    let late = text(&[(0, 1); 2], &[&hop(1, 2, 100, 110, 0)]);
    assert_eq!(rows(&late, 1, 2, 0), Ok(vec![(110, 0, vec![[1, 1, 2]])]));
    // leaving at 502 after arriving at 500 with 3 change minutes
    assert_eq!(rows(&M.replace("S,2,3,10", "S,2,2,10"), 1, 3, 470), {
        Ok(vec![(45, 10, vec![[1, 1, 2], [3, 1, 2]]), (90, 0, vec![[1, 1, 3]])])
    });
}

#[test]
fn the_connection_that_departs_latest_is_shown_then_of_fewest_rides_then_of_first_numbers() {
    // to 3 by 2, with a change of 5 points, or direct for 5 points, all arriving at 40
    let trips = |direct: u16, first: u16| -> String {
        text(&[(0, 5); 3], &[&hop(1, 2, first, 20, 0), &hop(2, 3, 30, 40, 0), &hop(1, 3, direct, 40, 5)])
    };
    assert_eq!(rows(&trips(10, 11), 1, 3, 5), Ok(vec![(35, 5, vec![[1, 1, 2], [2, 1, 2]])]));
    assert_eq!(rows(&trips(11, 10), 1, 3, 5), Ok(vec![(35, 5, vec![[3, 1, 2]])]));
    assert_eq!(rows(&trips(10, 10), 1, 3, 5), Ok(vec![(35, 5, vec![[3, 1, 2]])]));
    // by store the direct ride is not known, and the change is shown
    assert_eq!(rows_from(&trips(10, 10), &[1, 1, 2, 2, 0, 3, 1], 1, 3, 5), {
        Ok(vec![(35, 5, vec![[1, 1, 2], [2, 1, 2]])])
    });
    // the first ride's numbers decide before the second's: trips 1 and 4, not 2 and 3, whichever is changed to
    let trips: [&[_]; 4] = [&hop(1, 2, 10, 20, 0), &hop(1, 4, 10, 20, 0), &hop(4, 3, 30, 40, 0), &hop(2, 3, 30, 40, 0)];
    assert_eq!(rows(&text(&[(0, 5); 4], &trips), 1, 3, 5), Ok(vec![(35, 5, vec![[1, 1, 2], [4, 1, 2]])]));
    // of two trips to the same change the later; of two from it the one of the lower number
    let trips: [&[_]; 4] = [&hop(1, 2, 10, 20, 0), &hop(1, 2, 11, 21, 0), &hop(2, 3, 30, 40, 0), &hop(2, 3, 30, 40, 0)];
    assert_eq!(rows(&text(&[(0, 5); 3], &trips), 1, 3, 5), Ok(vec![(35, 5, vec![[2, 1, 2], [3, 1, 2]])]));
    // the onward trip that leaves later has no advantage: the connection's departure is its first ride's
    let trips: [&[_]; 3] = [&hop(1, 2, 10, 20, 0), &hop(2, 3, 25, 40, 0), &hop(2, 3, 30, 40, 0)];
    assert_eq!(rows(&text(&[(0, 5); 3], &trips), 1, 3, 5), Ok(vec![(35, 5, vec![[1, 1, 2], [2, 1, 2]])]));
    // on one trip that meets the change twice, the boarding stop and the alighting stop of the lower number
    let twice = [(1, 0, 10, 0), (2, 20, 20, 0), (4, 22, 22, 0), (2, 24, 24, 0), (5, 60, 0, 0)];
    let onward = [(2, 0, 30, 0), (6, 32, 32, 0), (2, 34, 34, 0), (3, 40, 0, 0)];
    assert_eq!(rows(&text(&[(0, 5); 6], &[&twice, &onward]), 1, 3, 5), Ok(vec![(35, 5, vec![[1, 1, 2], [2, 1, 4]])]));
}

#[test]
fn changes_of_a_trip_with_itself_and_at_the_source() {
    // 1, 2, 3, 2, 4: leaving before the expensive loop and boarding again
    let trip = [(1, 0, 10, 0), (2, 20, 20, 50), (3, 30, 30, 50), (2, 40, 41, 0), (4, 50, 0, 0)];
    let looping = text(&[(1, 10); 4], &[&trip]);
    assert_eq!(rows(&looping, 1, 4, 0), Ok(vec![(50, 10, vec![[1, 1, 2], [1, 4, 5]])]));
    assert_eq!(rows_from(&looping, &[0, 1, 4, 0], 1, 4, 0), Ok(vec![(50, 100, vec![[1, 1, 5]])]));
    // a pattern with a station twice in a row, 1, 2, 2, 4, rides from 2 to 2: for that the trip is left and boarded at
    // one stop, which takes a change without minutes
    assert_eq!(rows_from(&looping, &[2, 1, 2, 2, 0, 2, 2, 1, 4, 2], 1, 4, 0), Err(14));
    let looping = text(&[(0, 10); 4], &[&trip]);
    assert_eq!(rows_from(&looping, &[2, 1, 2, 2, 0, 2, 2, 1, 4, 2], 1, 4, 0), {
        Ok(vec![(50, 120, vec![[1, 1, 2], [1, 2, 4], [1, 4, 5]])])
    });
    // a pattern that changes at the source, and one that changes at the target
    let round = [(1, 0, 10, 1), (2, 20, 20, 1), (1, 30, 30, 1), (3, 40, 40, 1), (2, 45, 45, 1), (3, 50, 0, 0)];
    let round = text(&[(0, 10); 3], &[&round]);
    assert_eq!(rows_from(&round, &[1, 1, 1, 1, 0, 3, 1], 1, 3, 0), { Ok(vec![(40, 13, vec![[1, 1, 3], [1, 3, 4]])]) });
    assert_eq!(rows_from(&round, &[1, 1, 3, 3, 0, 3, 1], 1, 3, 0), { Ok(vec![(50, 13, vec![[1, 3, 4], [1, 4, 6]])]) });
}
