//! Walking to the next stop, and two rules for one platform: W lines in text and words, changes on foot in stores and
//! rows.

mod changes_on_foot;
mod platforms;
mod text;
mod villages;
mod words;

use dairyepoch_tests::handmade::{text, Numbers};
use dairyepoch_tests::reference::accepted;
use dairyepoch_tests::timetable::{Timetable, Walk};

/// From, to, minutes and penalty of a walk.
type OnFoot = (u16, u16, u16, u16);

/// A timetable of stations by change minutes and change penalty, of walks, and of trips by the numbers of each stop.
fn village(stations: &[(u16, u16)], walks: &[OnFoot], trips: &[&[Numbers]]) -> Timetable {
    let walk = |&(from, to, minutes, penalty): &OnFoot| Walk { from, to, minutes, penalty };
    Timetable { walks: walks.iter().map(walk).collect(), ..accepted(&text(stations, trips)) }
}
