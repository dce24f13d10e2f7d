//! A reader of timetable texts and of extra trips, written from documents 01 and 02: line by line, each question in its
//! order.

use crate::timetable::{
    trip_text, Onward, Station, Stop, Timetable, Walk, CHANGE_MINUTES_MOST, CHANGE_PENALTY_LEAST, CHANGE_PENALTY_MOST,
    LAST_MINUTE, MARKS, RIDE_PENALTY_MOST, STATIONS_MOST, STOPS_MOST, TEXT_BYTES_MOST, TRIPS_MOST, WALKS_MOST,
    WALK_MINUTES_LEAST, WALK_MINUTES_MOST,
};

#[derive(Clone, Copy, Debug, PartialEq, Eq)]
pub struct Refusal {
    pub number: u32,
    pub line: u32,
}

/// Reads a whole text: the timetable, or the first question that it has a no for.
pub fn read(text: &[u8]) -> Result<Timetable, Refusal> {
    if text.len() > TEXT_BYTES_MOST {
        return Err(Refusal { number: 1, line: 0 });
    }
    Reader::default().read(text)
}

/// Adds a trip to those that run, of a number that none of them has: "An extra trip comes as its number and its T
/// lines, read .. under 2 to 7". How long the text is, nobody asks.
pub fn add(timetable: Timetable, trip: u32, text: &[u8]) -> Result<Timetable, Refusal> {
    Reader { stops: timetable.stops(), timetable, extra: Some(trip), begun: None }.read(text)
}

/// The timetable, if reading, cancelling and adding can lead to it: by a text of its stations and walks alone, to which
/// each of its trips is added.
pub fn led_to(timetable: &Timetable) -> Option<Timetable> {
    let add_next = |timetable, (&trip, stops): (&u16, &Vec<Stop>)| {
        add(timetable, trip.into(), trip_text(trip.into(), stops).as_bytes()).ok()
    };
    timetable.trips.iter().try_fold(read(&timetable.without_trips().to_text()).ok()?, add_next)
}

/// The timetable of a text that is accepted.
pub fn accepted(text: &str) -> Timetable {
    read(text.as_bytes()).expect("a text that is accepted")
}

enum Line {
    Station { number: u16, station: Station },
    Walk(Walk),
    Stop { trip: u16, number: u16, stop: Stop },
}

/// The timetable of the lines so far.
#[derive(Default)]
struct Reader {
    timetable: Timetable,
    /// All stops, those that ran before an extra trip among them.
    stops: usize,
    /// The number of the extra trip, where it is one that is read.
    extra: Option<u32>,
    /// The trip that the last stop line belongs to.
    begun: Option<u16>,
}

impl Reader {
    fn read(mut self, text: &[u8]) -> Result<Timetable, Refusal> {
        let mut lines = 0;
        for line in text.split_inclusive(|&byte| byte == b'\n') {
            lines += 1;
            self.take(line).map_err(|number| Refusal { number, line: lines })?;
        }
        if self.may_end() {
            Ok(self.timetable)
        } else {
            Err(Refusal { number: 7, line: lines + 1 })
        }
    }

    /// Adds a line, or tells the number of its refusal.
    fn take(&mut self, bytes: &[u8]) -> Result<(), u32> {
        let line = shaped(bytes).ok_or(2u32)?;
        if !in_range(&line) || (self.extra.is_some() && is_of_trip_0(&line)) {
            return Err(3);
        }
        if !self.in_place(&line) {
            return Err(4);
        }
        if !self.within_counts(&line) {
            return Err(5);
        }
        if !self.fits(&line) {
            return Err(6);
        }
        self.add(line);
        Ok(())
    }

    /// The stop that the next line's stop follows on its trip; none where a new trip must begin.
    fn stop_before(&self) -> Option<(Stop, Onward)> {
        let last = *self.timetable.trips[&self.begun?].last()?;
        last.onward.map(|onward| (last, onward))
    }

    /// The trip and the stop that the next stop line must be of; none where no line may follow.
    fn due(&self) -> Option<(u32, usize)> {
        let trips = &self.timetable.trips;
        match (self.begun, self.extra) {
            (Some(trip), _) if self.stop_before().is_some() => Some((trip.into(), trips[&trip].len() + 1)),
            (Some(_), Some(_)) => None,
            (None, Some(extra)) => Some((extra, 1)),
            (_, None) => Some((trips.len() as u32 + 1, 1)),
        }
    }

    fn in_place(&self, line: &Line) -> bool {
        match *line {
            Line::Station { number, .. } => {
                let stations_go_on = self.extra.is_none() && self.begun.is_none() && self.timetable.walks.is_empty();
                stations_go_on && usize::from(number) == self.timetable.stations.len() + 1
            }
            Line::Walk(walk) => {
                let walks_go_on = self.extra.is_none() && self.begun.is_none();
                let rises = |last: &Walk| (last.from, last.to) < (walk.from, walk.to);
                walks_go_on && self.timetable.walks.last().is_none_or(rises)
            }
            Line::Stop { trip, number, .. } => self.due() == Some((trip.into(), number.into())),
        }
    }

    /// "The limits count running trips and stops."
    fn within_counts(&self, line: &Line) -> bool {
        match *line {
            Line::Station { number, .. } => usize::from(number) <= STATIONS_MOST,
            Line::Walk(_) => self.timetable.walks.len() < WALKS_MOST,
            Line::Stop { number, .. } => {
                let trips = self.timetable.trips.len() + usize::from(number == 1);
                trips <= TRIPS_MOST && self.stops < STOPS_MOST
            }
        }
    }

    fn fits(&self, line: &Line) -> bool {
        let listed = |station: u16| (1..=self.timetable.stations.len()).contains(&usize::from(station));
        let stop = match line {
            Line::Station { .. } => return true,
            Line::Walk(walk) => return listed(walk.from) && listed(walk.to),
            Line::Stop { stop, .. } => stop,
        };
        let listed = listed(stop.station);
        let (Some(arrive), Some((before, ride))) = (stop.arrive, self.stop_before()) else { return listed };
        let waits = stop.onward.is_none_or(|onward| onward.depart >= arrive);
        listed && stop.station != before.station && arrive > ride.depart && waits
    }

    fn add(&mut self, line: Line) {
        match line {
            Line::Station { station, .. } => self.timetable.stations.push(station),
            Line::Walk(walk) => self.timetable.walks.push(walk),
            Line::Stop { trip, stop, .. } => {
                self.timetable.trips.entry(trip).or_default().push(stop);
                self.begun = Some(trip);
                self.stops += 1;
            }
        }
    }

    fn may_end(&self) -> bool {
        let something = if self.extra.is_some() { self.begun.is_some() } else { !self.timetable.stations.is_empty() };
        something && self.stop_before().is_none()
    }
}

fn shaped(line: &[u8]) -> Option<Line> {
    let mut fields = line.strip_suffix(b"\n")?.split(|&byte| byte == b',');
    let shaped = match fields.next()? {
        b"S" => station_line(&mut fields)?,
        b"W" => walk_line(&mut fields)?,
        b"T" => stop_line(&mut fields)?,
        _ => return None,
    };
    fields.next().is_none().then_some(shaped)
}

fn station_line<'a>(fields: &mut impl Iterator<Item = &'a [u8]>) -> Option<Line> {
    let number = decimal(fields.next()?)?;
    let change_minutes = decimal(fields.next()?)?;
    let change_penalty = decimal(fields.next()?)?;
    Some(Line::Station { number, station: Station { change_minutes, change_penalty } })
}

fn walk_line<'a>(fields: &mut impl Iterator<Item = &'a [u8]>) -> Option<Line> {
    let from = decimal(fields.next()?)?;
    let to = decimal(fields.next()?)?;
    let minutes = decimal(fields.next()?)?;
    let penalty = decimal(fields.next()?)?;
    Some(Line::Walk(Walk { from, to, minutes, penalty }))
}

fn stop_line<'a>(fields: &mut impl Iterator<Item = &'a [u8]>) -> Option<Line> {
    let trip = decimal(fields.next()?)?;
    let number = decimal(fields.next()?)?;
    let station = decimal(fields.next()?)?;
    let arrive = if_filled(fields.next()?, minute)?;
    let depart = if_filled(fields.next()?, minute)?;
    let penalty = if_filled(fields.next()?, decimal)?;
    let mark = decimal(fields.next()?)?;
    let onward = match (depart, penalty) {
        (Some(depart), Some(penalty)) => Some(Onward { depart, penalty }),
        (None, None) => None,
        _ => return None,
    };
    let first = number == 1;
    let filled_rightly = arrive.is_none() == first && (onward.is_some() || !first);
    filled_rightly.then_some(Line::Stop { trip, number, stop: Stop { station, arrive, onward, mark } })
}

/// No value for an empty field; else what the field spells, if it spells something.
fn if_filled(field: &[u8], spelled: fn(&[u8]) -> Option<u16>) -> Option<Option<u16>> {
    if field.is_empty() {
        Some(None)
    } else {
        spelled(field).map(Some)
    }
}

/// "One to four decimal digits and no leading zero, except 0 itself."
fn decimal(field: &[u8]) -> Option<u16> {
    let wrong_zero = field.len() > 1 && field[0] == b'0';
    if field.is_empty() || field.len() > 4 || wrong_zero || !field.iter().all(u8::is_ascii_digit) {
        return None;
    }
    Some(field.iter().fold(0, |number, digit| 10 * number + u16::from(digit - b'0')))
}

/// "`hh:mm` .. two digits each side". "Minutes above 59 or hours above 47 give 3": such a time is none of the two days.
fn minute(field: &[u8]) -> Option<u16> {
    let &[a, b, b':', c, d] = field else { return None };
    if ![a, b, c, d].iter().all(u8::is_ascii_digit) {
        return None;
    }
    let pair = |tens: u8, ones: u8| 10 * u16::from(tens - b'0') + u16::from(ones - b'0');
    let (hours, minutes) = (pair(a, b), pair(c, d));
    Some(if minutes > 59 { u16::MAX } else { 60 * hours + minutes })
}

/// "(0 in a line gives 3)", of an extra trip's lines.
fn is_of_trip_0(line: &Line) -> bool {
    matches!(line, Line::Stop { trip: 0, .. })
}

fn in_range(line: &Line) -> bool {
    match line {
        Line::Station { station, .. } => {
            station.change_minutes <= CHANGE_MINUTES_MOST
                && (CHANGE_PENALTY_LEAST..=CHANGE_PENALTY_MOST).contains(&station.change_penalty)
        }
        Line::Walk(walk) => {
            (WALK_MINUTES_LEAST..=WALK_MINUTES_MOST).contains(&walk.minutes)
                && (CHANGE_PENALTY_LEAST..=CHANGE_PENALTY_MOST).contains(&walk.penalty)
        }
        Line::Stop { stop, .. } => {
            let is_time = |minute: u16| minute <= LAST_MINUTE;
            stop.arrive.is_none_or(is_time)
                && MARKS.contains(&stop.mark)
                && stop.onward.is_none_or(|onward| is_time(onward.depart) && onward.penalty <= RIDE_PENALTY_MOST)
        }
    }
}
