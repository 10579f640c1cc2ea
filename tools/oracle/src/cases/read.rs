//! Reads a text of the case language, by docs/CASES.md alone: a case, or none. It shares nothing with the programs.
use super::{Call, Case, Exception, Range, Shape, Stop, Trip, Update};

/// What one text may hold, as docs/CASES.md names it.
mod most {
    pub const STOPS: usize = 4096;
    pub const STOP_KEYS: usize = 5120;
    pub const TRIPS: usize = 1024;
    pub const TRIP_KEYS: usize = 2048;
    pub const CALLS: usize = 8192;
    pub const SHAPES: usize = 1024;
    pub const POINTS: usize = 16384;
    pub const UPDATES: usize = 512;
    pub const OTHERS: usize = 1024;
    pub const ID: usize = 255;
    pub const ID_BYTES: usize = 131_072;
    pub const LINE: usize = 4096;
    pub const QUERIES: usize = 65_536;
}

/// A case, and the rows of its id tables in the order of their lines.
#[derive(Clone, Default)]
pub struct Read {
    pub case: Case,
    pub stop_rows: Vec<(String, u32)>,
    pub trip_rows: Vec<(String, u32)>,
    /// how many lines of each form that stands once
    feeds: usize,
    keys: usize,
    nows: usize,
    offsets: usize,
    cancels: usize,
    id_bytes: usize,
    query_bytes: usize,
}

/// What stands in a line after its name. A token has a character for each byte.
enum Item {
    Token(String),
    Bracket(String, Option<String>),
}

fn characters(bytes: &[u8]) -> String {
    bytes.iter().map(|&byte| byte as char).collect()
}

/// One byte or more, none of them a space or a parenthesis.
fn plain(bytes: &[u8]) -> Option<String> {
    let fits = !bytes.is_empty() && !bytes.iter().any(|byte| b" ()".contains(byte));
    fits.then(|| characters(bytes))
}

/// A line's name and its items.
fn split(line: &[u8]) -> Option<(String, Vec<Item>)> {
    let inner = line.strip_prefix(b"(")?.strip_suffix(b")")?;
    let end = inner.iter().position(|&byte| byte == b' ').unwrap_or(inner.len());
    let name = plain(&inner[..end])?;
    let (mut rest, mut items) = (&inner[end..], vec![]);
    while !rest.is_empty() {
        rest = rest.strip_prefix(b" ")?;
        if let Some(bracket) = rest.strip_prefix(b"(") {
            let end = bracket.iter().position(|&byte| byte == b')')?;
            let mut words = bracket[..end].splitn(2, |&byte| byte == b' ');
            let name = plain(words.next()?)?;
            let token = match words.next() {
                Some(word) => Some(plain(word)?),
                None => None,
            };
            items.push(Item::Bracket(name, token));
            rest = &bracket[end + 1..];
        } else {
            let end = rest.iter().position(|&byte| byte == b' ').unwrap_or(rest.len());
            items.push(Item::Token(plain(&rest[..end])?));
            rest = &rest[end..];
        }
    }
    Some((name, items))
}

/// The items of a line, taken one after another.
struct Items {
    items: std::iter::Peekable<std::vec::IntoIter<Item>>,
    /// bytes of the ids taken
    id_bytes: usize,
}

fn digits(text: &str, most: usize) -> Option<i128> {
    let fits = (1..=most).contains(&text.len()) && text.bytes().all(|byte| byte.is_ascii_digit());
    fits.then(|| text.parse().ok()).flatten()
}

fn signed(text: &str, most: usize) -> Option<i128> {
    match text.strip_prefix('-') {
        Some(rest) => digits(rest, most).map(|value| -value),
        None => digits(text, most),
    }
}

fn number(text: &str) -> Option<u32> {
    u32::try_from(digits(text, 10)?).ok()
}

fn bits(text: &str, count: usize) -> Option<u64> {
    let fits = text.len() == count && text.bytes().all(|byte| matches!(byte, b'0'..=b'9' | b'a'..=b'f'));
    fits.then(|| u64::from_str_radix(text, 16).ok()).flatten()
}

pub fn decoded(text: &str) -> Option<String> {
    if text == "%" {
        return Some(String::new());
    }
    let (mut id, mut rest) = (String::new(), text.chars());
    while let Some(c) = rest.next() {
        if c != '%' {
            id.push(c);
            continue;
        }
        let pair: String = rest.by_ref().take(2).collect();
        id.push(bits(&pair, 2)? as u8 as char);
    }
    (id.chars().count() <= most::ID).then_some(id)
}

impl Items {
    fn token(&mut self) -> Option<String> {
        match self.items.next()? {
            Item::Token(text) => Some(text),
            Item::Bracket(..) => None,
        }
    }

    fn is_token(&mut self) -> bool {
        matches!(self.items.peek(), Some(Item::Token(_)))
    }

    fn id_of(&mut self, text: &str) -> Option<String> {
        let id = decoded(text)?;
        self.id_bytes += id.chars().count();
        Some(id)
    }

    fn id(&mut self) -> Option<String> {
        let text = self.token()?;
        self.id_of(&text)
    }

    fn number(&mut self) -> Option<u32> {
        number(&self.token()?)
    }

    fn moment(&mut self) -> Option<i64> {
        Some(signed(&self.token()?, 18)? as i64)
    }

    fn double(&mut self) -> Option<f64> {
        Some(f64::from_bits(bits(&self.token()?, 16)?))
    }

    /// The token of a bracket of this name, if it stands next. Its own bracket must have one.
    fn bracket(&mut self, name: &str) -> Option<Option<String>> {
        match self.items.next_if(|item| matches!(item, Item::Bracket(n, _) if n == name)) {
            Some(Item::Bracket(_, Some(text))) => Some(Some(text)),
            Some(_) => None,
            None => Some(None),
        }
    }

    /// Whether a bracket of this name alone stands next.
    fn flag(&mut self, name: &str) -> bool {
        self.items.next_if(|item| matches!(item, Item::Bracket(n, None) if n == name)).is_some()
    }

    fn end(&mut self) -> Option<()> {
        self.items.next().is_none().then_some(())
    }
}

/// A bracket's token, read; none where there is no bracket.
fn within<T>(text: Option<String>, read: impl FnOnce(&str) -> Option<T>) -> Option<Option<T>> {
    match text {
        Some(text) => read(&text).map(Some),
        None => Some(None),
    }
}

fn delay(text: &str) -> Option<i32> {
    i32::try_from(signed(text, 10)?).ok()
}

fn moment(text: &str) -> Option<i64> {
    signed(text, 18).map(|value| value as i64)
}

fn days(text: &str) -> Option<u8> {
    let fits = text.len() == 7 && text.bytes().all(|byte| byte == b'0' || byte == b'1');
    fits.then(|| text.bytes().enumerate().map(|(day, byte)| (byte - b'0') << day).sum())
}

fn update(items: &mut Items) -> Option<Update> {
    let sequence = items.number()?;
    let stop = if items.is_token() { Some(items.id()?) } else { None };
    Some(Update {
        sequence,
        stop,
        arrival: within(items.bracket("arr")?, moment)?,
        departure: within(items.bracket("dep")?, moment)?,
        arrival_delay: within(items.bracket("arr-delay")?, delay)?,
        departure_delay: within(items.bracket("dep-delay")?, delay)?,
    })
}

fn stop(items: &mut Items) -> Option<Stop> {
    let id = items.id()?;
    let at = if items.is_token() { Some((items.double()?, items.double()?)) } else { None };
    let raw = match items.bracket("raw")? {
        Some(text) => items.id_of(&text)?,
        None => String::new(),
    };
    Some(Stop { id, raw, at })
}

fn trip(items: &mut Items) -> Option<Trip> {
    let (id, feed, service) = (items.id()?, items.id()?, items.id()?);
    let shape = within(items.bracket("shape")?, number)?;
    let frequency = items.flag("frequency");
    Some(Trip { id, feed, service, shape, frequency, calls: vec![] })
}

fn call(items: &mut Items) -> Option<Call> {
    let [sequence, stop, arrival, departure] = [items.number()?, items.number()?, items.number()?, items.number()?];
    let dist = within(items.bracket("dist")?, |text| Some(f32::from_bits(bits(text, 8)? as u32)))?;
    Some(Call { sequence, stop, arrival, departure, dist })
}

fn exception(items: &mut Items) -> Option<Exception> {
    let (feed, service, date) = (items.id()?, items.id()?, items.number()?);
    let removed = match items.token()?.as_str() {
        "added" => false,
        "removed" => true,
        _ => return None,
    };
    Some(Exception { feed, service, date, removed })
}

/// The tokens of a query, a letter each: X and Y floats, N a number, I an id.
fn query_tokens(name: &str) -> Option<&'static str> {
    Some(match name {
        "sin" | "cos" | "atan" | "asin" | "root" | "narrow" | "snap" => "X",
        "atan2" => "XX",
        "haversine" | "bearing" => "XXXX",
        "date" | "project" | "calibrate" | "backfill" => "N",
        "runs" => "IIN",
        "along" => "NYYX",
        "leg" => "INN",
        "match" | "place" => "",
        _ => return None,
    })
}

fn query(name: &str, items: &mut Items) -> Option<()> {
    for kind in query_tokens(name)?.chars() {
        let text = items.token()?;
        match kind {
            'X' => bits(&text, 16).map(drop)?,
            'Y' => bits(&text, 8).map(drop)?,
            'N' => number(&text).map(drop)?,
            _ => decoded(&text).map(drop)?,
        }
    }
    Some(())
}

impl Read {
    fn once(count: &mut usize) -> Option<()> {
        *count += 1;
        (*count == 1).then_some(())
    }

    fn sailing(&mut self, name: &str, items: &mut Items) -> Option<()> {
        let case = &mut self.case;
        match name {
            "feed" => {
                case.feed = items.id()?;
                Read::once(&mut self.feeds)
            }
            "trip" => {
                case.trip = items.id()?;
                Read::once(&mut self.keys)
            }
            "now" => {
                case.now = items.moment()?;
                Read::once(&mut self.nows)
            }
            "offset" => {
                case.offset = items.moment()?;
                Read::once(&mut self.offsets)
            }
            "cancelled" => {
                case.cancelled = true;
                Read::once(&mut self.cancels)
            }
            "route" => {
                let first = case.route.is_none();
                case.route = Some(items.id()?);
                first.then_some(())
            }
            _ => {
                case.updates.push(update(items)?);
                (case.updates.len() <= most::UPDATES).then_some(())
            }
        }
    }

    fn table(&mut self, name: &str, items: &mut Items) -> Option<()> {
        let case = &mut self.case;
        match name {
            "stop" => {
                let stop = stop(items)?;
                self.stop_rows.push((stop.id.clone(), case.stops.len() as u32));
                case.stops.push(stop);
            }
            "stop-key" => {
                let key = (items.id()?, items.number()?);
                self.stop_rows.push(key.clone());
                case.stop_keys.push(key);
            }
            "static" => {
                let trip = trip(items)?;
                self.trip_rows.push((trip.id.clone(), case.trips.len() as u32));
                case.trips.push(trip);
            }
            "static-key" => {
                let key = (items.id()?, items.number()?);
                self.trip_rows.push(key.clone());
                case.trip_keys.push(key);
            }
            "call" => case.trips.last_mut()?.calls.push(call(items)?),
            "shape" => case.shapes.push(Shape { id: items.id()?, points: vec![] }),
            "point" => case.shapes.last_mut()?.points.push((items.double()?, items.double()?)),
            "alias" => case.aliases.push((items.id()?, items.id()?)),
            "line" => case.lines.push((items.id()?, items.number()?)),
            "calendar" => case.calendars.push(items.id()?),
            "range" => case.ranges.push(Range {
                feed: items.id()?,
                service: items.id()?,
                first: items.number()?,
                last: items.number()?,
                weekdays: days(&items.token()?)?,
            }),
            "exception" => case.exceptions.push(exception(items)?),
            _ => return None,
        }
        Some(())
    }

    /// Whether the tables are within what a program holds.
    fn fits(&self) -> bool {
        let case = &self.case;
        let calls: usize = case.trips.iter().map(|trip| trip.calls.len()).sum();
        let points: usize = case.shapes.iter().map(|shape| shape.points.len()).sum();
        let others =
            [case.aliases.len(), case.lines.len(), case.calendars.len(), case.ranges.len(), case.exceptions.len()];
        case.stops.len() <= most::STOPS
            && self.stop_rows.len() <= most::STOP_KEYS
            && case.trips.len() <= most::TRIPS
            && self.trip_rows.len() <= most::TRIP_KEYS
            && calls <= most::CALLS
            && case.shapes.len() <= most::SHAPES
            && points <= most::POINTS
            && others.iter().all(|&rows| rows <= most::OTHERS)
            && self.id_bytes <= most::ID_BYTES
            && self.query_bytes <= most::QUERIES
    }

    fn line(&mut self, line: &[u8], queries: bool) -> Option<()> {
        if line.len() > most::LINE {
            return None;
        }
        let (name, items) = split(line)?;
        let mut items = Items { items: items.into_iter().peekable(), id_bytes: 0 };
        match name.as_str() {
            "feed" | "trip" | "now" | "offset" | "cancelled" | "route" | "update" => self.sailing(&name, &mut items)?,
            _ if query_tokens(&name).is_some() => {
                query(&name, &mut items).filter(|_| queries)?;
                self.case.queries.push(characters(line));
                self.query_bytes += line.len() - 1;
            }
            _ => self.table(&name, &mut items)?,
        }
        self.id_bytes += items.id_bytes;
        items.end()
    }
}

/// The case that a text is, if it is one; with queries where those are forms.
pub fn read(text: &[u8], queries: bool) -> Option<Read> {
    let mut read = Read::default();
    let text = text.strip_suffix(b"\n").unwrap_or(text);
    for line in text.split(|&byte| byte == b'\n') {
        read.line(line, queries)?;
    }
    (read.feeds == 1 && read.keys == 1 && read.nows == 1 && read.fits()).then_some(read)
}
