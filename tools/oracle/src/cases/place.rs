//! Places: as the probe writes them, where they are, and their order in time (document 01).
use super::digits;
use super::plan::{Leg, Path, Plan};

#[derive(Clone, Copy, PartialEq, Debug)]
pub enum Kind {
    Shape,
    Chain,
    Straight,
}

#[derive(Clone, Copy, PartialEq, Debug)]
pub enum Place {
    Call(usize),
    Start(usize),
    End(usize),
    /// the leg, the path, its lower vertex, whether the vertices run as she sails, the fraction drawn with
    Stretch(usize, Kind, usize, bool, f64),
    /// the target meets no stretch
    Last(usize, Kind),
}

fn word(kind: Kind) -> &'static str {
    match kind {
        Kind::Shape => "shape",
        Kind::Chain => "chain",
        Kind::Straight => "straight",
    }
}

impl Place {
    pub fn text(&self) -> String {
        match *self {
            Place::Call(k) => format!("(call {k})"),
            Place::Start(k) => format!("(leg {k} start)"),
            Place::End(k) => format!("(leg {k} end)"),
            Place::Stretch(k, kind, v, up, t) => {
                format!("(leg {k} {} {v} {} {})", word(kind), if up { "up" } else { "down" }, digits(t))
            }
            Place::Last(k, kind) => format!("(leg {k} {} last)", word(kind)),
        }
    }

    pub fn parse(text: &str) -> Option<Place> {
        let words: Vec<&str> = text.strip_prefix('(')?.strip_suffix(')')?.split(' ').collect();
        let kind = |word: &str| match word {
            "shape" => Some(Kind::Shape),
            "chain" => Some(Kind::Chain),
            "straight" => Some(Kind::Straight),
            _ => None,
        };
        let whole = |word: &str| word.parse::<usize>().ok();
        match words[..] {
            ["call", k] => Some(Place::Call(whole(k)?)),
            ["leg", k, "start"] => Some(Place::Start(whole(k)?)),
            ["leg", k, "end"] => Some(Place::End(whole(k)?)),
            ["leg", k, path, "last"] => Some(Place::Last(whole(k)?, kind(path)?)),
            ["leg", k, path, v, way, x] => {
                let up = ["down", "up"].iter().position(|&word| word == way)? == 1;
                let t = f64::from_bits(u64::from_str_radix(x, 16).ok()?);
                Some(Place::Stretch(whole(k)?, kind(path)?, whole(v)?, up, t))
            }
            _ => None,
        }
    }

    /// The call or leg in turn: leg k before call k.
    fn turn(&self) -> usize {
        match *self {
            Place::Call(k) => 2 * k,
            Place::Start(k) | Place::End(k) | Place::Stretch(k, ..) | Place::Last(k, _) => 2 * k - 1,
        }
    }

    /// Where along its leg: before, on or past the path, the stretch in sailing direction, the fraction in that direction.
    fn along(&self, plan: &Plan) -> (i8, i64, f64) {
        match *self {
            Place::Call(_) => (0, 0, 0.0),
            Place::Start(_) => (0, 0, 0.0),
            Place::Stretch(_, _, v, true, t) => (1, v as i64, t),
            Place::Stretch(_, _, v, false, t) => (1, -(v as i64), 1.0 - t),
            Place::Last(k, _) => {
                (1, if plan.leg(k).is_some_and(|leg| !leg.path.up()) { i64::MIN } else { i64::MAX }, 0.0)
            }
            Place::End(_) => (2, 0, 0.0),
        }
    }

    /// Whether a ferry at a later clock may be at `next`.
    pub fn no_later_than(&self, next: &Place, plan: &Plan) -> bool {
        if self.turn() != next.turn() {
            return self.turn() < next.turn();
        }
        let ((part, stretch, fraction), (next_part, next_stretch, next_fraction)) =
            (self.along(plan), next.along(plan));
        if (part, stretch) != (next_part, next_stretch) {
            return (part, stretch) < (next_part, next_stretch);
        }
        fraction <= next_fraction
    }

    /// The coordinates of a place, from the tables: none where there is no such place.
    pub fn coordinates(&self, plan: &Plan) -> Option<(f64, f64)> {
        let between = |line: &[(f64, f64)], v: usize, t: f64| {
            let ((lat0, lon0), (lat1, lon1)) = (*line.get(v)?, *line.get(v + 1)?);
            Some((lat0 + (lat1 - lat0) * t, lon0 + (lon1 - lon0) * t))
        };
        match *self {
            Place::Call(k) if plan.calls.is_empty() => plan.pin.filter(|_| k == 1),
            Place::Call(k) => plan.calls.get(k.checked_sub(1)?).map(|call| (call.lat, call.lon)),
            Place::Start(k) => plan.leg(k).map(|leg| leg.from),
            Place::End(k) => plan.leg(k).map(|leg| leg.to),
            Place::Stretch(_, Kind::Shape, v, _, t) => between(plan.shape()?, v, t),
            Place::Stretch(k, Kind::Chain, v, _, t) => match plan.leg(k)?.path {
                Path::Chain(line) => between(&line, v, t),
                _ => None,
            },
            Place::Stretch(k, Kind::Straight, v, _, t) => {
                let Leg { from, to, .. } = plan.leg(k)?;
                between(&[from, to], v, t)
            }
            Place::Last(k, kind) => match (plan.leg(k)?.path, kind) {
                (Path::ByDistance(..), Kind::Shape) => plan.shape()?.last().copied(),
                (Path::Part(i0, i1), Kind::Shape) => plan.shape()?.get(i0.max(i1)).copied(),
                (Path::Chain(line), Kind::Chain) => line.last().copied(),
                _ => None,
            },
        }
    }
}
