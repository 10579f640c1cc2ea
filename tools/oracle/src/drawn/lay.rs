//! A world or a journey as the port is lent it: pools, and where each column lies in its pool.
use crate::drawn::journeys::Way;
use crate::drawn::legs::{Asked, World};

/// A column: n elements from `at` on.
#[repr(C)]
#[derive(Clone, Copy, Default)]
pub struct Span {
    pub at: u32,
    pub n: u32,
}

/// How many columns the tables have, in the order of the structs of crates/tables/src/lent.rt; a column of ids is two.
pub const TABLES: usize = 78;
/// The columns of a journey, in the order of the struct of crates/journey_rules/src/lent.rt.
pub const JOURNEY: usize = 11;

/// The pools, and where each column lies.
#[derive(Default)]
pub struct Laid {
    pub columns: Vec<Span>,
    pub bytes: Vec<u8>,
    pub words: Vec<u32>,
    pub reals: Vec<f64>,
    pub dists: Vec<f32>,
}

impl Laid {
    /// No column begins where its pool does.
    fn new(columns: usize) -> Laid {
        Laid { columns: vec![Span::default(); columns], bytes: vec![1; 3], words: vec![9; 2], reals: vec![7.0], dists: vec![7.0] }
    }

    fn span(&mut self, column: usize, at: usize, n: usize) {
        self.columns[column] = Span { at: at as u32, n: n as u32 };
    }

    fn words(&mut self, column: usize, rows: &[u32]) {
        self.span(column, self.words.len(), rows.len());
        self.words.extend(rows);
    }

    fn flags(&mut self, column: usize, rows: impl Iterator<Item = bool>) {
        let at = self.bytes.len();
        self.bytes.extend(rows.map(|set| set as u8 * 130));
        self.span(column, at, self.bytes.len() - at);
    }

    fn reals(&mut self, column: usize, rows: impl Iterator<Item = f64>) {
        let at = self.reals.len();
        self.reals.extend(rows);
        self.span(column, at, self.reals.len() - at);
    }

    fn ids<'a>(&mut self, column: usize, rows: impl Iterator<Item = &'a str>) {
        let (mut starts, mut lens) = (Vec::new(), Vec::new());
        for id in rows {
            starts.push(self.bytes.len() as u32);
            lens.push(id.len() as u32);
            self.bytes.extend(id.as_bytes());
        }
        self.words(column, &starts);
        self.words(column + 1, &lens);
    }

    /// The tables of a world.
    pub fn of_world(w: &World) -> Laid {
        let mut laid = Laid::new(TABLES + 2);
        let (stops, trips, rows) = (w.stops.len(), w.trips.len(), w.rows.len());
        laid.ids(0, (0..stops).map(|_| "s"));
        laid.ids(2, (0..stops).map(|_| ""));
        laid.reals(4, w.stops.iter().map(|s| s.map_or(f64::NAN, |p| p.0)));
        laid.reals(5, w.stops.iter().map(|s| s.map_or(999.0, |p| p.1)));
        laid.flags(6, w.stops.iter().map(|s| s.is_some()));
        laid.ids(10, (0..trips).map(|_| "f"));
        laid.ids(12, (0..trips).map(|_| "v"));
        laid.words(14, &w.trips.iter().map(|t| t.0.unwrap_or(u32::MAX)).collect::<Vec<_>>());
        laid.flags(15, w.trips.iter().map(|t| t.0.is_some()));
        laid.flags(16, (0..trips).map(|_| false));
        laid.words(17, &w.trips.iter().map(|t| t.1).collect::<Vec<_>>());
        laid.words(18, &w.trips.iter().map(|t| t.2).collect::<Vec<_>>());
        laid.ids(19, w.keys.iter().map(|k| k.0.as_str()));
        laid.words(21, &w.keys.iter().map(|k| k.1).collect::<Vec<_>>());
        laid.words(22, &vec![1; rows]);
        laid.words(23, &w.rows);
        laid.words(24, &vec![0; rows]);
        laid.words(25, &vec![0; rows]);
        laid.span(26, laid.dists.len(), rows);
        laid.dists.extend(vec![f32::NAN; rows]);
        laid.flags(27, (0..rows).map(|_| false));
        let ids: Vec<String> = (0..w.shapes.len()).map(|k| k.to_string()).collect();
        laid.ids(28, ids.iter().map(String::as_str));
        let firsts: Vec<u32> =
            (0..w.shapes.len()).map(|k| w.shapes[..k].iter().map(Vec::len).sum::<usize>() as u32).collect();
        laid.words(30, &firsts);
        laid.words(31, &w.shapes.iter().map(|s| s.len() as u32).collect::<Vec<_>>());
        laid.reals(32, w.shapes.iter().flatten().map(|p| p.0));
        laid.reals(33, w.shapes.iter().flatten().map(|p| p.1));
        laid
    }

    /// The trip asked of, in place of the one before.
    pub fn ask(&mut self, asked: &Asked) {
        self.ids(TABLES, [asked.trip.as_str()].into_iter());
    }

    pub fn of_journey(ways: &[Way]) -> Laid {
        let mut laid = Laid::new(JOURNEY);
        laid.flags(0, ways.iter().map(|w| w.walk));
        let firsts: Vec<u32> =
            (0..ways.len()).map(|k| ways[..k].iter().map(|w| w.points.len()).sum::<usize>() as u32).collect();
        laid.words(1, &firsts);
        laid.words(2, &ways.iter().map(|w| w.points.len() as u32).collect::<Vec<_>>());
        laid.reals(3, ways.iter().map(|w| w.start.map_or(f64::NAN, |p| p.0)));
        laid.reals(4, ways.iter().map(|w| w.start.map_or(999.0, |p| p.1)));
        laid.flags(5, ways.iter().map(|w| w.start.is_some()));
        laid.reals(6, ways.iter().map(|w| w.end.map_or(f64::NAN, |p| p.0)));
        laid.reals(7, ways.iter().map(|w| w.end.map_or(999.0, |p| p.1)));
        laid.flags(8, ways.iter().map(|w| w.end.is_some()));
        laid.reals(9, ways.iter().flat_map(|w| &w.points).map(|p| p.0));
        laid.reals(10, ways.iter().flat_map(|w| &w.points).map(|p| p.1));
        laid
    }

    pub fn part<const N: usize>(&self, first: usize) -> [Span; N] {
        self.columns[first..first + N].try_into().expect("as many columns")
    }
}
