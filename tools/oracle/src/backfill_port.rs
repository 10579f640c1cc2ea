//! The port's side of backfill: the functions of target/staticlib/libexports_backfill.a, on a world laid out in pools.
use crate::inputs::trips::World;

#[repr(C)]
#[derive(Clone, Copy, Default)]
pub struct Span {
    pub at: u32,
    pub n: u32,
}

/// The struct of this name in crates/tables/src/lent.rt, its columns in their order.
const COLUMNS: usize = 78;

#[repr(C)]
#[derive(Clone, Copy)]
pub struct Tables(pub [Span; COLUMNS]);

extern "C" {
    fn zebumorn_backfill_trips(
        bytes: *const u8,
        byte_count: usize,
        words: *const u32,
        word_count: usize,
        times: *const i64,
        time_count: usize,
        reals: *const f64,
        real_count: usize,
        dists: *const f32,
        dist_count: usize,
        t: Tables,
        out: *mut f32,
        out_count: usize,
        marks: *mut u8,
        mark_count: usize,
    ) -> u32;
    fn zebumorn_backfill_trip(
        bytes: *const u8,
        byte_count: usize,
        words: *const u32,
        word_count: usize,
        times: *const i64,
        time_count: usize,
        reals: *const f64,
        real_count: usize,
        dists: *const f32,
        dist_count: usize,
        t: Tables,
        trip: usize,
        out: *mut f32,
        out_count: usize,
        marks: *mut u8,
        mark_count: usize,
    ) -> u32;
}

pub struct Lent {
    pub columns: Tables,
    pub bytes: Vec<u8>,
    pub words: Vec<u32>,
    pub times: Vec<i64>,
    pub reals: Vec<f64>,
    pub dists: Vec<f32>,
}

/// What an operation answers, with both outputs.
pub struct Filled {
    pub refusal: u32,
    pub dists: Vec<f32>,
    pub marks: Vec<u8>,
}

/// What the outputs hold before, and past the stop times still.
pub const UNWRITTEN: (f32, u8) = (-7.5, 77);

impl Lent {
    fn put<T: Copy>(pool: &mut Vec<T>, rows: &[T]) -> Span {
        let at = pool.len() as u32;
        pool.extend(rows);
        Span { at, n: rows.len() as u32 }
    }

    fn words(&mut self, column: usize, rows: &[u32]) {
        self.columns.0[column] = Lent::put(&mut self.words, rows);
    }

    fn flags(&mut self, column: usize, rows: &[u8]) {
        self.columns.0[column] = Lent::put(&mut self.bytes, rows);
    }

    fn reals(&mut self, column: usize, rows: &[f64]) {
        self.columns.0[column] = Lent::put(&mut self.reals, rows);
    }

    /// Ids of four letters, in order.
    fn ids(&mut self, column: usize, count: usize) {
        let starts: Vec<u32> = (0..count as u32).map(|k| self.bytes.len() as u32 + 4 * k).collect();
        (0..count).for_each(|k| self.bytes.extend(format!("{k:04}").as_bytes()));
        self.words(column, &starts);
        self.words(column + 1, &vec![4; count]);
    }

    /// What lies under a flag that is clear is not to be read, and neither is what stands before a column.
    pub fn of(w: &World) -> Lent {
        let columns = Tables([Span::default(); COLUMNS]);
        let (bytes, words, times) = (vec![1; 3], vec![1; 5], vec![]);
        let mut lent = Lent { columns, bytes, words, times, reals: vec![7.0; 5], dists: vec![7.0; 2] };
        let (stops, trips, rows) = (w.stops.len(), w.trips.len(), w.rows.len());
        let flag = |set: bool| if set { 1 + (rows % 255) as u8 } else { 0 };
        lent.ids(0, stops);
        lent.ids(2, stops);
        lent.reals(4, &w.stops.iter().map(|s| s.unwrap_or((91.0, f64::NAN)).0).collect::<Vec<_>>());
        lent.reals(5, &w.stops.iter().map(|s| s.unwrap_or((91.0, f64::NAN)).1).collect::<Vec<_>>());
        lent.flags(6, &w.stops.iter().map(|s| flag(s.is_some())).collect::<Vec<_>>());
        lent.ids(10, trips);
        lent.ids(12, trips);
        lent.words(14, &w.trips.iter().map(|t| t.0.unwrap_or(9)).collect::<Vec<_>>());
        lent.flags(15, &w.trips.iter().map(|t| flag(t.0.is_some())).collect::<Vec<_>>());
        lent.flags(16, &vec![0; trips]);
        lent.words(17, &w.trips.iter().map(|t| t.1).collect::<Vec<_>>());
        lent.words(18, &w.trips.iter().map(|t| t.2).collect::<Vec<_>>());
        lent.words(22, &(0..rows as u32).collect::<Vec<_>>());
        lent.words(23, &w.rows.iter().map(|r| r.0).collect::<Vec<_>>());
        lent.words(24, &vec![0; rows]);
        lent.words(25, &vec![0; rows]);
        lent.columns.0[26] =
            Lent::put(&mut lent.dists, &w.rows.iter().map(|r| r.1.unwrap_or(f32::NAN)).collect::<Vec<_>>());
        lent.flags(27, &w.rows.iter().map(|r| flag(r.1.is_some())).collect::<Vec<_>>());
        lent.ids(28, w.shapes.len());
        let firsts = (0..w.shapes.len()).map(|k| w.shapes[..k].iter().map(Vec::len).sum::<usize>() as u32);
        lent.words(30, &firsts.collect::<Vec<_>>());
        lent.words(31, &w.shapes.iter().map(|s| s.len() as u32).collect::<Vec<_>>());
        let points: Vec<(f64, f64)> = w.shapes.iter().flatten().copied().collect();
        lent.reals(32, &points.iter().map(|p| p.0).collect::<Vec<_>>());
        lent.reals(33, &points.iter().map(|p| p.1).collect::<Vec<_>>());
        lent
    }

    /// All trips, or one alone, into outputs of so many rows.
    pub fn backfill(&self, trip: Option<usize>, room: usize, marks_room: usize) -> Filled {
        let (mut dists, mut marks) = (vec![UNWRITTEN.0; room], vec![UNWRITTEN.1; marks_room]);
        let (b, w, t, r, d) = (&self.bytes, &self.words, &self.times, &self.reals, &self.dists);
        let refusal = unsafe {
            match trip {
                None => zebumorn_backfill_trips(
                    b.as_ptr(),
                    b.len(),
                    w.as_ptr(),
                    w.len(),
                    t.as_ptr(),
                    t.len(),
                    r.as_ptr(),
                    r.len(),
                    d.as_ptr(),
                    d.len(),
                    self.columns,
                    dists.as_mut_ptr(),
                    dists.len(),
                    marks.as_mut_ptr(),
                    marks.len(),
                ),
                Some(trip) => zebumorn_backfill_trip(
                    b.as_ptr(),
                    b.len(),
                    w.as_ptr(),
                    w.len(),
                    t.as_ptr(),
                    t.len(),
                    r.as_ptr(),
                    r.len(),
                    d.as_ptr(),
                    d.len(),
                    self.columns,
                    trip,
                    dists.as_mut_ptr(),
                    dists.len(),
                    marks.as_mut_ptr(),
                    marks.len(),
                ),
            }
        };
        Filled { refusal, dists, marks }
    }
}
