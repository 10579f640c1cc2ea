//! The port's side of the tables: the functions of target/staticlib/liboracle_tables.a, on a world laid out in pools.
use crate::inputs::trips::World;

extern "C" {
    fn zebumorn_trip_shape_dist_affine(
        bytes: *const u8,
        byte_count: usize,
        words: *const u32,
        word_count: usize,
        reals: *const f64,
        real_count: usize,
        dists: *const f32,
        dist_count: usize,
        trip: usize,
        a: *mut f64,
        b: *mut f64,
    ) -> bool;
}

/// The pools. The first words say where each column begins and how many rows it has.
pub struct Pools {
    bytes: Vec<u8>,
    words: Vec<u32>,
    reals: Vec<f64>,
    dists: Vec<f32>,
}

/// Appends a column to its pool, and its place to the words' head.
fn lay<T: Copy>(pool: &mut Vec<T>, head: &mut Vec<u32>, rows: &[T]) {
    head.extend([pool.len() as u32, rows.len() as u32]);
    pool.extend(rows);
}

impl Pools {
    /// What lies under a flag that is clear is not to be read, and neither is what stands before a column.
    pub fn of(w: &World) -> Pools {
        let mut head = Vec::new();
        let (mut bytes, mut reals, mut dists) = (vec![1; 3], vec![7.0; 5], vec![7.0; 2]);
        let mut words = vec![1; 28];
        let points: Vec<(f64, f64)> = w.shapes.iter().flatten().copied().collect();
        let firsts: Vec<u32> =
            (0..w.shapes.len()).map(|k| w.shapes[..k].iter().map(Vec::len).sum::<usize>() as u32).collect();
        let flag = |set: bool| if set { 1 + (points.len() % 255) as u8 } else { 0 };
        lay(&mut words, &mut head, &w.trips.iter().map(|t| t.0.unwrap_or(0)).collect::<Vec<u32>>());
        lay(&mut bytes, &mut head, &w.trips.iter().map(|t| flag(t.0.is_some())).collect::<Vec<u8>>());
        lay(&mut words, &mut head, &w.trips.iter().map(|t| t.1).collect::<Vec<u32>>());
        lay(&mut words, &mut head, &w.trips.iter().map(|t| t.2).collect::<Vec<u32>>());
        lay(&mut words, &mut head, &w.rows.iter().map(|r| r.0).collect::<Vec<u32>>());
        lay(&mut dists, &mut head, &w.rows.iter().map(|r| r.1.unwrap_or(3.0)).collect::<Vec<f32>>());
        lay(&mut bytes, &mut head, &w.rows.iter().map(|r| flag(r.1.is_some())).collect::<Vec<u8>>());
        lay(&mut reals, &mut head, &w.stops.iter().map(|s| s.unwrap_or((1.0, 2.0)).0).collect::<Vec<f64>>());
        lay(&mut reals, &mut head, &w.stops.iter().map(|s| s.unwrap_or((1.0, 2.0)).1).collect::<Vec<f64>>());
        lay(&mut bytes, &mut head, &w.stops.iter().map(|s| flag(s.is_some())).collect::<Vec<u8>>());
        lay(&mut words, &mut head, &firsts);
        lay(&mut words, &mut head, &w.shapes.iter().map(|s| s.len() as u32).collect::<Vec<u32>>());
        lay(&mut reals, &mut head, &points.iter().map(|p| p.0).collect::<Vec<f64>>());
        lay(&mut reals, &mut head, &points.iter().map(|p| p.1).collect::<Vec<f64>>());
        words[..28].copy_from_slice(&head);
        Pools { bytes, words, reals, dists }
    }

    /// The start and the scale of a trip.
    pub fn trip_shape_dist_affine(&self, trip: usize) -> Option<(f64, f64)> {
        let (mut a, mut b) = (7.0, 8.0);
        let answered = unsafe {
            zebumorn_trip_shape_dist_affine(
                self.bytes.as_ptr(),
                self.bytes.len(),
                self.words.as_ptr(),
                self.words.len(),
                self.reals.as_ptr(),
                self.reals.len(),
                self.dists.as_ptr(),
                self.dists.len(),
                trip,
                &mut a,
                &mut b,
            )
        };
        assert!(answered || (a, b) == (7.0, 8.0), "an output was written without an answer");
        answered.then_some((a, b))
    }
}
