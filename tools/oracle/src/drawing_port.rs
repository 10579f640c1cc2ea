//! The port's side of drawing: the functions of target/staticlib/libexports_drawing.a, on worlds laid out in pools.
#![allow(dead_code)]
use crate::drawn::lay::{Laid, Span, JOURNEY, TABLES};

#[repr(C)]
struct Tables([Span; TABLES]);
#[repr(C)]
struct IdColumn([Span; 2]);
#[repr(C)]
struct JourneyLegs([Span; JOURNEY]);

extern "C" {
    fn zebumorn_leg_geometry(
        bytes: *const u8,
        byte_count: usize,
        words: *const u32,
        word_count: usize,
        times: *const i64,
        time_count: usize,
        reals: *const f64,
        real_count: usize,
        dists: *const f32,
        dist_count: usize,
        t: Tables,
        trip: IdColumn,
        from: u32,
        to: u32,
        lat: *mut f64,
        lat_count: usize,
        lon: *mut f64,
        lon_count: usize,
        points: &mut usize,
    ) -> u32;
    fn zebumorn_journey_geometry(
        bytes: *const u8,
        byte_count: usize,
        words: *const u32,
        word_count: usize,
        times: *const i64,
        time_count: usize,
        reals: *const f64,
        real_count: usize,
        dists: *const f32,
        dist_count: usize,
        j: JourneyLegs,
        lat: *mut f64,
        lat_count: usize,
        lon: *mut f64,
        lon_count: usize,
        points: &mut usize,
    ) -> u32;
}

/// What stands in every row of the output before the port is asked.
pub const MARK: u64 = 0x0123_4567_89ab_cdef;

/// The port's answer: a refusal's number or 0, how many points, and both columns afterwards, with a row of marks on either side of each.
pub struct Answer {
    pub number: u32,
    pub points: usize,
    lat: Vec<f64>,
    lon: Vec<f64>,
}

impl Answer {
    fn new(lats: usize, lons: usize) -> Answer {
        let mark = f64::from_bits(MARK);
        Answer { number: 0, points: usize::MAX, lat: vec![mark; lats + 2], lon: vec![mark; lons + 2] }
    }

    fn columns(&self) -> (&[f64], &[f64]) {
        (&self.lat[1..self.lat.len() - 1], &self.lon[1..self.lon.len() - 1])
    }

    /// Whether no byte was changed but these points, from the first row on.
    fn wrote(&self, points: &[[f64; 2]]) -> bool {
        let as_is = |column: &[f64], k: usize| {
            let (first, rest) = (column[0], &column[1 + points.len()..]);
            let rows = &column[1..1 + points.len()];
            first.to_bits() == MARK
                && rest.iter().all(|x| x.to_bits() == MARK)
                && rows.iter().zip(points).all(|(x, p)| x.to_bits() == p[k].to_bits())
        };
        as_is(&self.lat, 0) && as_is(&self.lon, 1)
    }

    /// Whether it is what the Rust's points come to, in columns of so many rows.
    pub fn is(&self, points: &[[f64; 2]]) -> bool {
        let (lat, lon) = self.columns();
        if lat.len() != lon.len() {
            return self.is_refusal(1);
        }
        if lat.len() < points.len() {
            return self.is_refusal(9);
        }
        self.number == 0 && self.points == points.len() && self.wrote(points)
    }

    pub fn is_refusal(&self, number: u32) -> bool {
        self.number == number && self.points == usize::MAX && self.wrote(&[])
    }

    pub fn told(&self) -> String {
        format!("returned {}, {} points, {:?}", self.number, self.points, self.columns())
    }
}

impl Laid {
    /// Draws the leg asked of last, into columns of so many rows.
    pub fn leg_geometry(&self, from: u32, to: u32, lats: usize, lons: usize) -> Answer {
        let mut answer = Answer::new(lats, lons);
        answer.number = unsafe {
            zebumorn_leg_geometry(
                self.bytes.as_ptr(),
                self.bytes.len(),
                self.words.as_ptr(),
                self.words.len(),
                [0].as_ptr(),
                1,
                self.reals.as_ptr(),
                self.reals.len(),
                self.dists.as_ptr(),
                self.dists.len(),
                Tables(self.part(0)),
                IdColumn(self.part(TABLES)),
                from,
                to,
                answer.lat.as_mut_ptr().add(1),
                lats,
                answer.lon.as_mut_ptr().add(1),
                lons,
                &mut answer.points,
            )
        };
        answer
    }

    pub fn journey_geometry(&self, lats: usize, lons: usize) -> Answer {
        let mut answer = Answer::new(lats, lons);
        answer.number = unsafe {
            zebumorn_journey_geometry(
                self.bytes.as_ptr(),
                self.bytes.len(),
                self.words.as_ptr(),
                self.words.len(),
                [0].as_ptr(),
                1,
                self.reals.as_ptr(),
                self.reals.len(),
                self.dists.as_ptr(),
                self.dists.len(),
                JourneyLegs(self.part(0)),
                answer.lat.as_mut_ptr().add(1),
                lats,
                answer.lon.as_mut_ptr().add(1),
                lons,
                &mut answer.points,
            )
        };
        answer
    }
}
