//! The port's side of the line: the functions of target/staticlib/liboracle_line.a, on two columns.
#![allow(dead_code)]

mod names {
    pub type Index = unsafe extern "C" fn(*const f64, usize, *const f64, usize, usize, f64, f64) -> usize;

    extern "C" {
        pub fn zebumorn_length_to(lat: *const f64, n: usize, lon: *const f64, m: usize, k: usize) -> f64;
        pub fn zebumorn_forward_shape_index(
            lat: *const f64,
            n: usize,
            lon: *const f64,
            m: usize,
            from: usize,
            stop_lat: f64,
            stop_lon: f64,
        ) -> usize;
        pub fn zebumorn_forward_last_index(
            lat: *const f64,
            n: usize,
            lon: *const f64,
            m: usize,
            from: usize,
            stop_lat: f64,
            stop_lon: f64,
        ) -> usize;
        pub fn zebumorn_pass(
            lat: *const f64,
            n: usize,
            lon: *const f64,
            m: usize,
            at: usize,
            known: bool,
            stop_lat: f64,
            stop_lon: f64,
            vertex: *mut usize,
        ) -> usize;
        pub fn zebumorn_snap_unit_scale(ratio: f64) -> f64;
        pub fn zebumorn_shape_dist_affine(
            lat: *const f64,
            n: usize,
            lon: *const f64,
            m: usize,
            first_lat: f64,
            first_lon: f64,
            first_dist: f64,
            last_lat: f64,
            last_lon: f64,
            last_dist: f64,
            a: *mut f64,
            b: *mut f64,
        ) -> bool;
        pub fn zebumorn_nearest_idx(
            lat: *const f64,
            n: usize,
            lon: *const f64,
            m: usize,
            stop_lat: f64,
            stop_lon: f64,
        ) -> usize;
        pub fn zebumorn_interpolate_shape_by_dist(
            lat: *const f64,
            n: usize,
            lon: *const f64,
            m: usize,
            d0: f32,
            d1: f32,
            frac: f64,
            y: *mut f64,
            x: *mut f64,
            bearing: *mut f64,
        ) -> bool;
        pub fn zebumorn_interpolate_shape_by_feed_dist(
            lat: *const f64,
            n: usize,
            lon: *const f64,
            m: usize,
            d0: f32,
            d1: f32,
            frac: f64,
            a: f64,
            b: f64,
            y: *mut f64,
            x: *mut f64,
            bearing: *mut f64,
        ) -> bool;
        pub fn zebumorn_interpolate_along_vertices(
            lat: *const f64,
            n: usize,
            lon: *const f64,
            m: usize,
            frac: f64,
            y: *mut f64,
            x: *mut f64,
            bearing: *mut f64,
        ) -> bool;
        pub fn zebumorn_interpolate_polyline(
            lat: *const f64,
            n: usize,
            lon: *const f64,
            m: usize,
            y0: f64,
            x0: f64,
            y1: f64,
            x1: f64,
            frac: f64,
            y: *mut f64,
            x: *mut f64,
            bearing: *mut f64,
        ) -> bool;
    }
}

pub fn snap_unit_scale(ratio: f64) -> f64 {
    unsafe { names::zebumorn_snap_unit_scale(ratio) }
}

type Point = (f64, f64);

/// Latitude, longitude and bearing.
pub type Drawn = Option<(f64, f64, f64)>;

/// What a call answers that writes its position to three places; it leaves them alone where there is none.
fn drawn(call: impl FnOnce(*mut f64, *mut f64, *mut f64) -> bool) -> Drawn {
    let (mut y, mut x, mut bearing) = (7.0, 8.0, 9.0);
    let given = call(&mut y, &mut x, &mut bearing);
    assert!(given || (y, x, bearing) == (7.0, 8.0, 9.0));
    given.then_some((y, x, bearing))
}

/// A line as the port is lent it.
pub struct Columns {
    lat: Vec<f64>,
    lon: Vec<f64>,
}

impl Columns {
    pub fn of(line: &[(f64, f64)]) -> Columns {
        let (lat, lon) = line.iter().copied().unzip();
        Columns { lat, lon }
    }

    fn index(&self, f: names::Index, from: usize, stop: (f64, f64)) -> usize {
        unsafe { f(self.lat.as_ptr(), self.lat.len(), self.lon.as_ptr(), self.lon.len(), from, stop.0, stop.1) }
    }

    pub fn forward_shape_index(&self, from: usize, stop: (f64, f64)) -> usize {
        self.index(names::zebumorn_forward_shape_index, from, stop)
    }

    pub fn forward_last_index(&self, from: usize, stop: (f64, f64)) -> usize {
        self.index(names::zebumorn_forward_last_index, from, stop)
    }

    pub fn length_to(&self, k: usize) -> f64 {
        unsafe { names::zebumorn_length_to(self.lat.as_ptr(), self.lat.len(), self.lon.as_ptr(), self.lon.len(), k) }
    }

    pub fn nearest_idx(&self, stop: Point) -> usize {
        let (lat, n, lon, m) = self.parts();
        unsafe { names::zebumorn_nearest_idx(lat, n, lon, m, stop.0, stop.1) }
    }

    pub fn interpolate_shape_by_dist(&self, d0: f32, d1: f32, frac: f64) -> Drawn {
        let (lat, n, lon, m) = self.parts();
        drawn(|y, x, b| unsafe { names::zebumorn_interpolate_shape_by_dist(lat, n, lon, m, d0, d1, frac, y, x, b) })
    }

    pub fn interpolate_shape_by_feed_dist(&self, d0: f32, d1: f32, frac: f64, affine: (f64, f64)) -> Drawn {
        let ((lat, n, lon, m), (a, c)) = (self.parts(), affine);
        drawn(|y, x, b| unsafe {
            names::zebumorn_interpolate_shape_by_feed_dist(lat, n, lon, m, d0, d1, frac, a, c, y, x, b)
        })
    }

    pub fn interpolate_along_vertices(&self, frac: f64) -> Drawn {
        let (lat, n, lon, m) = self.parts();
        drawn(|y, x, b| unsafe { names::zebumorn_interpolate_along_vertices(lat, n, lon, m, frac, y, x, b) })
    }

    pub fn interpolate_polyline(&self, prev: Point, next: Point, frac: f64) -> Drawn {
        let (lat, n, lon, m) = self.parts();
        let ((y0, x0), (y1, x1)) = (prev, next);
        drawn(|y, x, b| unsafe { names::zebumorn_interpolate_polyline(lat, n, lon, m, y0, x0, y1, x1, frac, y, x, b) })
    }

    fn parts(&self) -> (*const f64, usize, *const f64, usize) {
        (self.lat.as_ptr(), self.lat.len(), self.lon.as_ptr(), self.lon.len())
    }

    /// The trip's vertices, with the cursor handed on.
    pub fn project(&self, stops: &[Option<(f64, f64)>]) -> Vec<Option<usize>> {
        let mut at = 0;
        stops
            .iter()
            .map(|stop| {
                let (lat, lon) = stop.unwrap_or((7.0, 7.0));
                let mut vertex = usize::MAX;
                let (lats, lons) = (&self.lat, &self.lon);
                at = unsafe {
                    names::zebumorn_pass(
                        lats.as_ptr(),
                        lats.len(),
                        lons.as_ptr(),
                        lons.len(),
                        at,
                        stop.is_some(),
                        lat,
                        lon,
                        &mut vertex,
                    )
                };
                (vertex != usize::MAX).then_some(vertex)
            })
            .collect()
    }

    /// The start and the scale, from the first sample and the last: a distance and a position each.
    pub fn shape_dist_affine(&self, first: (f64, (f64, f64)), last: (f64, (f64, f64))) -> Option<(f64, f64)> {
        let (mut a, mut b) = (7.0, 8.0);
        let (lats, lons) = (&self.lat, &self.lon);
        let answered = unsafe {
            names::zebumorn_shape_dist_affine(
                lats.as_ptr(),
                lats.len(),
                lons.as_ptr(),
                lons.len(),
                first.1 .0,
                first.1 .1,
                first.0,
                last.1 .0,
                last.1 .1,
                last.0,
                &mut a,
                &mut b,
            )
        };
        assert!(answered || (a, b) == (7.0, 8.0), "an output was written without an answer");
        answered.then_some((a, b))
    }
}
