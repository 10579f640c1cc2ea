//! Columns put into pools.
use crate::raw::{Ids, Points, Pools, Span};
use crate::rows::Position;
use std::collections::HashMap;

/// Pools that are being filled. An id's bytes stand there once, however many rows have it.
#[derive(Default)]
pub(crate) struct Filling<'a> {
    pools: Pools,
    texts: HashMap<&'a str, (u32, u32)>,
}

/// As a number of a table. One past 2^32 is cut to the last: so many cells have a count, or an id, over its bound, which
/// is refused.
pub(crate) fn number(n: usize) -> u32 {
    u32::try_from(n).unwrap_or(u32::MAX)
}

/// A column at the end of a pool.
fn put<T>(pool: &mut Vec<T>, cells: impl IntoIterator<Item = T>) -> Span {
    let at = pool.len();
    pool.extend(cells);
    Span { at: number(at), n: number(pool.len() - at) }
}

impl<'a> Filling<'a> {
    pub(crate) fn done(self) -> Pools {
        self.pools
    }

    pub(crate) fn words(&mut self, cells: impl IntoIterator<Item = u32>) -> Span {
        put(&mut self.pools.words, cells)
    }

    pub(crate) fn bytes(&mut self, cells: impl IntoIterator<Item = u8>) -> Span {
        put(&mut self.pools.bytes, cells)
    }

    pub(crate) fn times(&mut self, cells: impl IntoIterator<Item = i64>) -> Span {
        put(&mut self.pools.times, cells)
    }

    pub(crate) fn flags(&mut self, cells: impl IntoIterator<Item = bool>) -> Span {
        self.bytes(cells.into_iter().map(u8::from))
    }

    /// Moments or delays, and flags that say which are there.
    pub(crate) fn known_times<I>(&mut self, cells: I) -> (Span, Span)
    where
        I: Iterator<Item = Option<i64>> + Clone,
    {
        let known = self.flags(cells.clone().map(|cell| cell.is_some()));
        (self.times(cells.map(Option::unwrap_or_default)), known)
    }

    /// Distances, and flags that say which are there.
    pub(crate) fn known_dists<I>(&mut self, cells: I) -> (Span, Span)
    where
        I: Iterator<Item = Option<f32>> + Clone,
    {
        let known = self.flags(cells.clone().map(|cell| cell.is_some()));
        (put(&mut self.pools.dists, cells.map(Option::unwrap_or_default)), known)
    }

    pub(crate) fn positions<I>(&mut self, cells: I) -> Points
    where
        I: Iterator<Item = Position> + Clone,
    {
        let lat = put(&mut self.pools.reals, cells.clone().map(|at| at.lat));
        Points { lat, lon: put(&mut self.pools.reals, cells.map(|at| at.lon)) }
    }

    pub(crate) fn ids(&mut self, texts: impl IntoIterator<Item = &'a str>) -> Ids {
        let places: Vec<_> = texts.into_iter().map(|text| self.text(text)).collect();
        let starts = self.words(places.iter().map(|place| place.0));
        Ids { starts, lens: self.words(places.iter().map(|place| place.1)) }
    }

    /// Where a text begins, and how long it is.
    fn text(&mut self, text: &'a str) -> (u32, u32) {
        let bytes = &mut self.pools.bytes;
        *self.texts.entry(text).or_insert_with(|| {
            let span = put(bytes, text.bytes());
            (span.at, span.n)
        })
    }
}
