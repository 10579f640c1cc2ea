//! Laid out once, asked with many clocks.
use crate::answer::Estimate;
use crate::raw::{self, Pools, Tables};
use crate::refusal::Refusal;

/// A sailing with all that is known of her but the clock.
#[derive(Clone, Debug)]
pub struct Voyage {
    pools: Pools,
    tables: Tables,
}

impl Voyage {
    pub(crate) fn new(pools: Pools, tables: Tables) -> Self {
        Voyage { pools, tables }
    }

    /// Where she is at a clock, in seconds from 1970, UTC: an estimate, `None` in silence, or the first refusal that
    /// applies. Only the clock's cell changes; no clock asked before makes a difference.
    pub fn at(&mut self, clock: i64) -> Result<Option<Estimate>, Refusal> {
        let now = self.tables.sailing.now;
        if now.n == 1 {
            self.pools.times[now.at as usize] = clock;
        }
        Estimate::read(&raw::estimate(&self.pools, self.tables))
    }
}
