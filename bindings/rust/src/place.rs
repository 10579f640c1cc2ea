//! Where an estimate is along the voyage.
use crate::raw;

/// Where an estimate is along the voyage. Calls count from 1, and leg k is the one that ends at call k.
#[derive(Clone, Copy, Debug, PartialEq)]
pub enum Place {
    /// At a call.
    Call(u32),
    /// At a leg's start.
    Start(u32),
    /// At a leg's end.
    End(u32),
    /// On a stretch of a leg's path.
    Stretch {
        /// The leg.
        leg: u32,
        /// The path that it takes.
        path: Path,
        /// Which way the path's vertices run.
        way: Way,
        /// The stretch's lower vertex, from 0; on a shape, counted over the whole shape.
        vertex: usize,
        /// How far along the stretch, from that vertex on.
        fraction: f64,
    },
    /// At the last vertex of a leg's path, where the target met no stretch.
    LastVertex {
        /// The leg.
        leg: u32,
        /// The path that it takes.
        path: Path,
        /// Which way the path's vertices run.
        way: Way,
    },
}

/// The path of a leg.
#[derive(Clone, Copy, Debug, PartialEq, Eq, Hash)]
pub enum Path {
    /// The trip's shape.
    Shape,
    /// The stops between.
    Chain,
    /// A straight line.
    Straight,
}

/// Which way a path's vertices run.
#[derive(Clone, Copy, Debug, PartialEq, Eq, Hash)]
pub enum Way {
    /// As she sails.
    With,
    /// Against her.
    Against,
}

impl Place {
    pub(crate) fn read(place: &raw::Place) -> Self {
        let number = place.number;
        match place.kind {
            1 => Place::Call(number),
            2 => Place::Start(number),
            3 => Place::End(number),
            4 => Place::Stretch {
                leg: number,
                path: Path::read(place.line),
                way: Way::read(place.way),
                vertex: place.vertex as usize,
                fraction: place.fraction,
            },
            5 => Place::LastVertex { leg: number, path: Path::read(place.line), way: Way::read(place.way) },
            kind => unreachable!("an estimate has no place of kind {kind}"),
        }
    }
}

impl Path {
    fn read(number: u32) -> Self {
        match number {
            1 => Path::Shape,
            2 => Path::Chain,
            3 => Path::Straight,
            _ => unreachable!("a leg has no path {number}"),
        }
    }
}

impl Way {
    fn read(number: u32) -> Self {
        match number {
            1 => Way::With,
            2 => Way::Against,
            _ => unreachable!("a path has no way {number}"),
        }
    }
}
