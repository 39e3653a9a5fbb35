//! Lawful sheets of every shape.

use super::boards;
use super::dropped;
use super::mixed::{Kind, mixed};
use super::plan::Plan;
use super::random::Random;
use super::shapes;
use super::sums;
use super::thinning;
use super::wide_shapes;

/// A lawful sheet, in parts. In about half of them rules leave out parameters or are one alone.
pub fn plan(random: &mut Random) -> Plan {
    match random.below(19) {
        0..=7 => exact(random),
        8..=10 => mixed(random, Kind::Wide),
        11..=12 => thinned(random),
        13..=15 => wide_shapes::shape(random),
        16..=17 => sums::shape(random),
        _ => boards::shape(random),
    }
}

/// A lawful sheet whose rules have each of their parameters once and none alone.
pub fn exact(random: &mut Random) -> Plan {
    match random.below(8) {
        0 => shapes::shape(random),
        _ => mixed(random, Kind::Exact),
    }
}

/// Such a sheet without some of its parameters; special shapes come often, for their large trees.
fn thinned(random: &mut Random) -> Plan {
    let mut plan = if random.one_in(2) { shapes::shape(random) } else { exact(random) };
    thinning::thin(random, &mut plan);
    dropped::estrange(random, &mut plan);
    plan
}
