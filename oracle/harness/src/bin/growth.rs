//! growth: the nanoseconds a point, and a rotation, of the port's calls on grids and
//! lists of every size, as two tables.

use harness::growth;

fn main() {
    growth::tables(|line| println!("{line}"));
}
