//! bench: a line for each function, and for each variant, with the part of the table
//! that it stands in, its name, and the nanoseconds per call of the port and of the
//! Rust.

use harness::rows::benches;

fn main() {
    for (name, bench) in benches() {
        let times = (bench.run)();
        println!("{:?} {name} {} {}", bench.part, times.port, times.rust);
    }
}
