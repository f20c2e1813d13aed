//! The archive itself, as C and Rust on x86-64 link it, in a child process: a part of the comparison.
//! All other tests call the library through the crate `kettleplume`.

use differential::compare::Difference;
use differential::host::Host;
use differential::run::Comparison;
use differential::{lex, read, ReadSizes, Sizes};
use oracle::on_large_stack;

fn compare(all: fn(&mut Comparison) -> Result<(), Difference>) {
    let outcome = on_large_stack(|| all(&mut Comparison::with(Host::archive(), |_| ())));
    if let Err(difference) = outcome {
        panic!("the archive and the original differ\n{difference}");
    }
}

#[test]
fn lexings() {
    compare(|comparison| lex(comparison, &Sizes::of(5_000), 2));
}

#[test]
fn whole_readings() {
    const SIZES: ReadSizes = ReadSizes {
        tokens: 1,
        scripts: 1_000,
        rooms: 20,
        long: 1,
        step: 29,
    };
    compare(|comparison| read(comparison, &SIZES, 2));
}
