//! Prints examples/COUNTS.md.

fn main() {
    print!("{}", flat_tests::examples::table());
}
