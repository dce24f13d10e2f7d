//! Prints the page of what differs between the two rules for one platform: in tests/,
//! `cargo run --release --bin two_rules >../docs/two-rules.md`.

fn main() {
    print!("{}", dairyepoch_tests::two_rules::page());
}
