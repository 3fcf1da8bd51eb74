//! Times of the port and of the Rust it was made from. docs/BENCHMARKS.md says what each line is.

#[cfg(rust_is_here)]
mod costs;
#[cfg(rust_is_here)]
mod lines;
#[cfg(rust_is_here)]
mod measure;
/// The exported functions over lent slices, as the differential run calls them.
#[cfg(rust_is_here)]
#[allow(dead_code)]
#[path = "../../differential/src/port.rs"]
mod port;

#[cfg(rust_is_here)]
fn main() -> std::process::ExitCode {
    measure::main()
}

#[cfg(not(rust_is_here))]
fn main() -> std::process::ExitCode {
    oracle::not_compared()
}
