//! The oracle's commands.

#[cfg(rust_is_here)]
fn main() -> std::process::ExitCode {
    oracle::commands::main()
}

#[cfg(not(rust_is_here))]
fn main() -> std::process::ExitCode {
    oracle::not_compared()
}
