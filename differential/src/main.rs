//! The exported functions held against the Rust that the port was made from. README.md says what each command is for.

#[cfg(rust_is_here)]
mod bytes;
#[cfg(rust_is_here)]
mod commands;
#[cfg(rust_is_here)]
mod edits;
#[cfg(rust_is_here)]
mod functions;
#[cfg(rust_is_here)]
mod port;
#[cfg(rust_is_here)]
mod runs;
#[cfg(rust_is_here)]
mod scopes;
#[cfg(rust_is_here)]
mod sources;

#[cfg(rust_is_here)]
fn main() -> std::process::ExitCode {
    commands::main()
}

#[cfg(not(rust_is_here))]
fn main() -> std::process::ExitCode {
    oracle::not_compared()
}
