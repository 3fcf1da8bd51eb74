//! The Rust that the port was made from, run on cases. README.md says what each command is for.
//! Other crates of this repository compare the port with it.

#[cfg(rust_is_here)]
pub mod answers;
#[cfg(rust_is_here)]
pub mod case;
#[cfg(rust_is_here)]
pub mod commands;
#[cfg(rust_is_here)]
pub mod definitions;
#[cfg(rust_is_here)]
pub mod program;
#[cfg(rust_is_here)]
pub mod random;
#[cfg(rust_is_here)]
pub mod record;
#[cfg(rust_is_here)]
pub mod replay;
#[cfg(rust_is_here)]
pub mod rules;
#[cfg(rust_is_here)]
pub mod stand_in;

/// The Rust, as build.rs leaves it.
#[cfg(rust_is_here)]
pub mod rust {
    #![allow(dead_code, unused_imports, clippy::all)]
    include!(concat!(env!("OUT_DIR"), "/rust.rs"));
}

/// Without the Rust nothing can be compared, and the status says so.
pub fn not_compared() -> std::process::ExitCode {
    println!("not compared here: no Rust at {}", env!("FEEL_RUST"));
    std::process::ExitCode::from(77)
}
