//! Hands on whether the Rust is here, which the oracle's build knows.

fn main() {
    println!("cargo::rustc-check-cfg=cfg(rust_is_here)");
    if std::env::var_os("DEP_FEEL_RUST_HERE").is_some() {
        println!("cargo::rustc-cfg=rust_is_here");
    }
}
