//! Links libfeel_lexer.a: from the folder that FEEL_LEXER_LIB names, or from crates/feel_lexer/out of
//! the repository, where `rt lib` in crates/feel_lexer writes it.

use std::env;
use std::path::{Path, PathBuf};

fn main() {
    println!("cargo::rerun-if-env-changed=FEEL_LEXER_LIB");
    let folder = match env::var_os("FEEL_LEXER_LIB") {
        Some(folder) => PathBuf::from(folder),
        None => Path::new(env!("CARGO_MANIFEST_DIR")).join("../crates/feel_lexer/out"),
    };
    let archive = folder.join("libfeel_lexer.a");
    println!("cargo::rerun-if-changed={}", archive.display());
    if !archive.exists() {
        println!(
            "cargo::error=no {}: run `rt lib` in crates/feel_lexer, or name the archive's folder in FEEL_LEXER_LIB",
            archive.display()
        );
        return;
    }
    println!("cargo::rustc-link-search=native={}", folder.display());
    println!("cargo::rustc-link-lib=static=feel_lexer");
}
