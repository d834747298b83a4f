//! Writes the module tree that holds the original's files, each compiled from where it lies.

use std::path::{Path, PathBuf};
use std::{env, fs};

/// The folder of the original, seen from the repository's root, where `OPEN_HYPERGRAPHS_SRC` names none.
const SRC: &str = "../shared/docs/src";

/// The original's files: the module each becomes and its place below `src`.
const LAX: [(&str, &str); 4] = [
    ("cycle", "lax/cycle.rs"),
    ("hypergraph", "lax/hypergraph.rs"),
    ("open_hypergraph", "lax/open_hypergraph.rs"),
    ("spider", "lax/spider.rs"),
];
const ARROW: (&str, &str) = ("arrow", "finite_function/arrow.rs");
const COMPONENTS: (&str, &str) = ("connected_components", "array/vec/connected_components.rs");

fn main() {
    println!("cargo:rerun-if-env-changed=OPEN_HYPERGRAPHS_SRC");
    let src = source_folder();
    let lax: String = LAX.iter().map(|file| module(&src, *file)).collect();
    let tree = format!(
        "pub mod lax {{\n{lax}pub use hypergraph::*;\npub use open_hypergraph::*;\n}}\n\
         pub mod finite_function {{\n{}pub use arrow::*;\n}}\n{}",
        module(&src, ARROW),
        module(&src, COMPONENTS),
    );
    let out = PathBuf::from(env::var_os("OUT_DIR").expect("cargo sets OUT_DIR"));
    fs::write(out.join("original.rs"), tree).expect("OUT_DIR can be written");
}

/// The folder to compile from; a relative one counts from the repository's root.
fn source_folder() -> PathBuf {
    let package = env::var_os("CARGO_MANIFEST_DIR").expect("cargo sets CARGO_MANIFEST_DIR");
    let root = Path::new(&package).join("../../..");
    let named = env::var_os("OPEN_HYPERGRAPHS_SRC").unwrap_or(SRC.into());
    let folder = root.join(named);
    folder.canonicalize().unwrap_or_else(|e| {
        panic!(
            "no folder {}: {e}; set OPEN_HYPERGRAPHS_SRC",
            folder.display()
        )
    })
}

/// The declaration of one file as a module, and cargo told to look at it.
fn module(src: &Path, (name, place): (&str, &str)) -> String {
    let file = src.join(place);
    println!("cargo:rerun-if-changed={}", file.display());
    format!("#[path = {file:?}]\npub mod {name};\n")
}
