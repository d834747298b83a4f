//! Links `libohg.a`, and `libprice.a` where the feature `price` asks for it: those in the folder that `OHG_LIB_DIR` names,
//! counted from the repository's root; else the delivered ones on x86-64, and elsewhere the same modules compiled for this
//! machine, which `tools/native-archive` makes.

use std::env;
use std::path::Path;

fn main() {
    println!("cargo:rerun-if-env-changed=OHG_LIB_DIR");
    let package = env::var_os("CARGO_MANIFEST_DIR").expect("cargo sets CARGO_MANIFEST_DIR");
    let (folder, command) = match env::var("CARGO_CFG_TARGET_ARCH").as_deref() {
        Ok("x86_64") => ("target/staticlib", "tools/archive"),
        _ => ("target/native", "tools/native-archive"),
    };
    let folder = env::var_os("OHG_LIB_DIR").unwrap_or(folder.into());
    let folder = Path::new(&package).join("../..").join(folder);
    println!("cargo:rustc-link-search=native={}", folder.display());
    let prices = env::var_os("CARGO_FEATURE_PRICE").is_some();
    let names = ["ohg", "price"].into_iter().take(1 + usize::from(prices));
    for name in names {
        let archive = folder.join(format!("lib{name}.a"));
        if !archive.is_file() {
            panic!(
                "no {}: run `{command} {name}` in the repository's root first, or name its folder by OHG_LIB_DIR",
                archive.display()
            );
        }
        println!("cargo:rerun-if-changed={}", archive.display());
        println!("cargo:rustc-link-lib=static={name}");
    }
}
