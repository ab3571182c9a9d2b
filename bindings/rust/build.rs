//! Links `libzapelaritz_c.a`, from the folder ZAPELARITZ_LIB_DIR (a relative one starts at this package) or else from
//! the folder that `tools/build` writes.

use std::env;
use std::path::Path;

fn main() {
    println!("cargo::rerun-if-env-changed=ZAPELARITZ_LIB_DIR");
    let folder = env::var_os("ZAPELARITZ_LIB_DIR").unwrap_or("../../target/staticlib".into());
    let folder = Path::new(env!("CARGO_MANIFEST_DIR")).join(folder);
    let archive = folder.join("libzapelaritz_c.a");
    println!("cargo::rerun-if-changed={}", archive.display());
    if !archive.is_file() {
        println!(
            "cargo::error={} is missing; `tools/build zapelaritz_c` writes it",
            archive.display()
        );
        return;
    }
    println!("cargo::rustc-link-search=native={}", folder.display());
    println!("cargo::rustc-link-lib=static=zapelaritz_c");
}
