// Links libhost.a, which `host/library` writes. KICKBALLBOX_LIB names its folder; without it, target/staticlib of the repository.
use std::{env, path::PathBuf};

fn main() {
    println!("cargo:rerun-if-env-changed=KICKBALLBOX_LIB");
    let folder = env::var_os("KICKBALLBOX_LIB")
        .map(PathBuf::from)
        .unwrap_or_else(|| PathBuf::from(env::var_os("CARGO_MANIFEST_DIR").unwrap()).join("../target/staticlib"));
    println!("cargo:rerun-if-changed={}", folder.join("libhost.a").display());
    println!("cargo:rustc-link-search=native={}", folder.display());
    println!("cargo:rustc-link-lib=static=host");
}
