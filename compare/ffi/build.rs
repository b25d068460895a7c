//! Links the proved slave's archive from the folder that XCP_ARCHIVE_DIR names.

fn main() {
    println!("cargo:rerun-if-env-changed=XCP_ARCHIVE_DIR");
    let dir = std::env::var("XCP_ARCHIVE_DIR").expect("XCP_ARCHIVE_DIR names no folder");
    // The linker runs elsewhere, so the folder is given by its full path.
    let dir = std::fs::canonicalize(dir).expect("XCP_ARCHIVE_DIR is not there");
    println!("cargo:rerun-if-changed={}/libslave.a", dir.display());
    println!("cargo:rustc-link-search=native={}", dir.display());
    println!("cargo:rustc-link-lib=static=slave");
}
