//! Features `linked` and `linked-bench`: where the static libraries of the repository are, each in its crate's folder.
use std::env;

fn main() {
    println!("cargo::rerun-if-changed=build.rs");
    println!("cargo::rerun-if-env-changed=VILTHORWY_STATICLIB");
    let repository = format!("{}/..", env!("CARGO_MANIFEST_DIR"));
    for (feature, library) in [("LINKED", "exports"), ("LINKED_BENCH", "bench")] {
        if env::var_os(format!("CARGO_FEATURE_{feature}")).is_some() {
            let folder = env::var("VILTHORWY_STATICLIB")
                .unwrap_or_else(|_| format!("{repository}/crates/{library}/out"));
            println!("cargo::rerun-if-changed={folder}/lib{library}.a");
            println!("cargo::rustc-link-search=native={folder}");
            println!("cargo::rustc-link-lib=static={library}");
        }
    }
}
