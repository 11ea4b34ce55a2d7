// build.rs: links the static library that bin/library leaves. In `stack` every call of an entry goes through a jump of its own, which
// notes the stack pointer.

macro_rules! entries {
    ($($entry:literal),*) => { const ENTRIES: &[&str] = &[$($entry),*]; };
}

include!("entries.rs");

fn main() {
    let root = std::path::Path::new(env!("CARGO_MANIFEST_DIR")).join("../../target/staticlib");
    println!("cargo:rustc-link-search=native={}", root.display());
    println!("cargo:rustc-link-lib=static=firmware");
    println!("cargo:rerun-if-changed={}", root.join("libfirmware.a").display());
    for entry in ENTRIES {
        println!("cargo:rustc-link-arg-bin=stack=-Wl,--wrap={entry}");
    }
}
