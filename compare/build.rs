//! Links the proved code: the static library `abecs`, which `rt lib` leaves in the
//! crate's own `out`.

fn main() {
    let place = concat!(env!("CARGO_MANIFEST_DIR"), "/../crates/abecs/out");
    println!("cargo:rustc-link-search=native={place}");
    println!("cargo:rustc-link-lib=static=abecs");
    println!("cargo:rerun-if-changed={place}/libabecs.a");
}
