//! Links the program with the library's code, whose path is in SILTBROW_CODE.
//! The tests stand without it: they put other programs in the library's place.

fn main() {
    println!("cargo:rerun-if-env-changed=SILTBROW_CODE");
    if let Ok(code) = std::env::var("SILTBROW_CODE") {
        println!("cargo:rerun-if-changed={code}");
        println!("cargo:rustc-link-arg-bins={code}");
    }
}
