//! Links the executor's archive: the folder that CALVIN_LIB names has `libcalvin.a`, as `scripts/install.sh PREFIX` puts it into
//! PREFIX/lib. Where CALVIN_LIB isn't set, the linker is left to find it, or is given it by RUSTFLAGS.

use std::env;

fn main() {
    println!("cargo:rerun-if-env-changed=CALVIN_LIB");
    if let Ok(folder) = env::var("CALVIN_LIB") {
        println!("cargo:rustc-link-search=native={folder}");
        println!("cargo:rustc-link-lib=static=calvin");
    }
}
