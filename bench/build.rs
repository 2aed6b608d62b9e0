//! Links the proved functions, whose archives `bench/run` makes. Where the original Rust is at hand, its
//! `particles.rs` is made a module, with no change but to its first lines and the test modules at its end.
use std::path::Path;
use std::{env, fs};

const PARTICLES: &str = "plugins/weft/crates/spectral-dsp/src/particles.rs";

fn main() {
    let here = env::var("CARGO_MANIFEST_DIR").unwrap();
    for name in ["host", "oracle_probe"] {
        let folder = format!("{here}/../crates/{name}/out");
        println!("cargo:rerun-if-changed={folder}/lib{name}.a");
        println!("cargo:rustc-link-search=native={folder}");
        println!("cargo:rustc-link-lib=static={name}");
    }
    original();
}

fn original() {
    println!("cargo:rerun-if-env-changed=RAKNADUV_RUST");
    println!("cargo:rustc-check-cfg=cfg(original)");
    let Ok(rust) = env::var("RAKNADUV_RUST") else {
        return;
    };
    let path = Path::new(&rust).join(PARTICLES);
    println!("cargo:rerun-if-changed={}", path.display());
    if let Ok(text) = fs::read_to_string(path) {
        let text = text
            .replace("//! ", "// ")
            .replace("use oiko_dsp::", "use crate::oiko_dsp::")
            .replace("#[cfg(test)]\nmod tests;\n", "")
            .replace("#[cfg(test)]\nmod measurements;\n", "");
        let out = Path::new(&env::var("OUT_DIR").unwrap()).join("particles.rs");
        fs::write(out, text).unwrap();
        println!("cargo:rustc-cfg=original");
    }
}
