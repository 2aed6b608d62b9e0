//! Finds the archives of the port and tells the program what they have, by the names that stand in
//! them: the seven functions, the script entry, the writer, the mask files, the probes.
use std::fs;
use std::path::Path;

/// Crate, a name in its archive, and the `cfg` that says so. The probes' archives stand before the
/// host's, whose functions they may share.
const FOUND: [(&str, &str, &str); 11] = [
    ("oracle_probe", "rk_probe_floor32", "probed"),
    ("oracle_probe", "rk_probe_write_record", "recorded"),
    ("oracle_replay", "rk_probe_listing", "listed"),
    ("oracle_replay", "rk_probe_fields", "left"),
    ("oracle_replay", "rk_probe_listing_from", "late_listed"),
    ("oracle_replay", "rk_probe_fields_from", "late_left"),
    ("oracle_rewrite", "rk_probe_rewritten", "rewritten"),
    ("host", "rk_log2", "linked"),
    ("host", "rk_script", "entry"),
    ("host", "rk_write_rate", "written"),
    ("host", "rk_masks", "filed"),
];

pub fn link(here: &Path) {
    for (krate, symbol, name) in FOUND {
        println!("cargo:rustc-check-cfg=cfg({name})");
        let folder = here.join("../crates").join(krate).join("out");
        let archive = folder.join(format!("lib{krate}.a"));
        println!("cargo:rerun-if-changed={}", archive.display());
        // A zero ends a name, so that one which only begins like it isn't taken for it.
        let ended = [symbol.as_bytes(), &[0]].concat();
        if fs::read(archive).is_ok_and(|b| b.windows(ended.len()).any(|w| w == ended)) {
            println!("cargo:rustc-cfg={name}");
            println!("cargo:rustc-link-search=native={}", folder.display());
            println!("cargo:rustc-link-lib=static={krate}");
        }
    }
}
