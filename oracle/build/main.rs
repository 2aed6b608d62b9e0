//! Writes two modules out of the original Rust: `original`, whose elementary functions are the
//! linked ones, and `plain`, with nothing substituted. Both end with `appended/`, which makes the
//! private state and the private functions visible.
mod archive;
mod edit;
mod mutant;

use edit::{apply, cut, edit, stop};
use mutant::Mutant;
use std::path::{Path, PathBuf};
use std::{env, fs};

const PARTICLES: &str = "plugins/weft/crates/spectral-dsp/src/particles.rs";
const SPECTRAL: &str = "plugins/weft/crates/spectral-dsp/src/lib.rs";
const OIKO: &str = "crates/oiko-dsp/src/lib.rs";

/// The oracle's own reading of 01 and 02 as far as a mutant may change it.
const READING: [&str; 5] = [
    "field.rs",
    "runner.rs",
    "milliseconds.rs",
    "tenths.rs",
    "records.rs",
];

const APPENDED: [&str; 4] = ["workspace.rs", "engine.rs", "snapshot.rs", "open.rs"];

/// What goes to our functions: the old text, the new one, and how often it stands in
/// `particles.rs`, in the bin table and in `db_to_gain`.
const OURS: [(&str, &str, [usize; 3]); 9] = [
    (".log2()", ".our_log2()", [14, 1, 0]),
    (".exp2()", ".our_exp2()", [3, 0, 0]),
    (".exp()", ".our_exp()", [2, 0, 0]),
    (".sqrt()", ".our_sqrt()", [3, 0, 0]),
    (
        "FREE_ROOT_RATIO.powf(",
        "crate::ours::pow8(/* 01: 8 to a power */ ",
        [1, 0, 0],
    ),
    ("10.0_f32.powf(", "crate::ours::pow10(", [0, 0, 1]),
    (".powi(", ".our_powi(", [2, 0, 0]),
    (".max(", ".our_max(", [22, 0, 0]),
    (".min(", ".our_min(", [9, 0, 0]),
];

fn main() {
    let here = PathBuf::from(env::var("CARGO_MANIFEST_DIR").unwrap());
    let out = PathBuf::from(env::var("OUT_DIR").unwrap());
    println!("cargo:rerun-if-env-changed=RAKNADUV_RUST");
    let rust = env::var("RAKNADUV_RUST").map_or(here.join("../../shared/docs/src"), PathBuf::from);
    let mutant = mutant::named(&read(&here.join("mutants.list")));
    let tail: String = APPENDED
        .iter()
        .map(|file| read(&here.join("appended").join(file)))
        .collect();
    for file in READING {
        let text = reading_text(&here, file, mutant.as_ref());
        fs::write(out.join(file), text).unwrap();
    }
    for (module, ours, mutant) in [("original", true, mutant), ("plain", false, None)] {
        let text = module_text(&rust, ours, mutant.as_ref()) + &tail;
        fs::write(out.join(module).with_extension("rs"), text).unwrap();
    }
    archive::link(&here);
}

fn reading_text(here: &Path, file: &str, mutant: Option<&Mutant>) -> String {
    let mut text = read(&here.join("src").join(file));
    if let Some(m) = mutant {
        m.apply(file, &mut text);
    }
    // A text that is included has no heading of its own.
    text.replace("//! ", "// ")
}

fn module_text(rust: &Path, ours: bool, mutant: Option<&Mutant>) -> String {
    let original = |file: &str| {
        let mut text = read(&rust.join(file));
        if let Some(m) = mutant {
            m.apply(file, &mut text);
        }
        text
    };
    let mut particles = original(PARTICLES);
    apply(
        PARTICLES,
        &mut particles,
        &[
            edit("//! ", "// ", 2),
            edit(
                "use crate::MaskWorkspace;\nuse oiko_dsp::db_to_gain;\n",
                "",
                1,
            ),
            edit(
                "#[cfg(test)]\nmod tests;\n\n#[cfg(test)]\nmod measurements;\n",
                "",
                1,
            ),
            edit(
                "const FREE_ROOT_RATIO: f32 = 8.0;",
                "const FREE_ROOT_RATIO: f32 = 8.0;",
                1,
            ),
        ],
    );
    let prepare = cut(
        SPECTRAL,
        &original(SPECTRAL),
        "    pub fn prepare(&mut self, sample_rate: f32, fft_size: usize) {\n",
        "\n    }\n",
    );
    let db_to_gain = cut(
        OIKO,
        &original(OIKO),
        "pub fn db_to_gain(db: f32) -> f32 {\n",
        "\n}\n",
    );
    let heading = cut(
        PARTICLES,
        &particles,
        "/// Separate keyed SplitMix64 streams:",
        "15.",
    );
    let mut parts = [particles, prepare, db_to_gain];
    if ours {
        for (old, new, counts) in OURS {
            for (i, file) in [PARTICLES, SPECTRAL, OIKO].iter().enumerate() {
                let (more, less) = mutant.map_or((0, 0), |m| m.change(file, old));
                let expected = counts[i] + more - less;
                apply(file, &mut parts[i], &[edit(old, new, expected)]);
            }
        }
    }
    let [particles, prepare, db_to_gain] = parts;
    let decibels = decibels_text(&particles);
    format!(
        "{particles}\n{db_to_gain}\nimpl MaskWorkspace {{\n{prepare}}}\n\
         impl Mask {{\n{decibels}}}\n\
         const HEADING: &str = {heading:?};\n"
    )
}

/// The original's `gains` that hands out what goes to `db_to_gain`, and 0 decibels where it fills with
/// ones.
fn decibels_text(particles: &str) -> String {
    let mut text = cut(PARTICLES, particles, "    pub fn gains(\n", "\n    }\n");
    apply(
        PARTICLES,
        &mut text,
        &[
            edit("pub fn gains(", "pub fn decibels(", 1),
            edit("output.fill(1.0);", "output.fill(0.0);", 1),
            edit("db_to_gain(", "std::convert::identity(", 1),
        ],
    );
    text
}

fn read(path: &Path) -> String {
    println!("cargo:rerun-if-changed={}", path.display());
    match fs::read_to_string(path) {
        Ok(text) => text,
        Err(e) => stop(&format!("{}: {e}", path.display())),
    }
}
