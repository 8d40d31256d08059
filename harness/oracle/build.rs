//! Copies the customer's Rust into the build folder and patches it there, by texts that must occur exactly as often as expected.
//! WILFNUSK_ORACLE_SRC names the folder that holds src/constraints/core.rs; else it is ../shared/docs/src beside the repository.
use std::{env, fs, path::PathBuf, process::exit};

/// Each that changes an answer can be switched off again while the program runs (src/patch.rs).
struct Patch {
    file: &'static str,
    from: &'static str,
    to: &'static str,
    times: usize,
}

const PATCHES: [Patch; 12] = [
    // Document 01, section 1: the harness patches f64::atan2.
    Patch { file: "src/constraints/solar_roll.rs", from: "f64::atan2(", to: "crate::patch::atan2(", times: 2 },
    // Document 02, request Three: `solar_optimal_roll_deg` folds its roll. This is its last expression after the patch above.
    Patch {
        file: "src/constraints/solar_roll.rs",
        from: "(crate::patch::atan2(sun_z, sun_y) - panel_angle).to_degrees()",
        to: "crate::patch::folded(move || (crate::patch::atan2(sun_z, sun_y) - panel_angle).to_degrees())",
        times: 1,
    },
    // Document 02, request One: the harness patches `sin_cos`, `sin` and `cos`. Each file gets the trait that has them.
    Patch { file: "src/constraints/solar_roll.rs", from: ".sin_cos()", to: ".patched_sin_cos()", times: 2 },
    Patch {
        file: "src/constraints/solar_roll.rs",
        from: "use ndarray::Array2;",
        to: "use crate::patch::Trig; use ndarray::Array2;",
        times: 1,
    },
    Patch { file: "src/utils/vector_math.rs", from: ".cos()", to: ".patched_cos()", times: 4 },
    Patch { file: "src/utils/vector_math.rs", from: ".sin()", to: ".patched_sin()", times: 4 },
    Patch { file: "src/utils/vector_math.rs", from: ".sin_cos()", to: ".patched_sin_cos()", times: 3 },
    Patch { file: "src/utils/vector_math.rs", from: "use ndarray::Array2;", to: "use crate::patch::Trig; use ndarray::Array2;", times: 1 },
    // Document 01, known differences: both hand over the vector. The first is made public, to be asked by itself.
    Patch {
        file: "src/constraints/solar_roll.rs",
        from: "fn radec_to_unit(ra_deg: f64, dec_deg: f64) -> [f64; 3] {",
        to: "pub fn radec_to_unit(ra_deg: f64, dec_deg: f64) -> [f64; 3] { if let Some(v) = crate::patch::vector(ra_deg) { return v; }",
        times: 1,
    },
    Patch {
        file: "src/utils/vector_math.rs",
        from: "pub fn radec_to_unit_vectors_batch(ras_deg: &[f64], decs_deg: &[f64]) -> Array2<f64> {",
        to: "pub fn radec_to_unit_vectors_batch(ras_deg: &[f64], decs_deg: &[f64]) -> Array2<f64> { \
             if let Some(v) = crate::patch::vectors(ras_deg) { return v; }",
        times: 1,
    },
    // Document 02, request Five: `sweep` is run with the rolls of a table in place of its own.
    Patch {
        file: "src/constraints/roll_sweep.rs",
        from: "step as f64 * (360.0 / n_roll_samples as f64)",
        to: "crate::patch::sample(step, || step as f64 * (360.0 / n_roll_samples as f64))",
        times: 1,
    },
    // docs/DIFFERENCES.md: a Python datetime holds microseconds.
    Patch {
        file: "src/utils/time_utils.rs",
        from: "pub fn utc_to_python_datetime(py: Python, dt: &DateTime<Utc>) -> PyResult<Py<PyAny>> {",
        to: "pub fn utc_to_python_datetime(py: Python, dt: &DateTime<Utc>) -> PyResult<Py<PyAny>> { \
             if let Some(v) = crate::patch::instant(dt) { return Ok(v); }",
        times: 1,
    },
];

fn stop(text: String) -> ! {
    eprintln!("{text}");
    exit(1)
}

struct Source(PathBuf);

impl Source {
    fn read(&self, file: &str) -> String {
        let path = self.0.join(file);
        println!("cargo:rerun-if-changed={}", path.display());
        fs::read_to_string(&path).unwrap_or_else(|e| stop(format!("{}: {e} (WILFNUSK_ORACLE_SRC names the folder)", path.display())))
    }
    fn patched(&self, file: &str) -> String {
        let mut text = self.read(file);
        for p in PATCHES.iter().filter(|p| p.file == file) {
            let found = text.matches(p.from).count();
            if found != p.times {
                stop(format!("{file}: {:?} occurs {found} times, not {}", p.from, p.times));
            }
            text = text.replace(p.from, p.to);
        }
        text
    }
}

/// The text from one mark up to another; the first occurs exactly once.
fn part<'a>(text: &'a str, from: &str, to: &str) -> &'a str {
    let found = text.matches(from).count();
    if found != 1 {
        stop(format!("{from:?} occurs {found} times, not 1"));
    }
    let start = text.find(from).unwrap();
    let end = text[start..].find(to).unwrap_or_else(|| stop(format!("{to:?} does not follow {from:?}")));
    &text[start..start + end]
}

fn main() {
    println!("cargo:rerun-if-changed=build.rs");
    println!("cargo:rerun-if-env-changed=WILFNUSK_ORACLE_SRC");
    let beside = || PathBuf::from(env::var("CARGO_MANIFEST_DIR").unwrap()).join("../../../shared/docs/src");
    let source = Source(env::var("WILFNUSK_ORACLE_SRC").map(PathBuf::from).unwrap_or_else(|_| beside()));
    let out = PathBuf::from(env::var("OUT_DIR").unwrap());
    let put = |name: &str, text: String| fs::write(out.join(name), text).unwrap();

    for (name, file) in [
        ("core.rs", "src/constraints/core.rs"),
        ("roll_sweep.rs", "src/constraints/roll_sweep.rs"),
        ("diagonal.rs", "src/constraints/diagonal.rs"),
        ("solar_roll.rs", "src/constraints/solar_roll.rs"),
        ("vector_math.rs", "src/utils/vector_math.rs"),
        ("time_utils.rs", "src/utils/time_utils.rs"),
    ] {
        put(name, source.patched(file));
    }

    // Of ephemeris_common.rs the parts that the other files lean on, verbatim: the rest needs files that are not here.
    let e = source.read("src/ephemeris/ephemeris_common.rs");
    let parts = [
        "use chrono::{DateTime, Utc};\nuse ndarray::{s, Array1, Array2};\nuse pyo3::{prelude::*, types::PyDateTime};\nuse std::sync::OnceLock;\n",
        part(&e, "/// Select rows from the borrowed position columns", "/// Helper function for getting begin time"),
        part(&e, "/// Common data structure for ephemeris objects", "    /// Calculate airmass for a target at given RA/Dec"),
        part(&e, "    // ========== Constraint helper methods", "    /// Get geocentric GCRS positions (N x 3, km) for any body"),
        part(&e, "    /// Get observer (spacecraft/satellite) positions in GCRS", "    // ========== End constraint helper methods"),
        "}\n",
    ];
    put("ephemeris_common.rs", parts.concat());

    // The modules as the originals name them, and empty stand-ins for those that are not here and are never called.
    let module = |name: &str| format!("#[path = {:?}] pub mod {name};", out.join(format!("{name}.rs")));
    let modules = format!(
        "pub mod constraints {{ #[macro_use] {} {} {} {} }}\n\
         pub mod ephemeris {{ {} }}\n\
         pub mod utils {{ {} {}\n\
           pub mod config {{ pub const JD_EPOCH: f64 = 0.0; pub const SECONDS_PER_DAY: f64 = 86400.0; }}\n\
           pub mod ut1_provider {{ pub fn get_ut1_utc_offset(_: &chrono::DateTime<chrono::Utc>) -> f64 {{ unimplemented!() }} }}\n\
           pub mod celestial {{\n\
             pub fn radec_to_altaz(_: f64, _: f64, _: &dyn crate::ephemeris::ephemeris_common::EphemerisBase, _: Option<&[usize]>)\n\
               -> pyo3::PyResult<ndarray::Array2<f64>> {{ unimplemented!() }}\n\
           }}\n\
         }}\n",
        module("core"),
        module("diagonal"),
        module("roll_sweep"),
        module("solar_roll"),
        module("ephemeris_common"),
        module("vector_math"),
        module("time_utils"),
    );
    put("modules.rs", modules);
}
