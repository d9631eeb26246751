//! Lays out the crate in the build folder: the supplied files, byte for byte, from the source folder; and beside them our own
//! stand-ins for the modules that were not supplied (missing/). The source folder is $VARISAT_SRC, or else ../shared/docs/src beside
//! the repository. Nothing is copied into the repository.
use std::{
    env, fs,
    path::{Path, PathBuf},
};

const SUPPLIED: [&str; 21] = [
    "assumptions.rs",
    "binary.rs",
    "clause/alloc.rs",
    "clause/db.rs",
    "clause/header.rs",
    "context.rs",
    "decision.rs",
    "decision/vsids.rs",
    "model.rs",
    "proof.rs",
    "proof/drat.rs",
    "proof/map_step.rs",
    "prop/assignment.rs",
    "prop/graph.rs",
    "solver.rs",
    "state.rs",
    "tmp.rs",
    "unit_simplify.rs",
    "variables.rs",
    "variables/data.rs",
    "variables/var_map.rs",
];

const MISSING: [&str; 6] = ["analyze_conflict.rs", "clause.rs", "config.rs", "load.rs", "prop.rs", "schedule.rs"];

fn lay(from: &Path, to: &Path) {
    println!("cargo:rerun-if-changed={}", from.display());
    let bytes = fs::read(from)
        .unwrap_or_else(|e| panic!("{}: {} (set VARISAT_SRC to the folder that holds varisat's src/)", from.display(), e));
    fs::create_dir_all(to.parent().unwrap()).unwrap();
    fs::write(to, bytes).unwrap();
}

fn main() {
    println!("cargo:rerun-if-env-changed=VARISAT_SRC");
    let here = PathBuf::from(env::var("CARGO_MANIFEST_DIR").unwrap());
    let out = PathBuf::from(env::var("OUT_DIR").unwrap());
    let source = match env::var("VARISAT_SRC") {
        Ok(folder) => PathBuf::from(folder),
        Err(_) => here.join("../../../shared/docs/src"),
    };
    for file in &SUPPLIED {
        lay(&source.join("src").join(file), &out.join(file));
    }
    for file in &MISSING {
        lay(&here.join("missing").join(file), &out.join(file));
    }
    // `lib.rs` includes this file, so that the modules stand at the crate's root and are found beside it.
    let roots = SUPPLIED.iter().chain(&MISSING).filter(|file| !file.contains('/'));
    let root: String = roots.map(|file| format!("mod {};\n", file.trim_end_matches(".rs"))).collect();
    // The writer once more, by itself: in `proof` it is private, and it is measured apart from `add_step`.
    let writer = "#[path = \"proof/drat.rs\"]\npub mod drat;\n";
    // So the renaming, in a module that has what it takes from the one above it.
    let renamer = "use varisat_internal_proof::{ClauseHash, ProofStep};\n#[path = \"proof/map_step.rs\"]\npub mod map_step;\n";
    fs::write(out.join("renaming.rs"), renamer).unwrap();
    fs::write(out.join("root.rs"), root + writer + "pub mod renaming;\n").unwrap();
}
