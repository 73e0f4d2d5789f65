//! Finds the given Rust text beside the repository and names its files to the compiler: for the build scripts of this crate,
//! which takes them unchanged and where they stand, and of rust/integration, which patches a copy.

use std::path::{Path, PathBuf};
use std::{env, fs};

/// The text's files, by module. What else the crate holds is a stand-in.
pub const MODULES: [(&str, &[&str]); 8] = [
    ("bind", &["segment", "solver"]),
    ("build", &["builder", "sweep"]),
    (
        "core",
        &[
            "edge_data",
            "extract",
            "extract_ogc",
            "fill_rule",
            "graph",
            "hierarchy",
            "integer",
            "link",
            "nearest_vector",
            "overlay",
            "overlay_rule",
            "solver",
        ],
    ),
    ("geom", &["end", "id_point", "v_segment", "x_segment"]),
    ("segm", &["boolean", "merge", "segment", "sort", "winding"]),
    ("split", &["cross_solver", "line_mark", "solver"]),
    ("util", &["log"]),
    ("vector", &["edge"]),
];

/// Stand-ins for files of the same modules that the text leaves out: they see what the text keeps within a module.
const STAND_INS: [(&str, &[&str]); 6] = [
    ("build", &["boolean", "graph"]),
    ("core", &["filter"]),
    ("geom", &["line_range"]),
    ("segm", &["build"]),
    ("split", &["list", "snap_radius"]),
    ("vector", &["extract"]),
];

/// The folder that the text stands in, if it is at hand.
pub fn find() -> Option<PathBuf> {
    println!("cargo:rustc-check-cfg=cfg(text_at_hand, patched)");
    println!("cargo:rerun-if-changed=build.rs");
    let text = variable("CARGO_MANIFEST_DIR").join("../../../shared/docs/src");
    println!("cargo:rerun-if-changed={}", text.display());
    let found = text.canonicalize().ok();
    if found.is_none() {
        println!(
            "cargo:warning=the given Rust text is not at hand (../shared/docs/src): its stored answers alone are compared"
        );
    }
    found
}

/// Names the files that stand in the folder to the compiler, as modules.
pub fn declare(folder: &Path) {
    let stand_ins = variable("CARGO_MANIFEST_DIR").join("../text/src/stand_ins");
    for (module, files) in MODULES {
        let given = files.iter().map(|file| declare_file(&folder.join(module), file));
        let left_out = STAND_INS.iter().filter(|(name, _)| *name == module).flat_map(|(_, files)| files.iter());
        let stand_ins = left_out.map(|file| declare_file(&stand_ins.join(module), file));
        let declared: String = given.chain(stand_ins).collect();
        fs::write(out().join(format!("{module}.rs")), declared).expect("the output folder can be written");
    }
    println!("cargo:rustc-cfg=text_at_hand");
}

/// A module whose file stands elsewhere.
fn declare_file(folder: &Path, file: &str) -> String {
    format!("#[path = {:?}]\npub(crate) mod {file};\n", folder.join(file).with_extension("rs"))
}

/// The folder that cargo has a build script write to.
pub fn out() -> PathBuf {
    variable("OUT_DIR")
}

fn variable(name: &str) -> PathBuf {
    PathBuf::from(env::var_os(name).unwrap_or_else(|| panic!("cargo sets {name}")))
}
