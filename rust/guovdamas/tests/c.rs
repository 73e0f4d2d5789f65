//! The header and the archive from C and C++: the example in examples/c, compiled without a warning, linked and run.

use std::path::{Path, PathBuf};
use std::process::Command;

const HEADER: &str = include_str!("../../../include/guovdamas.h");

const FOUND: &str = "\
contours 2 shapes 1 doubled area 128
0 hull 0, 0.01 mm2: (0,10) (0,0) (10,0) (10,10)
1 hole 0, -0.0036 mm2: (2,2) (2,8) (8,8) (8,2)
";

/// Compiles the example, as the language that the words after the compiler name, and runs it; passes where there is no
/// such compiler.
fn run_example(compiler: &str, words: &[&str]) {
    let root = Path::new(env!("CARGO_MANIFEST_DIR")).join("../..");
    let program = PathBuf::from(env!("CARGO_TARGET_TMPDIR")).join(format!("square-{compiler}"));
    let mut command = Command::new(compiler);
    command.args(words).args(["-Wall", "-Wextra", "-pedantic", "-Werror", "-I"]).arg(root.join("include"));
    command.arg(root.join("examples/c/square.c"));
    // the archive is no source, whatever the language
    command.args(["-x", "none"]).arg(env!("GUOVDAMAS_ARCHIVE")).arg("-o").arg(&program);
    let Ok(compiled) = command.output() else {
        println!("{compiler} is not there: not run");
        return;
    };
    assert!(compiled.status.success(), "{command:?}\n{}", String::from_utf8_lossy(&compiled.stderr));
    let run = Command::new(&program).output().expect("the program can be run");
    assert_eq!((run.status.code(), String::from_utf8_lossy(&run.stdout).as_ref()), (Some(0), FOUND));
}

#[test]
fn as_c99() {
    run_example("cc", &["-std=c99", "-x", "c"]);
}

#[test]
fn as_cpp17() {
    run_example("c++", &["-std=c++17", "-x", "c++"]);
}

/// The header's limits are this crate's.
#[test]
fn limits_are_the_same() {
    let defined = |name: &str| {
        let line = HEADER.lines().find_map(|line| line.strip_prefix(&format!("#define GUOVDAMAS_{name} ")));
        line.unwrap_or_else(|| panic!("{name} is defined")).to_string()
    };
    assert_eq!(defined("MAX_LINKS"), guovdamas::MAX_LINKS.to_string());
    assert_eq!(defined("MAX_COORDINATE"), guovdamas::MAX_COORDINATE.to_string());
}

/// What stands between the first place of one text and the next of another.
fn between<'a>(text: &'a str, from: &str, to: &str) -> &'a str {
    let (_, after) = text.split_once(from).unwrap_or_else(|| panic!("{from} is there"));
    after.split_once(to).unwrap_or_else(|| panic!("{to} is there")).0
}

/// C's names for types that Rust names otherwise.
const TYPES: [(&str, &str); 8] = [
    ("uint8_t", "u8"),
    ("uint16_t", "u16"),
    ("uint32_t", "u32"),
    ("uint64_t", "u64"),
    ("int32_t", "i32"),
    ("int64_t", "i64"),
    ("size_t", "usize"),
    ("double", "f64"),
];

/// `const int32_t *ax` as `ax: *const i32`.
fn in_rust(declared: &str) -> String {
    let words: Vec<&str> = declared.split_whitespace().collect();
    let (name, types) = words.split_last().expect("a name");
    let of = *types.last().expect("a type");
    let of = TYPES.iter().find(|(c, _)| *c == of).map_or(of.trim_start_matches("Guovdamas"), |(_, rust)| rust);
    match (name.strip_prefix('*'), types[0]) {
        (Some(name), "const") => format!("{name}: *const {of}"),
        (Some(name), _) => format!("{name}: *mut {of}"),
        (None, _) => format!("{name}: {of}"),
    }
}

fn parts(list: &str, separator: char) -> impl Iterator<Item = &str> {
    list.split(separator).map(str::trim).filter(|part| !part.is_empty())
}

/// The C compiler sees the header and rustc src/ffi.rs: both declare the same fields and parameters, in the same order.
#[test]
fn declarations_are_the_same() {
    let ours = include_str!("../src/ffi.rs").replace("pub(crate) ", "");
    let header: String = HEADER.split("/*").filter_map(|part| part.split("*/").nth(1)).collect();
    for name in ["Settings", "Extraction", "Binding", "Record", "Report", "Reports"] {
        let (before, _) = header.split_once(&format!("}} Guovdamas{name};")).expect("it is declared");
        let fields = before.rsplit_once('{').expect("it has fields").1;
        let due: Vec<&str> = parts(between(&ours, &format!("struct {name} {{"), "}"), ',').collect();
        assert_eq!(parts(fields, ';').map(in_rust).collect::<Vec<_>>(), due, "{name}");
    }
    let functions = [
        ("extract", "Extraction"),
        ("bind", "Binding"),
        ("lookup", "Record"),
        ("report", "Report"),
        ("report_all", "Reports"),
    ];
    for (name, answer) in functions {
        let parameters = between(&header, &format!("Guovdamas{answer} guovdamas_{name}("), ");");
        let due = between(&ours, &format!("fn guovdamas_{name}("), &format!(") -> {answer};"));
        assert_eq!(
            parts(parameters, ',').map(in_rust).collect::<Vec<_>>(),
            parts(due, ',').collect::<Vec<_>>(),
            "{name}"
        );
    }
}
