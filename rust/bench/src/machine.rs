//! What the times are of: the processor, and the library's module.

use std::env::consts::ARCH;
use std::fs;
use std::process::Command;

/// Lines that say on what was timed.
pub fn described() -> String {
    format!("processor: {}\narchitecture: {ARCH}\nmodule: {}", processor(), module())
}

/// The processor's name, as `lscpu` or else the kernel says.
fn processor() -> String {
    let lscpu = Command::new("lscpu").env("LC_ALL", "C").output();
    let listed = lscpu.map(|output| String::from_utf8_lossy(&output.stdout).into_owned());
    listed
        .ok()
        .and_then(|listed| field(&listed, "Model name"))
        .or_else(|| field(&fs::read_to_string("/proc/cpuinfo").ok()?, "model name"))
        .unwrap_or_else(|| "not known".to_string())
}

/// What a line `name: value` says.
fn field(text: &str, name: &str) -> Option<String> {
    text.lines().filter_map(|line| line.split_once(':')).find_map(|(key, value)| {
        let value = value.trim();
        (key.trim() == name && !value.is_empty()).then(|| value.to_string())
    })
}

/// Which archive is linked: `rust/guovdamas` chooses it when it is built.
fn module() -> String {
    match option_env!("GUOVDAMAS_LIB_DIR") {
        Some(folder) => format!("the archive in {folder} (GUOVDAMAS_LIB_DIR)"),
        None if cfg!(target_arch = "x86_64") => "the shipped archive (x86-64)".to_string(),
        None => format!("compiled for the machine at hand ({ARCH}); the shipped archive is for x86-64"),
    }
}
