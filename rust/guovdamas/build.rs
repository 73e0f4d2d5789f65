//! Finds or builds the static library, copies it to where cargo keeps what is built, and links it from there.
//!
//! It is taken from the folder that `GUOVDAMAS_LIB_DIR` names; else from `lib/` of the released archive that this crate
//! stands in; else it is built from the repository's proved crates: for x86-64 by `tools/build library`, for aarch64
//! by `rust/native-archive`, which has rt's own compiler compile the same module.

use std::collections::BTreeMap;
use std::path::{Path, PathBuf};
use std::process::{Command, exit};
use std::{env, fs};

const NAME: &str = "guovdamas";
const ARCHIVE: &str = "libguovdamas.a";
/// The crate that exports the library's functions.
const EXPORTS: &str = "guovdamas_c";

/// The processors for which there is an archive, with the number that an ELF file has for each.
const PROCESSORS: [(&str, u16); 2] = [("x86_64", 62), ("aarch64", 183)];

/// What is to be said to whoever builds, instead of an archive.
type Complaint = String;

fn main() {
    if let Err(complaint) = link() {
        // cargo prints it, nothing else, and fails
        println!("cargo::error={complaint}");
    }
}

fn link() -> Result<(), Complaint> {
    println!("cargo::rerun-if-changed=build.rs");
    println!("cargo::rerun-if-env-changed=GUOVDAMAS_LIB_DIR");
    let processor = covered_target()?;
    let found = match (env::var_os("GUOVDAMAS_LIB_DIR"), released()) {
        (Some(folder), _) => named(&PathBuf::from(folder))?,
        (None, Some(archive)) => archive,
        (None, None) => build(&processor)?,
    };
    let folder = folder_of("OUT_DIR");
    let archive = folder.join(ARCHIVE);
    let bytes = fs::read(&found).map_err(|error| format!("{} cannot be read: {error}", found.display()))?;
    fits(&bytes, &processor).map_err(|complaint| format!("{} {complaint}", found.display()))?;
    fs::write(&archive, bytes).map_err(|error| format!("{} cannot be written: {error}", archive.display()))?;
    println!("cargo::rustc-link-search=native={}", folder.display());
    println!("cargo::rustc-link-lib=static={NAME}");
    // for this crate's own tests
    println!("cargo::rustc-env=GUOVDAMAS_ARCHIVE={}", archive.display());
    Ok(())
}

/// The target's processor, where it is covered.
fn covered_target() -> Result<String, Complaint> {
    let [os, processor, width] =
        ["OS", "ARCH", "POINTER_WIDTH"].map(|name| variable(&format!("CARGO_CFG_TARGET_{name}")));
    let is_covered = PROCESSORS.iter().any(|(name, _)| *name == processor) && os == "linux" && width == "64";
    let complaint = format!(
        "{NAME} is for Linux on x86_64 or aarch64, with pointers of 64 bits; the target is {}",
        variable("TARGET")
    );
    if is_covered { Ok(processor) } else { Err(complaint) }
}

/// The archive in the folder that the caller names.
fn named(folder: &Path) -> Result<PathBuf, Complaint> {
    if folder.is_relative() {
        return Err(format!(
            "GUOVDAMAS_LIB_DIR is {}, a relative path, and cargo does not say what it is relative to. Name the folder \
             by an absolute path; in .cargo/config.toml, \
             `[env] GUOVDAMAS_LIB_DIR = {{ value = \"path\", relative = true }}` makes one",
            folder.display()
        ));
    }
    let archive = folder.join(ARCHIVE);
    println!("cargo::rerun-if-changed={}", archive.display());
    if archive.is_file() {
        Ok(archive)
    } else {
        Err(format!("GUOVDAMAS_LIB_DIR holds no {ARCHIVE}: {}", folder.display()))
    }
}

/// The archive in `lib/` where this crate was released with it: the repository has no such folder.
fn released() -> Option<PathBuf> {
    let archive = root().join("lib").join(ARCHIVE);
    // not named where it is not: cargo takes a missing file for a changed one
    archive.is_file().then(|| {
        println!("cargo::rerun-if-changed={}", archive.display());
        archive
    })
}

/// Builds the archive from the repository that this crate stands in.
fn build(processor: &str) -> Result<PathBuf, Complaint> {
    let root = root();
    let crates = fs::read_to_string(root.join("crates.txt"))
        .map_err(|_| format!("there is no {ARCHIVE}: set GUOVDAMAS_LIB_DIR to a folder that holds one"))?;
    let host = variable("HOST");
    if !host.starts_with(processor) {
        return Err(format!(
            "{ARCHIVE} cannot be built for another processor than the host's ({host}): set GUOVDAMAS_LIB_DIR to a \
             folder that holds one for {processor}"
        ));
    }
    name_inputs(&root, &crates);
    if processor == "x86_64" {
        run(Command::new(root.join("tools/build")).arg("library"), &root)?;
        Ok(root.join("target/staticlib").join(ARCHIVE))
    } else {
        let folder = folder_of("OUT_DIR").join("built");
        println!("cargo::rerun-if-changed={}", root.join("rust/native-archive").display());
        run(Command::new(root.join("rust/native-archive")).arg(&folder), &root)?;
        Ok(folder.join(ARCHIVE))
    }
}

/// Names what the build reads to cargo: the sources of the library's crate and of those below it, and which toolchain
/// it is.
fn name_inputs(root: &Path, crates: &str) {
    let lines = crates.lines().map(|line| line.split('#').next().unwrap_or_default());
    let below: BTreeMap<&str, &str> =
        lines.filter_map(|line| line.split_once(':')).map(|(name, below)| (first_word(name), below)).collect();
    let mut reached = vec![EXPORTS];
    let mut at = 0;
    while at < reached.len() {
        let next = below.get(reached[at]).copied().unwrap_or_default().split_whitespace();
        let new: Vec<&str> = next.filter(|name| below.contains_key(name) && !reached.contains(name)).collect();
        reached.extend(new);
        at += 1;
    }
    println!("cargo::rerun-if-changed={}", root.join("crates.txt").display());
    println!("cargo::rerun-if-changed={}", root.join("tools/build").display());
    let parts = reached
        .iter()
        .flat_map(|name| ["src", "specs", "proofs"].map(|part| root.join("crates").join(name).join(part)));
    // one that is not there is not named: cargo takes a missing file for a changed one
    let parts = parts.filter(|part| part.is_dir()).chain(toolchain());
    parts.for_each(|part| println!("cargo::rerun-if-changed={}", part.display()));
}

/// A crate's name: `staticlib` may stand after it.
fn first_word(name: &str) -> &str {
    name.split_whitespace().next().unwrap_or_default()
}

/// The file that says which toolchain it is, where there is one.
fn toolchain() -> Option<PathBuf> {
    let beside_rt = || {
        let rt = env::split_paths(&env::var_os("PATH")?).map(|folder| folder.join("rt")).find(|rt| rt.is_file())?;
        rt.canonicalize().ok()?.ancestors().nth(2).map(Path::to_path_buf)
    };
    let home = env::var_os("RATTLE_HOME").map(PathBuf::from).or_else(beside_rt)?;
    Some(home.join("KIT-ID")).filter(|file| file.is_file())
}

fn run(command: &mut Command, root: &Path) -> Result<(), Complaint> {
    let instead = format!("or set GUOVDAMAS_LIB_DIR to a folder that holds {ARCHIVE}");
    if let Err(error) = Command::new("rt").arg("version").output() {
        return Err(format!("rt, of the Rattle toolchain, cannot be run ({error}): put it on the PATH, {instead}"));
    }
    let status = command.current_dir(root).status().map_err(|error| format!("{command:?} cannot be run: {error}"))?;
    if status.success() {
        return Ok(());
    }
    println!("cargo::error={command:?} failed ({status}): mend what it says, {instead}");
    // with a status of its own cargo shows what was printed, and so what the command said
    exit(1)
}

/// Whether an archive holds code for a processor.
fn fits(archive: &[u8], processor: &str) -> Result<(), Complaint> {
    let machine = machine_of(archive).ok_or("is no archive of ELF objects")?;
    let made_for =
        PROCESSORS.iter().find(|(_, number)| *number == machine).map_or("another processor", |(name, _)| name);
    if made_for == processor { Ok(()) } else { Err(format!("is for {made_for}, and the target is {processor}")) }
}

/// The processor's number in the first ELF object of an archive. A member is a head of 60 bytes, in which its length
/// stands in decimal from byte 48 on, then its bytes, and a byte more if they are odd in number.
fn machine_of(archive: &[u8]) -> Option<u16> {
    let mut rest = archive.strip_prefix(b"!<arch>\n")?;
    loop {
        let (head, after) = rest.split_at_checked(60)?;
        let length: usize = std::str::from_utf8(&head[48..58]).ok()?.trim().parse().ok()?;
        let member = after.get(..length)?;
        if member.starts_with(b"\x7fELF") {
            return Some(u16::from_le_bytes([*member.get(18)?, *member.get(19)?]));
        }
        rest = after.get(length + length % 2..)?;
    }
}

/// The repository, or the released archive, that this crate stands in.
fn root() -> PathBuf {
    let package = folder_of("CARGO_MANIFEST_DIR");
    package.ancestors().nth(2).unwrap_or(&package).to_path_buf()
}

/// What cargo says under a name.
fn variable(name: &str) -> String {
    env::var(name).unwrap_or_default()
}

/// A folder that cargo names.
fn folder_of(name: &str) -> PathBuf {
    PathBuf::from(variable(name))
}

/// Run by tests/build_script.rs, of which this file is then a module.
#[cfg(test)]
mod tests {
    use super::*;

    /// An archive with a member of odd length before an object whose head names a processor.
    fn archive(machine: u16) -> Vec<u8> {
        let object = [&b"\x7fELF"[..], &[0; 14], &machine.to_le_bytes()].concat();
        let member = |bytes: &[u8]| [format!("{:48}{:<10}`\n", "name/", bytes.len()).as_bytes(), bytes].concat();
        [&b"!<arch>\n"[..], &member(b"odd"), b"\n", &member(&object)].concat()
    }

    #[test]
    fn archives_for_other_processors_are_refused() {
        assert_eq!(fits(&archive(62), "x86_64"), Ok(()));
        assert_eq!(fits(&archive(183), "aarch64"), Ok(()));
        let refused = |machine, processor| fits(&archive(machine), processor).unwrap_err();
        assert_eq!(refused(62, "aarch64"), "is for x86_64, and the target is aarch64");
        assert_eq!(refused(243, "aarch64"), "is for another processor, and the target is aarch64");
        assert_eq!(fits(b"no archive", "x86_64").unwrap_err(), "is no archive of ELF objects");
        assert_eq!(fits(&archive(62)[..100], "x86_64").unwrap_err(), "is no archive of ELF objects");
    }

    #[test]
    fn folders_are_named_by_absolute_paths() {
        assert!(named(Path::new("lib")).unwrap_err().starts_with("GUOVDAMAS_LIB_DIR is lib, a relative path"));
        let empty = Path::new(env!("CARGO_MANIFEST_DIR")).join("src");
        assert!(named(&empty).unwrap_err().starts_with("GUOVDAMAS_LIB_DIR holds no libguovdamas.a: "));
        let linked = Path::new(env!("GUOVDAMAS_ARCHIVE"));
        assert_eq!(named(linked.parent().unwrap()), Ok(linked.to_path_buf()));
    }
}
