//! Finds the archive of the proved library, sees to it that its version is the crate's, and tells cargo to link it.
use std::collections::BTreeSet;
use std::path::{Path, PathBuf};
use std::{env, fs, process};

/// The archive's file.
const ARCHIVE: &str = "libmitongory.a";

/// Names another folder than the repository's own.
const DIR_VARIABLE: &str = "MITONGORY_LIB_DIR";

/// The archive exports a function of this name and its version, major and minor: `mitongory_version_0_8`.
const VERSION_SYMBOL: &str = "mitongory_version_";

/// The call that was added last, which an earlier archive does not have.
const LAST_CALL: &str = "mitongory_search_set";

fn main() {
    println!("cargo:rerun-if-changed=build.rs");
    println!("cargo:rerun-if-env-changed={DIR_VARIABLE}");
    let dir = match env::var_os(DIR_VARIABLE) {
        Some(dir) => PathBuf::from(dir),
        None => Path::new(&of_cargo("CARGO_MANIFEST_DIR")).join("../target/lib"),
    };
    println!("cargo:rerun-if-changed={}", dir.join(ARCHIVE).display());
    let version = [of_cargo("CARGO_PKG_VERSION_MAJOR"), of_cargo("CARGO_PKG_VERSION_MINOR")];
    let target = [of_cargo("CARGO_CFG_TARGET_ARCH"), of_cargo("CARGO_CFG_TARGET_OS")];
    if let Err(why) = judge(&dir, &target.join("-"), &version.join("_")) {
        eprintln!("mitongory: {why}");
        process::exit(1);
    }
    let dir = dir.canonicalize().unwrap_or(dir);
    println!("cargo:rustc-link-search=native={}", dir.display());
    println!("cargo:rustc-link-lib=static=mitongory");
}

/// A variable that cargo sets for every build script.
fn of_cargo(name: &str) -> String {
    env::var(name).unwrap_or_else(|_| panic!("cargo sets {name}"))
}

/// Whether the crate of a version (major and minor, as in a symbol) can be built for a target (architecture and system)
/// with a folder's archive; or why not.
pub(crate) fn judge(dir: &Path, target: &str, version: &str) -> Result<(), String> {
    if target != "x86_64-linux" {
        return Err(format!("the archive is code for x86_64-linux, and the target is {target}"));
    }
    let archive = dir.join(ARCHIVE);
    let path = archive.display();
    let bytes = fs::read(&archive).map_err(|error| {
        format!("{path} cannot be read ({error}): run `make lib` first, or name its folder in {DIR_VARIABLE}")
    })?;
    let wanted = format!("{VERSION_SYMBOL}{version}");
    let names = symbols(&bytes, VERSION_SYMBOL);
    if !names.contains(&wanted) {
        let names: Vec<String> = names.into_iter().collect();
        let found = if names.is_empty() { String::from("no version") } else { names.join(", ") };
        let needs = format!("the crate has version {} and needs {wanted}", version.replace('_', "."));
        return Err(format!("{needs}, but {path} exports {found}: run `make lib` again"));
    }
    if !symbols(&bytes, LAST_CALL).contains(LAST_CALL) {
        return Err(format!("{path} is too old and has no {LAST_CALL}: run `make lib` again"));
    }
    Ok(())
}

/// The symbols in an archive's bytes that begin with a prefix. Each is taken whole, so that `mitongory_version_0_8` is
/// not found in `mitongory_version_0_80`, and the name of a section, in which a point comes before it, is none.
fn symbols(archive: &[u8], prefix: &str) -> BTreeSet<String> {
    let begins = |at: &usize| archive[*at..].starts_with(prefix.as_bytes()) && (*at == 0 || archive[*at - 1] != b'.');
    let symbol = |at: usize| {
        let rest = archive[at + prefix.len()..].iter().map(|&byte| char::from(byte));
        prefix.chars().chain(rest.take_while(|c| c.is_ascii_alphanumeric() || *c == '_')).collect()
    };
    (0..archive.len()).filter(begins).map(symbol).collect()
}
