//! The archive that is linked: its version is the crate's, and the build script accepts no other.
use mitongory::ffi;
use std::path::Path;
use std::{env, fs, process};

// The build script itself, of which only the judgement is called.
#[allow(dead_code)]
#[path = "../../build.rs"]
mod script;

/// A part of the crate's version.
fn part(number: &str) -> u32 {
    number.parse().unwrap()
}

/// Crate and archive have the same version, and the symbol in `ffi` has its name.
#[test]
fn version_of_the_crate() {
    let major = part(env!("CARGO_PKG_VERSION_MAJOR"));
    let minor = part(env!("CARGO_PKG_VERSION_MINOR"));
    let patch = part(env!("CARGO_PKG_VERSION_PATCH"));
    assert_eq!(ffi::version(), major * 10_000 + minor * 100 + patch);
    assert_eq!(ffi::version(), 800);
    let declared = include_str!("../../src/ffi.rs");
    assert!(declared.contains(&format!("mitongory_version_{major}_{minor}()")));
}

/// What the build script says of an archive of these bytes, for the crate of version 0.8, with the folder's name left
/// out.
fn judged(archive: Option<&[u8]>) -> Result<(), String> {
    let dir = env::temp_dir().join(format!("mitongory-{}", process::id()));
    fs::create_dir_all(&dir).unwrap();
    if let Some(bytes) = archive {
        fs::write(dir.join("libmitongory.a"), bytes).unwrap();
    }
    let said = script::judge(&dir, "x86_64-linux", "0_8");
    fs::remove_dir_all(&dir).unwrap();
    said.map_err(|why| why.replace(dir.to_str().unwrap(), "DIR"))
}

#[test]
fn archives_that_the_build_refuses() {
    let symbols = |names: &[&str]| [b"!<arch>\n\0", names.join("\0").as_bytes(), b"\0.text\0"].concat();
    let exports = |found: &str| {
        let needs = "the crate has version 0.8 and needs mitongory_version_0_8";
        Err(format!("{needs}, but DIR/libmitongory.a exports {found}: run `make lib` again"))
    };
    assert_eq!(judged(Some(&symbols(&["mitongory_search_set", "mitongory_version_0_8"]))), Ok(()));
    let old = "DIR/libmitongory.a is too old and has no mitongory_search_set: run `make lib` again";
    for call in ["mitongory_search", "mitongory_search_sets", ".text.mitongory_search_set"] {
        assert_eq!(judged(Some(&symbols(&[call, "mitongory_version_0_8"]))), Err(String::from(old)));
    }
    assert_eq!(judged(Some(&symbols(&["mitongory_search"]))), exports("no version"));
    assert_eq!(judged(Some(&symbols(&["mitongory_version_0_80"]))), exports("mitongory_version_0_80"));
    let two = ["mitongory_version_1_0", "mitongory_version_0_1", "mitongory_version_1_0"];
    assert_eq!(judged(Some(&symbols(&two))), exports("mitongory_version_0_1, mitongory_version_1_0"));
    assert_eq!(judged(Some(b"")), exports("no version"));
    let section = [".text.mitongory_version_0_8", "mitongory_version_0_1"];
    assert_eq!(judged(Some(&symbols(&section))), exports("mitongory_version_0_1"));

    let missing = judged(None).unwrap_err();
    assert!(missing.starts_with("DIR/libmitongory.a cannot be read"), "{missing}");
    assert!(missing.ends_with("run `make lib` first, or name its folder in MITONGORY_LIB_DIR"), "{missing}");
    for target in ["aarch64-linux", "x86_64-macos"] {
        let said = script::judge(Path::new("nowhere"), target, "0_8");
        assert_eq!(said, Err(format!("the archive is code for x86_64-linux, and the target is {target}")));
    }
}
