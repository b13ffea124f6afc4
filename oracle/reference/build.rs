//! Copies the reference into the output folder, checks it and appends the
//! accessors there: once on its own clocks, and the port's files once more on
//! the stand-in of two counters. No line of the reference is kept in this
//! repository.
#[path = "build/sha256.rs"]
mod sha256;

use std::{
    env, fs,
    path::{Path, PathBuf},
};

/// Where the sources lie inside the reference folder, and which are used.
const SOURCES: &str = "crates/hs-core/src";
const FILES: [&str; 8] = [
    "mcu/sci.rs",
    "mcu/sci/baud.rs",
    "mcu/sci/frame.rs",
    "mcu/clocks.rs",
    "mcu/clocks/prescaler.rs",
    "mcu/clocks/domain.rs",
    "time.rs",
    "signals.rs",
];
/// The folder of the port and its clocks, and the one where the port stands on
/// the counters.
const OWN: &str = "mcu/";
const COUNTERS: &str = "counters/";
/// The port's own files, which lie in both.
const PORT: &str = "mcu/sci";
/// Ours, put beside them: the modules that the reference imports and that
/// were not published with it; the last in place of its clocks.
const STANDINS: [(&str, &str); 7] = [
    ("mcu/mod.rs", "mcu/mod.rs"),
    ("mcu/bus.rs", "mcu/bus.rs"),
    ("mcu/clocks/cursor.rs", "mcu/clocks/cursor.rs"),
    ("mcu/clocks/startup.rs", "mcu/clocks/startup.rs"),
    ("mcu/mod.rs", "counters/mod.rs"),
    ("mcu/bus.rs", "counters/bus.rs"),
    ("counters/clocks.rs", "counters/clocks.rs"),
];
/// Ours, appended to the copied file of the same name.
const APPENDED: [&str; 2] = ["mcu/sci.rs", "mcu/sci/baud.rs"];
/// The one function of the reference that is renamed: what is appended has a
/// wrapper of its name.
const WRAPPED: &str = "mcu/sci.rs";
const NAME: &str = "fn complete_receive(";
const RENAMED: &str = "fn reference_complete_receive(";

const VARIABLE: &str = "SCI3_REFERENCE";

fn main() {
    if let Err(line) = build() {
        println!("cargo::error={line}");
    }
}

fn build() -> Result<(), String> {
    let here = variable("CARGO_MANIFEST_DIR")?;
    let tree = variable("OUT_DIR")?.join("tree");
    let folder = reference_folder(&here);
    println!("cargo::rerun-if-env-changed={VARIABLE}");
    for watched in ["build.rs", "build", "checksums.txt", "standins", "appended"] {
        println!("cargo::rerun-if-changed={watched}");
    }
    let checksums = read(&here.join("checksums.txt"))?;
    for file in FILES {
        let source = format!("{SOURCES}/{file}");
        let path = folder.join(&source);
        println!("cargo::rerun-if-changed={}", path.display());
        let mut text = fs::read_to_string(&path).map_err(|e| {
            format!(
                "reference file {} cannot be read ({e}); {VARIABLE} names the folder that holds crates/",
                path.display()
            )
        })?;
        let digest = sha256::hex(text.as_bytes());
        let recorded = recorded(&checksums, &source)?;
        if digest != recorded {
            return Err(format!(
                "reference file {} has SHA-256 {digest}, checksums.txt has {recorded}",
                path.display()
            ));
        }
        if file == WRAPPED {
            if text.matches(NAME).count() != 1 {
                return Err(format!("{WRAPPED} has not just one `{NAME}..`"));
            }
            text = text.replace(NAME, RENAMED);
        }
        if APPENDED.contains(&file) {
            text.push_str(&read(&here.join("appended").join(file))?);
        }
        write(&tree.join(file), &text)?;
        if file.starts_with(PORT) {
            write(&tree.join(file.replace(OWN, COUNTERS)), &text)?;
        }
    }
    for (file, to) in STANDINS {
        let text = read(&here.join("standins").join(file))?;
        write(&tree.join(to), &text)?;
    }
    // lib.rs includes this: a path attribute takes no environment variable,
    // and an included file may not begin with the reference's inner comments.
    let modules: String = [
        ("time", "time.rs"),
        ("signals", "signals.rs"),
        ("mcu", "mcu/mod.rs"),
        ("counters", "counters/mod.rs"),
    ]
    .iter()
    .map(|(name, file)| {
        let path = tree.join(file);
        format!(
            "#[allow(dead_code, unused_imports, unexpected_cfgs, clippy::all)]\n\
             #[path = {path:?}]\npub mod {name};\n"
        )
    })
    .collect();
    write(&tree.join("modules.rs"), &modules)
}

/// The folder that the variable names, a relative one taken from the
/// repository's root, which is two above this crate.
fn reference_folder(here: &Path) -> PathBuf {
    let root = here.join("../..");
    match env::var_os(VARIABLE) {
        Some(folder) => root.join(folder),
        None => root.join("../shared/docs/src"),
    }
}

fn variable(name: &str) -> Result<PathBuf, String> {
    env::var_os(name)
        .map(PathBuf::from)
        .ok_or_else(|| format!("{name} is not set; this is a build script of cargo"))
}

fn recorded<'a>(checksums: &'a str, source: &str) -> Result<&'a str, String> {
    checksums
        .lines()
        .filter(|line| !line.starts_with('#'))
        .filter_map(|line| line.split_once("  "))
        .find(|(_, name)| *name == source)
        .map(|(digest, _)| digest)
        .ok_or_else(|| format!("checksums.txt has no line for {source}"))
}

fn read(path: &Path) -> Result<String, String> {
    fs::read_to_string(path).map_err(|e| format!("{} cannot be read: {e}", path.display()))
}

fn write(path: &Path, text: &str) -> Result<(), String> {
    let folder = path.parent().unwrap_or(path);
    fs::create_dir_all(folder)
        .and_then(|()| fs::write(path, text))
        .map_err(|e| format!("{} cannot be written: {e}", path.display()))
}
