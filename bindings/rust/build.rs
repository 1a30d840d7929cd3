//! Links `libvirebony.a`: from the folder that VIREBONY_LIB_DIR names, else made by the repository's `tests/archive`, which has `rt lib` prove it. Before anything is
//! compiled, the archive is asked for its edition.
use std::path::{Path, PathBuf};
use std::process::{exit, Command};
use std::{env, fs};

fn main() {
    if let Err(why) = link() {
        eprintln!("{why}");
        exit(1);
    }
}

fn link() -> Result<(), String> {
    println!("cargo:rerun-if-changed=build.rs");
    println!("cargo:rerun-if-env-changed=VIREBONY_LIB_DIR");
    if !runs_the_archive(&var("TARGET")?) {
        return Err(format!("libvirebony.a links into x86-64 Linux programs, not into {}", var("TARGET")?));
    }
    let folder = match env::var_os("VIREBONY_LIB_DIR") {
        Some(named) => PathBuf::from(named),
        None => made(&Path::new(&var("CARGO_MANIFEST_DIR")?).join("../.."))?,
    };
    let archive = fs::canonicalize(folder.join("libvirebony.a")).map_err(|e| format!("{}/libvirebony.a: {e}", folder.display()))?;
    let folder = archive.parent().ok_or("libvirebony.a stands in no folder")?;
    println!("cargo:rerun-if-changed={}", archive.display());
    compare_editions(folder)?;
    println!("cargo:rustc-link-search=native={}", folder.display());
    println!("cargo:rustc-link-lib=static=virebony");
    Ok(())
}

fn var(name: &str) -> Result<String, String> {
    env::var(name).map_err(|e| format!("{name}: {e}"))
}

fn runs_the_archive(triple: &str) -> bool {
    triple.starts_with("x86_64-") && triple.contains("-linux-")
}

/// What a command prints; else why it failed, and what it printed.
fn run(command: &mut Command) -> Result<String, String> {
    let output = command.output().map_err(|e| format!("{command:?}: {e}"))?;
    let said = String::from_utf8_lossy(&output.stdout).into_owned();
    if output.status.success() {
        return Ok(said);
    }
    Err(format!("{command:?}: {}\n{said}{}", output.status, String::from_utf8_lossy(&output.stderr)))
}

/// The folder in which `tests/archive` leaves the archive, proved from the sources as they are now.
fn made(root: &Path) -> Result<PathBuf, String> {
    println!("cargo:rerun-if-changed={}", root.join("crates.txt").display());
    for entry in fs::read_dir(root.join("crates")).map_err(|e| e.to_string())? {
        let folder = entry.map_err(|e| e.to_string())?.path();
        // What `rt` makes stands in `out`.
        for part in ["src", "specs", "proofs"].map(|part| folder.join(part)) {
            if part.is_dir() {
                println!("cargo:rerun-if-changed={}", part.display());
            }
        }
    }
    run(&mut Command::new(root.join("tests/archive")))
        .map_err(|why| format!("{why}\nlibvirebony.a was not made; or set VIREBONY_LIB_DIR to a folder that has it"))?;
    Ok(root.join("target/staticlib"))
}

/// Runs a program of one line over the archive, where this machine can run one.
fn compare_editions(folder: &Path) -> Result<(), String> {
    if !runs_the_archive(&var("HOST")?) {
        println!("cargo:warning=the edition of libvirebony.a is not compared: it cannot be run here");
        return Ok(());
    }
    let source = Path::new(&var("OUT_DIR")?).join("edition.rs");
    let program = source.with_extension("");
    fs::write(&source, "extern \"C\" { fn vb_edition() -> u32; }\nfn main() { print!(\"{}\", unsafe { vb_edition() }) }\n")
        .map_err(|e| e.to_string())?;
    run(Command::new(var("RUSTC")?).arg(&source).arg("-o").arg(&program).arg("-L").arg(folder).arg("-lstatic=virebony"))?;
    let archive = run(&mut Command::new(&program))?;
    println!("cargo:rerun-if-changed=src/sys/values.rs");
    let here = fs::read_to_string("src/sys/values.rs").map_err(|e| e.to_string())?;
    if here.contains(&format!("pub const EDITION: u32 = {archive};")) {
        return Ok(());
    }
    Err(format!("libvirebony.a is of edition {archive}, and this crate is of another"))
}
