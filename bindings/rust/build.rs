//! Says where `librimesatchel.a` stands, and `librime_management.a` where the feature `management` asks for it: in the
//! folder that RIMESATCHEL_LIB names; where it names none, in target/lib of the repository that this crate stands in, or
//! else where pkg-config says. And takes the words of the refusals from the header, where they stand once.

use std::path::{Path, PathBuf};
use std::process::{exit, Command};
use std::{env, fs};

/// What pkg-config says, or why it says nothing.
fn pkg_config(words: &[&str]) -> Result<String, String> {
    let program = env::var("PKG_CONFIG").unwrap_or_else(|_| "pkg-config".into());
    let said = Command::new(&program).args(words).output().map_err(|why| format!("{program}: {why}"))?;
    if said.status.success() {
        Ok(String::from_utf8_lossy(&said.stdout).trim().into())
    } else {
        Err(String::from_utf8_lossy(&said.stderr).trim().into())
    }
}

/// The folder of an installed library that fits this crate: its first number is the same, and it isn't older.
fn installed(name: &str) -> Result<PathBuf, String> {
    let version = env!("CARGO_PKG_VERSION");
    let first: u32 = env!("CARGO_PKG_VERSION_MAJOR").parse().expect("a version's first number");
    let (least, below) = (format!("{name} >= {version}"), format!("{name} < {}", first + 1));
    pkg_config(&["--print-errors", "--exists", &least, &below])?;
    pkg_config(&["--variable=libdir", name]).map(PathBuf::from)
}

fn folder_of(name: &str, here: &Path) -> Result<PathBuf, String> {
    if let Some(named) = env::var_os("RIMESATCHEL_LIB") {
        return Ok(named.into());
    }
    let repository = here.join("../..");
    let built = repository.join("target/lib");
    if repository.join("crates.txt").exists() && built.join(format!("lib{name}.a")).exists() {
        return Ok(built);
    }
    installed(name)
}

fn link(name: &str, here: &Path) -> Result<(), String> {
    let folder = folder_of(name, here)?;
    let archive = folder.join(format!("lib{name}.a"));
    if !archive.exists() {
        return Err(format!("{} isn't there", archive.display()));
    }
    println!("cargo:rerun-if-changed={}", archive.display());
    println!("cargo:rustc-link-search=native={}", folder.display());
    println!("cargo:rustc-link-lib=static={name}");
    Ok(())
}

/// The arms of a match, from the lines `case 9: return "..";` of rime_refusal_text.
fn words(header: &str) -> String {
    let mut arms = String::new();
    for line in header.lines() {
        if let Some((number, text)) = line.trim().strip_prefix("case ").and_then(|rest| rest.split_once(": return ")) {
            arms += &format!("    {number} => {},\n", text.trim_end_matches(';'));
        } else if let Some(text) = line.trim().strip_prefix("default: return ") {
            arms += &format!("    _ => {},\n", text.trim_end_matches(';'));
        }
    }
    format!("match number {{\n{arms}}}\n")
}

fn main() {
    for variable in ["RIMESATCHEL_LIB", "PKG_CONFIG", "PKG_CONFIG_PATH", "PKG_CONFIG_LIBDIR"] {
        println!("cargo:rerun-if-env-changed={variable}");
    }
    let here = PathBuf::from(env::var("CARGO_MANIFEST_DIR").expect("cargo names the package's folder"));
    let mut names = vec!["rimesatchel"];
    names.extend(env::var_os("CARGO_FEATURE_MANAGEMENT").map(|_| "rime_management"));
    for name in names {
        if let Err(why) = link(name, &here) {
            eprintln!("rimesatchel: lib{name}.a can't be linked: {why}");
            eprintln!("`make install` puts it where pkg-config finds it, or RIMESATCHEL_LIB names its folder");
            exit(1);
        }
    }

    let header = here.join("rimesatchel.h");
    println!("cargo:rerun-if-changed={}", header.display());
    let text = fs::read_to_string(&header).expect("rimesatchel.h is in this crate");
    let out = PathBuf::from(env::var("OUT_DIR").expect("cargo names a folder for what is written"));
    fs::write(out.join("words.rs"), words(&text)).expect("the words are written");
}
