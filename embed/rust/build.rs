//! Finds the installed library: in the folder that DSP_ENGINE_LIB_DIR names, else in the one that dsp_engine.pc names, else where the linker looks.
//!
//! The archive is linked where it is there, unless DSP_ENGINE_SHARED is set; else the shared library.

use std::env;
use std::fs;
use std::path::{Path, PathBuf};

/// Where pkg-config looks, after the folders of its own variable.
const PKG_CONFIG_FOLDERS: [&str; 5] = [
    "/usr/local/lib/pkgconfig",
    "/usr/local/share/pkgconfig",
    "/usr/lib/x86_64-linux-gnu/pkgconfig",
    "/usr/lib/pkgconfig",
    "/usr/local/libdata/pkgconfig",
];

fn main() {
    for variable in ["DSP_ENGINE_LIB_DIR", "DSP_ENGINE_SHARED", "PKG_CONFIG_PATH"] {
        println!("cargo:rerun-if-env-changed={variable}");
    }
    let folder = env::var_os("DSP_ENGINE_LIB_DIR").map(PathBuf::from).or_else(told_by_pkg_config);
    if let Some(folder) = &folder {
        println!("cargo:rustc-link-search=native={}", folder.display());
    }
    println!("cargo:rustc-link-lib={}=dsp_engine", kind_in(folder.as_deref()));
}

/// How the library of a folder is linked.
fn kind_in(folder: Option<&Path>) -> &'static str {
    let has_archive = folder.is_some_and(|it| it.join("libdsp_engine.a").is_file());
    if has_archive && env::var_os("DSP_ENGINE_SHARED").is_none() {
        "static"
    } else {
        "dylib"
    }
}

/// The folder of the library that the first dsp_engine.pc names.
fn told_by_pkg_config() -> Option<PathBuf> {
    let named = env::var_os("PKG_CONFIG_PATH").unwrap_or_default();
    let folders = env::split_paths(&named).chain(PKG_CONFIG_FOLDERS.iter().map(PathBuf::from));
    let told = folders.map(|it| it.join("dsp_engine.pc")).find_map(|it| fs::read_to_string(it).ok())?;
    let lines: Vec<&str> = told.lines().collect();
    variable(&lines, "libdir").map(PathBuf::from)
}

/// A variable of such lines, with those put in that it names and that stand before it.
fn variable(lines: &[&str], name: &str) -> Option<String> {
    let value_of = |line: &str| Some(line.strip_prefix(name)?.trim_start().strip_prefix('=')?.trim().to_string());
    let (at, value) = lines.iter().enumerate().find_map(|(at, line)| Some((at, value_of(line)?)))?;
    let Some((before, rest)) = value.split_once("${") else {
        return Some(value);
    };
    let (other, behind) = rest.split_once('}')?;
    Some(format!("{before}{}{behind}", variable(&lines[..at], other)?))
}
