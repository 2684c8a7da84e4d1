//! Links with the proved static library, and with its allocator `heap.c`: those in `proved/`, which a released package carries, or else
//! those of the repository. Where neither is there, `cargo check` and `cargo doc` work, and a build says what is missing. For any target
//! but Linux on x86_64 and aarch64 it stops with an error. The environment's `CC`, `CFLAGS` and `AR` are respected.

use std::env;
use std::path::Path;
use std::process::Command;

/// Runs the tool that an environment variable names, with the arguments in the variable first, or else the usual one.
fn run(variable: &str, usual: &str, words: &[&str]) {
    println!("cargo:rerun-if-env-changed={variable}");
    let named = named(variable);
    let mut tool = named.split_whitespace();
    let program = tool.next().unwrap_or(usual);
    let status = Command::new(program).args(tool).args(words).status();
    assert!(
        status.is_ok_and(|status| status.success()),
        "{program} {words:?} failed"
    );
}

/// Compiles the allocator into a library in the folder.
fn compile_heap(heap: &Path, folder: &str) {
    let object = format!("{folder}/heap.o");
    let archive = format!("{folder}/libhayro_ccitt_heap.a");
    println!("cargo:rerun-if-env-changed=CFLAGS");
    let flags = named("CFLAGS");
    let mut words: Vec<&str> = flags.split_whitespace().collect();
    words.extend(["-O2", "-fPIC", "-c", heap.to_str().unwrap(), "-o", &object]);
    run("CC", &usual_tool("cc", "gcc"), &words);
    run("AR", &usual_tool("ar", "ar"), &["crs", &archive, &object]);
}

/// Returns what the environment has for a name, or nothing.
fn named(key: &str) -> String {
    env::var(key).unwrap_or_default()
}

/// Returns the usual name of a tool, for another machine that of the cross compilers.
fn usual_tool(here: &str, across: &str) -> String {
    let machine = named("CARGO_CFG_TARGET_ARCH");
    if named("HOST").starts_with(&machine) {
        return here.to_string();
    }
    format!("{machine}-linux-gnu-{across}")
}

/// Returns the name of the library for the target that the package is built for, if it is compiled for that.
fn library_for_target() -> Option<&'static str> {
    let is = |key: &str, value: &str| named(key) == value;
    if !is("CARGO_CFG_TARGET_POINTER_WIDTH", "64") || !is("CARGO_CFG_TARGET_OS", "linux") {
        return None;
    }
    match named("CARGO_CFG_TARGET_ARCH").as_str() {
        "x86_64" => Some("hayro_ccitt_c"),
        "aarch64" if is("CARGO_CFG_TARGET_ENDIAN", "little") => {
            Some("hayro_ccitt_c-aarch64-unknown-linux-gnu")
        }
        _ => None,
    }
}

fn main() {
    let Some(name) = library_for_target() else {
        println!(
            "cargo::error=x86_64 and aarch64 Linux only: the proved library isn't compiled for {}",
            named("TARGET")
        );
        return;
    };
    let package = Path::new(&env::var("CARGO_MANIFEST_DIR").unwrap()).to_path_buf();
    let (carried, repository) = (package.join("proved"), package.join("../.."));
    let (built, heap) = if carried.exists() {
        (carried.clone(), carried.join("heap.c"))
    } else {
        let built = repository.join("crates/hayro_ccitt_c/out");
        (built, repository.join("c/heap.c"))
    };
    let library = built.join(format!("lib{name}.a"));
    let out = env::var("OUT_DIR").unwrap();
    println!("cargo:rerun-if-changed={}", library.display());
    println!("cargo:rerun-if-changed={}", heap.display());
    println!("cargo:rustc-link-search=native={}", built.display());
    println!("cargo:rustc-link-search=native={out}");
    println!("cargo:rustc-link-lib=static={name}");
    println!("cargo:rustc-link-lib=static=hayro_ccitt_heap");
    if library.exists() {
        compile_heap(&heap, &out);
    } else {
        println!(
            "cargo:warning=a build needs {}: run `make`, for another target than this machine with TARGET, or take a released package",
            library.display()
        );
    }
}
