// Compiles idc.c by the C compiler, `cc` or what CC names, for the crate.
use std::{env, path::Path, process::Command};

fn main() {
    let out = env::var("OUT_DIR").expect("cargo sets it");
    let (object, library) = (Path::new(&out).join("idc.o"), Path::new(&out).join("libidc.a"));
    let cc = env::var("CC").unwrap_or_else(|_| "cc".into());
    let run = |command: &mut Command| assert!(command.status().expect("a command").success());
    run(Command::new(cc).args(["-w", "-O1", "-fPIC", "-c", "idc.c", "-o"]).arg(&object));
    run(Command::new("ar").arg("crs").arg(&library).arg(&object));
    println!("cargo:rerun-if-changed=idc.c\ncargo:rustc-link-search=native={out}");
    println!("cargo:rustc-link-lib=static=idc\ncargo:rustc-link-lib=m");
}
