//! Asks pkg-config where libcapkit is; `PKG_CONFIG` names the program. If `CAPKIT_STATIC` is set, the static
//! library is linked.
use std::{env, process};

fn main() {
    for name in ["PKG_CONFIG", "PKG_CONFIG_PATH", "PKG_CONFIG_LIBDIR", "CAPKIT_STATIC"] {
        println!("cargo:rerun-if-env-changed={name}");
    }
    let program = env::var("PKG_CONFIG").unwrap_or_else(|_| "pkg-config".into());
    let asked = process::Command::new(&program)
        .env("PKG_CONFIG_ALLOW_SYSTEM_LIBS", "1")
        .args(["--libs", "capkit >= 0.1.0"])
        .output();
    let flags = match asked {
        Ok(output) if output.status.success() => output.stdout,
        Ok(output) => fail(&String::from_utf8_lossy(&output.stderr)),
        Err(error) => fail(&format!("{program}: {error}")),
    };
    let kind = env::var_os("CAPKIT_STATIC").map_or("", |_| "static=");
    for flag in String::from_utf8_lossy(&flags).split_whitespace() {
        if let Some(folder) = flag.strip_prefix("-L") {
            println!("cargo:rustc-link-search=native={folder}");
        } else if let Some(library) = flag.strip_prefix("-l") {
            println!("cargo:rustc-link-lib={kind}{library}");
        }
    }
}

fn fail(why: &str) -> ! {
    eprintln!("{why}\nlibcapkit isn't found; PKG_CONFIG_PATH names the folder of its capkit.pc");
    process::exit(1)
}
