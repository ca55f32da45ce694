//! Tells the crate what the standard library of this compiler has.
use std::process::Command;

fn main() {
    println!("cargo:rerun-if-changed=build.rs");
    let compiler = std::env::var_os("RUSTC").unwrap_or_else(|| "rustc".into());
    let said = Command::new(compiler).arg("--version").output();
    let text = said.map_or_else(
        |_| String::new(),
        |said| String::from_utf8_lossy(&said.stdout).into_owned(),
    );
    let minor = text
        .split('.')
        .nth(1)
        .and_then(|minor| minor.parse().ok())
        .unwrap_or(0_u32);
    for wanted in [86, 92] {
        println!("cargo:rustc-check-cfg=cfg(rust_1_{wanted})");
        if minor >= wanted {
            println!("cargo:rustc-cfg=rust_1_{wanted}");
        }
    }
}
