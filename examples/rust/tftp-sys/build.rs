//! Links libtftp.a: of the folder in TFTP_LIB, or where pkg-config says that the library is.
use std::process::Command;

/// The folder of the library that is installed.
fn installed() -> Option<String> {
    let mut asks = Command::new("pkg-config");
    // a folder where every linker looks is named, too
    asks.args(["--libs-only-L", "tftp"]).env("PKG_CONFIG_ALLOW_SYSTEM_LIBS", "1");
    let flags = String::from_utf8(asks.output().ok()?.stdout).ok()?;
    flags.trim().strip_prefix("-L").map(str::to_owned)
}

fn main() {
    if let Some(folder) = std::env::var("TFTP_LIB").ok().or_else(installed) {
        println!("cargo:rustc-link-search=native={folder}");
    }
    println!("cargo:rustc-link-lib=static=tftp");
    println!("cargo:rerun-if-env-changed=TFTP_LIB");
}
