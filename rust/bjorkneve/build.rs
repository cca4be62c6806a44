//! Links libbjorkneve.a from the folder BJORKNEVE_ARCHIVE names, or from
//! ../../target/archive, where tools/archive writes it. A relative folder
//! starts at this crate. What is missing is said in one line.

use std::env;
use std::fs;
use std::path::Path;
use std::process::{exit, Command};

fn main() {
    println!("cargo:rerun-if-changed=build.rs");
    println!("cargo:rerun-if-env-changed=BJORKNEVE_ARCHIVE");
    let here = env::var("CARGO_MANIFEST_DIR").unwrap_or_default();
    let named = env::var("BJORKNEVE_ARCHIVE").unwrap_or_else(|_| "../../target/archive".into());
    let folder = Path::new(&here).join(named);
    let archive = folder.join("libbjorkneve.a");
    println!("cargo:rerun-if-changed={}", archive.display());
    let fault = match fs::read(&archive) {
        Err(_) => Some("isn't there".into()),
        Ok(bytes) => {
            let wanted = env::var("CARGO_CFG_TARGET_ARCH").unwrap_or_default();
            match machine(&bytes) {
                Some(machine) if machine == wanted => None,
                Some(machine) => Some(format!("is for {}, and not for {}", machine, wanted)),
                None => Some(format!("has no object file for {}", wanted)),
            }
        }
    };
    if let Some(fault) = fault {
        eprintln!(
            "{} {}: run tools/archive on this machine, or name the archive's folder in BJORKNEVE_ARCHIVE",
            archive.display(),
            fault
        );
        exit(1);
    }
    println!("cargo:rustc-link-search=native={}", folder.display());
    println!("cargo:rustc-link-lib=static=bjorkneve");
    // `core::error::Error` came with Rust 1.81, after the oldest that this crate is for
    println!("cargo:rustc-check-cfg=cfg(core_error)");
    if compiler() >= 81 {
        println!("cargo:rustc-cfg=core_error");
    }
}

/// The 81 of a compiler that calls itself `rustc 1.81.0 ..`.
fn compiler() -> u32 {
    let rustc = env::var_os("RUSTC").unwrap_or_else(|| "rustc".into());
    let said = Command::new(rustc).arg("--version").output();
    let words = said.map_or_else(|_| Vec::new(), |output| output.stdout);
    let words = String::from_utf8_lossy(&words).into_owned();
    let minor = words.split('.').nth(1);
    minor.and_then(|minor| minor.parse().ok()).unwrap_or(0)
}

/// The machine that an archive's first object file is for, as Rust calls it.
fn machine(archive: &[u8]) -> Option<String> {
    let mut rest = archive.strip_prefix(b"!<arch>\n")?;
    loop {
        // a member: 60 characters, with the size from the 48th on, then its bytes, to an even place
        let size = std::str::from_utf8(rest.get(48..58)?).ok()?;
        let size: usize = size.trim().parse().ok()?;
        let member = rest.get(60..)?;
        if member.starts_with(b"\x7FELF") {
            return elf(member);
        }
        if member.starts_with(b"\0asm") {
            return Some("wasm32".into());
        }
        rest = member.get(size + size % 2..)?;
    }
}

/// The machine of an ELF object file.
fn elf(object: &[u8]) -> Option<String> {
    let wide = *object.get(4)? == 2;
    let number = u16::from_le_bytes([*object.get(18)?, *object.get(19)?]);
    Some(match (number, wide) {
        (40, _) => "arm".into(),
        (62, _) => "x86_64".into(),
        (183, _) => "aarch64".into(),
        (243, false) => "riscv32".into(),
        (243, true) => "riscv64".into(),
        _ => format!("machine {} of the ELF table", number),
    })
}
