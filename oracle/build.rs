//! Wraps each published file in a module of its own, byte for byte, with a tail of ours behind it.
//!
//! A file published/NAME.rs becomes OUT_DIR/NAME.rs: `pub mod NAME {`, its bytes, the bytes of tails/NAME.rs
//! if there is one, `}`. src/published.rs and src/sched.rs include the result. The tail may read what is private
//! to the file. Not all of what is published is used here, hence the allowance for dead code;
//! the published queue hands out a type that is visible in fewer places than the function, hence the other.

use std::{env, fs, io, path::Path};

const FILES: [&str; 5] = ["modal", "queue", "key_set", "store", "time"];

fn main() -> io::Result<()> {
    // The published files ask for a feature "serde" that is never on here.
    println!("cargo:rustc-check-cfg=cfg(feature, values(\"serde\"))");
    println!("cargo:rerun-if-changed=build.rs");
    println!("cargo:rerun-if-changed=tails");
    let out = env::var("OUT_DIR").expect("cargo sets OUT_DIR");
    for name in FILES {
        let published = format!("published/{name}.rs");
        let tail = format!("tails/{name}.rs");
        println!("cargo:rerun-if-changed={published}");
        let mut module =
            format!("#[allow(dead_code, unknown_lints, private_interfaces)]\npub mod {name} {{\n")
                .into_bytes();
        module.extend(fs::read(&published)?);
        if Path::new(&tail).exists() {
            println!("cargo:rerun-if-changed={tail}");
            module.push(b'\n');
            module.extend(fs::read(&tail)?);
        }
        module.extend(b"\n}\n");
        fs::write(Path::new(&out).join(format!("{name}.rs")), module)?;
    }
    Ok(())
}
