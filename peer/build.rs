//! Links the static library libhaqbylur.a where HAQBYLUR_LIB_DIR names its folder. Without that variable
//! everything still builds and the tests run; the comparison and the bench then compare nothing and end with an error.

use std::path::Path;

fn main() {
    println!("cargo:rerun-if-env-changed=HAQBYLUR_LIB_DIR");
    let Ok(folder) = std::env::var("HAQBYLUR_LIB_DIR") else {
        return;
    };
    let archive = Path::new(&folder).join("libhaqbylur.a");
    let archive = archive
        .canonicalize()
        .unwrap_or_else(|error| panic!("HAQBYLUR_LIB_DIR: {}: {error}", archive.display()));
    let folder = archive.parent().expect("a folder");
    // A file that is never there: this is run each time. An archive that was replaced by an older file has another sum, with
    // which everything is built again.
    println!("cargo:rerun-if-changed=never");
    println!("cargo:rustc-env=HAQBYLUR_ARCHIVE={}", sum(&archive));
    println!("cargo:rustc-link-search=native={}", folder.display());
    println!("cargo:rustc-link-lib=static=haqbylur");
    println!("cargo:rustc-cfg=linked");
}

/// Length and FNV-1a sum of a file.
fn sum(file: &Path) -> String {
    let bytes = std::fs::read(file).expect("the archive can be read");
    let sum = bytes.iter().fold(0xcbf2_9ce4_8422_2325, |sum: u64, byte| {
        (sum ^ u64::from(*byte)).wrapping_mul(0x0100_0000_01b3)
    });
    format!("{} bytes, sum {sum:016x}", bytes.len())
}
