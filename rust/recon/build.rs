//! Links the proved library: librecon.a, as it is installed, or libcapi.a, as `make library` leaves it. Documentation and
//! `cargo check` need no library, so a missing one is no error here; what links it then fails.
use std::env;
use std::path::PathBuf;

const NAMES: [&str; 2] = ["recon", "capi"];

fn main() {
    println!("cargo:rerun-if-env-changed=RECON_LIB_DIR");
    let folders = folders();
    for folder in &folders {
        for name in NAMES {
            let library = folder.join(format!("lib{name}.a"));
            if library.exists() {
                println!("cargo:rerun-if-changed={}", library.display());
                println!("cargo:rustc-link-search=native={}", folder.display());
                println!("cargo:rustc-link-lib=static={name}");
                return;
            }
        }
    }
    missing(&folders);
}

/// Where the library is looked for: in the folder that RECON_LIB_DIR names, or else where the repository has it, and where the
/// archive has it.
fn folders() -> Vec<PathBuf> {
    if let Some(folder) = env::var_os("RECON_LIB_DIR") {
        return vec![PathBuf::from(folder)];
    }
    let here = PathBuf::from(env::var_os("CARGO_MANIFEST_DIR").expect("cargo sets it"));
    vec![here.join("../../target/staticlib"), here.join("../../lib")]
}

/// Says what to do. Cargo runs this script again as long as one of the files that it names is missing.
fn missing(folders: &[PathBuf]) {
    for folder in folders {
        println!("cargo:rerun-if-changed={}", folder.join("librecon.a").display());
    }
    let folders: Vec<String> = folders.iter().map(|folder| folder.display().to_string()).collect();
    println!(
        "cargo:warning=nothing can be linked: there is no librecon.a and no libcapi.a in {}. Run `make library`, or set \
         RECON_LIB_DIR to the folder that has one of them",
        folders.join(" or ")
    );
    println!("cargo:rustc-link-lib=static=recon");
}
