use std::process::Command;

/// COUNTERLAB_ARCHIVE is the folder of libcounterlab.a, which install.sh makes; or, if KIT_ARCHIVE
/// is the kit's folder c, that of libcounterlab_c.a. If it is not set, pkg-config is asked for the
/// folder. The crate is built anew when a folder is another one, and when an archive in it has
/// changed.
fn main() {
    for name in ["COUNTERLAB_ARCHIVE", "KIT_ARCHIVE", "PKG_CONFIG_PATH"] {
        println!("cargo:rerun-if-env-changed={name}");
    }
    let own = std::env::var("COUNTERLAB_ARCHIVE").ok().or_else(installed);
    let own = own.expect("COUNTERLAB_ARCHIVE is not set, and pkg-config knows no counterlab");
    match std::env::var("KIT_ARCHIVE") {
        Err(_) => link(&own, "counterlab"),
        Ok(kit) => {
            link(&own, "counterlab_c");
            link(&kit, "libc_c");
        }
    }
}

/// The folder of libcounterlab.a, as pkg-config knows it.
fn installed() -> Option<String> {
    let mut asked = Command::new("pkg-config");
    let said = asked.args(["--variable=libdir", "counterlab"]).output().ok()?;
    let folder = String::from_utf8(said.stdout).ok()?;
    (said.status.success() && !folder.trim().is_empty()).then(|| folder.trim().to_owned())
}

fn link(folder: &str, library: &str) {
    println!("cargo:rerun-if-changed={folder}/lib{library}.a");
    println!("cargo:rustc-link-search=native={folder}");
    println!("cargo:rustc-link-lib=static={library}");
}
