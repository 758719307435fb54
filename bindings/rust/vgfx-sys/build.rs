//! Tells where `libvgfx.a` stands: in the folder that `VGFX_LIB_DIR` names, or where `pkg-config` says.
use std::env;
use std::process::Command;

fn main() {
    println!("cargo:rerun-if-env-changed=VGFX_LIB_DIR");
    println!("cargo:rerun-if-env-changed=PKG_CONFIG_PATH");
    if let Ok(folder) = env::var("VGFX_LIB_DIR") {
        println!("cargo:rustc-link-search=native={folder}");
        println!("cargo:rerun-if-changed={folder}/libvgfx.a");
    } else if let Ok(told) = Command::new("pkg-config").args(["--variable=libdir", "vgfx"]).output()
        && told.status.success()
    {
        println!("cargo:rustc-link-search=native={}", String::from_utf8_lossy(&told.stdout).trim());
    } else {
        println!("cargo:warning=libvgfx.a is looked for where the linker looks: VGFX_LIB_DIR is not set, and pkg-config does not know vgfx");
    }
    println!("cargo:rustc-link-lib=static=vgfx");
}
