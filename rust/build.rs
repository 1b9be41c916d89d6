//! Finds the archives libpm_host_c.a and libpm_device_c.a for the target that is built for: in the folder that
//! PM_ARCHIVES_<target> names, with `_` for `-`; for x86-64 Linux else in that of PM_ARCHIVES, or those that `rt lib`
//! left in crates/pm_host_c/out and crates/pm_device_c/out. Installed they are libpmhost.a and libpmpart.a, and those of the folder that
//! the crate is installed in are taken for the machine itself.
//!
//! For the tests of the repository it builds the part of trials/field, where there is a C compiler.

use std::path::{Path, PathBuf};
use std::process::Command;
use std::{env, fs, process};

/// One line that says what to do, and no more.
fn refuse(why: String) -> ! {
    eprintln!("pmhost: {why}");
    process::exit(1)
}

fn named(name: &str) -> Option<PathBuf> {
    println!("cargo:rerun-if-env-changed={name}");
    env::var_os(name).map(PathBuf::from).map(of_caller)
}

/// A folder as the caller named it: cargo runs this in the crate's folder, and leaves PWD as it was.
fn of_caller(folder: PathBuf) -> PathBuf {
    if folder.is_relative() {
        println!("cargo:rerun-if-env-changed=PWD");
    }
    let from = env::var_os("PWD").map(|at| Path::new(&at).join(&folder));
    from.filter(|it| it.is_dir()).unwrap_or(folder)
}

/// The name that packaging/install.sh gives an archive.
fn installed_name(library: &str) -> &'static str {
    if library == "pm_host_c" {
        "libpmhost.a"
    } else {
        "libpmpart.a"
    }
}

fn archive(target: &str, library: &str) -> PathBuf {
    let own = format!("PM_ARCHIVES_{}", target.replace('-', "_"));
    let is_built_here = target.starts_with("x86_64") && target.contains("linux");
    if let Some(folder) = named(&own).or_else(|| named("PM_ARCHIVES").filter(|_| is_built_here)) {
        let installed = folder.join(installed_name(library));
        return if installed.is_file() { installed } else { folder.join(format!("lib{library}.a")) };
    }
    let home = env::var_os("CARGO_MANIFEST_DIR").expect("cargo sets it");
    let beside = Path::new(&home).join("../../../lib").join(installed_name(library));
    if Path::new(&home).ends_with("share/pmhost/rust") && beside.is_file() && env::var("HOST").is_ok_and(|it| it == target) {
        return beside;
    }
    if !is_built_here {
        refuse(format!("no archives for {target}: build them by trials/c/targets.sh --out FOLDER, and give {own}=FOLDER/NAME"));
    }
    Path::new(&home).join(format!("../crates/{library}/out/lib{library}.a"))
}

/// Builds the part that tests/calls/field_rows.rs drives, which is C, and links the tests with it. `cfg(field)` says that it is there.
fn build_field(home: &Path, folder: &Path, device: &Path) {
    println!("cargo:rustc-check-cfg=cfg(field)");
    let from = home.join("../trials/field");
    if !from.is_dir() || env::var_os("HOST") != env::var_os("TARGET") {
        return;
    }
    println!("cargo:rerun-if-changed={}", from.display());
    println!("cargo:rerun-if-env-changed=CC");
    let compiler = env::var_os("CC").unwrap_or_else(|| "cc".into());
    for name in ["field", "frames"] {
        let object = folder.join(format!("{name}.o"));
        let mut call = Command::new(&compiler);
        call.args(["-std=c11", "-O1", "-fPIC", "-Wall", "-Wextra", "-Werror", "-c"])
            .arg("-I")
            .arg(home.join("../crates/pm_device_c/include"));
        if !call.arg(from.join(format!("{name}.c"))).arg("-o").arg(&object).status().is_ok_and(|ended| ended.success()) {
            return;
        }
        println!("cargo:rustc-link-arg-tests={}", object.display());
    }
    println!("cargo:rustc-link-arg-tests={}", device.display());
    println!("cargo:rustc-cfg=field");
}

fn main() {
    let target = env::var("TARGET").expect("cargo sets it");
    let folder = PathBuf::from(env::var_os("OUT_DIR").expect("cargo sets it"));
    println!("cargo:rustc-link-search=native={}", folder.display());
    let home = env::var_os("CARGO_MANIFEST_DIR");
    if target.contains("linux") && home.as_ref().is_some_and(|home| Path::new(home).join("tests").is_dir()) {
        // Tests only: tests/calls/other_library.rs answers these calls as another library's would.
        let images = ["host", "course", "sequence"].map(|it| format!(",--wrap=pm_{it}_version,--wrap=pm_{it}_size"));
        println!("cargo:rustc-link-arg-tests=-Wl,--wrap=pm_version,--wrap=pm_part_size{}", images.concat());
    }
    for library in ["pm_host_c", "pm_device_c"] {
        let from = archive(&target, library);
        if !from.is_file() {
            refuse(format!(
                "no archive at {}: build it by (cd crates/{library} && rt lib), or give PM_ARCHIVES, a folder with \
                 libpm_host_c.a and libpm_device_c.a",
                from.display()
            ));
        }
        println!("cargo:rerun-if-changed={}", from.display());
        fs::copy(&from, folder.join(format!("lib{library}.a"))).expect("the archive can be copied");
        println!("cargo:rustc-link-lib=static={library}");
    }
    build_field(Path::new(&home.expect("cargo sets it")), &folder, &folder.join("libpm_device_c.a"));
}
