//! Links the archive of the proved workloads, and the part of the kit in C that it calls. To compile it needs neither.
fn main() {
    for (variable, library) in [
        ("ARRAYDEQUE_BENCH_ARCHIVE", "arraydeque_bench"),
        ("RATTLE_KIT_C", "libc_c"),
    ] {
        println!("cargo::rerun-if-env-changed={variable}");
        let Ok(folder) = std::env::var(variable) else { continue };
        println!("cargo::rustc-link-search=native={folder}");
        println!("cargo::rustc-link-lib=static={library}");
        println!("cargo::rerun-if-changed={folder}/lib{library}.a");
    }
}
