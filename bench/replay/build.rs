//! Links the archive of the proved players, and the part of the kit in C that they call, whose
//! requests for memory go by way of this program.
fn main() {
    for (variable, library) in [
        ("ARRAYDEQUE_REPLAY_ARCHIVE", "arraydeque_replay"),
        ("RATTLE_KIT_C", "libc_c"),
    ] {
        let folder = std::env::var(variable).unwrap_or_else(|_| panic!("{variable} is not set: call bench/run"));
        println!("cargo::rustc-link-search=native={folder}");
        println!("cargo::rustc-link-lib=static={library}");
        println!("cargo::rerun-if-env-changed={variable}");
        println!("cargo::rerun-if-changed={folder}/lib{library}.a");
    }
    for call in ["rattle_alloc", "rattle_realloc", "rattle_dealloc"] {
        println!("cargo::rustc-link-arg=-Wl,--wrap={call}");
    }
}
