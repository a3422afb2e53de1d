//! Links the proved library: `bench/run` says where it and the kit's C code lie.
use std::env;

fn main() {
    for name in ["BENCH_STATICLIB", "BENCH_KIT_LIB"] {
        println!("cargo:rerun-if-env-changed={name}");
        let folder = env::var(name).unwrap_or_else(|_| panic!("{name} is not set: start the benchmark by bench/run"));
        println!("cargo:rustc-link-search=native={folder}");
        println!("cargo:rerun-if-changed={folder}");
    }
    println!("cargo:rustc-link-lib=static=exports");
    println!("cargo:rustc-link-lib=static=libc_c");
}
