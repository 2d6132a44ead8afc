//! Links the text check, libwire_bench.a, if WIRE_BENCH_DIR names the folder that has it.

fn main() {
    println!("cargo:rerun-if-env-changed=WIRE_BENCH_DIR");
    println!("cargo:rustc-check-cfg=cfg(wire_bench)");
    if let Ok(folder) = std::env::var("WIRE_BENCH_DIR") {
        println!("cargo:rerun-if-changed={folder}/libwire_bench.a");
        println!("cargo:rustc-link-search=native={folder}");
        println!("cargo:rustc-link-lib=static=wire_bench");
        println!("cargo:rustc-cfg=wire_bench");
    }
}
