//! Links the programs that call C entries, each with the library whose entries it calls, from the folder
//! in VERMOLGAS_LIB or where `tools/build` puts it. The others are built without one.

use std::env;
use std::path::PathBuf;

/// The libraries, and who calls them.
const CALLERS: [(&str, &[&str]); 2] = [
    (
        "libvermolgas.a",
        &[
            "compare_packets",
            "compare_sessions",
            "compare_planning",
            "compare_gains",
            "bench_front_end",
            "bench_planning",
            "bench_gains",
        ],
    ),
    ("librising.a", &["compare_rising", "bench_rising"]),
];

fn main() {
    let folder = env::var_os("VERMOLGAS_LIB").map_or_else(
        || PathBuf::from(env::var_os("CARGO_MANIFEST_DIR").unwrap()).join("../../target/staticlib"),
        PathBuf::from,
    );
    println!("cargo:rerun-if-env-changed=VERMOLGAS_LIB");
    for (name, callers) in CALLERS {
        let library = folder.join(name);
        println!("cargo:rerun-if-changed={}", library.display());
        for caller in callers {
            println!("cargo:rustc-link-arg-bin={caller}={}", library.display());
        }
    }
}
