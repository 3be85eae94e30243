// Links the proved static library, which `rt lib` writes in crates/exports. For compare/before it links copies of two libraries, this tree's and an
// earlier commit's, which that command makes.
use std::env;
use std::path::Path;
use std::process::exit;

/// Links lib<name>.a of a folder; where it is missing, says what makes it, and stops.
fn link(folder: &Path, name: &str, made_by: &str) {
    let archive = folder.join(format!("lib{name}.a"));
    println!("cargo:rerun-if-changed={}", archive.display());
    if !archive.is_file() {
        eprintln!("{} is missing: {made_by}", archive.display());
        exit(1);
    }
    println!("cargo:rustc-link-search=native={}", folder.display());
    println!("cargo:rustc-link-lib=static={name}");
}

fn main() {
    if env::var_os("CARGO_FEATURE_BEFORE").is_some() {
        println!("cargo:rerun-if-env-changed=PLANNER_LIBRARIES");
        let folder = env::var("PLANNER_LIBRARIES").unwrap_or_default();
        for name in ["exports", "before"] {
            link(Path::new(&folder), name, "run compare/before, which makes it and names its folder in PLANNER_LIBRARIES");
        }
    } else {
        let folder = Path::new(env!("CARGO_MANIFEST_DIR")).join("../crates/exports/out");
        link(&folder, "exports", "run `rt lib` in crates/exports first");
    }
}
