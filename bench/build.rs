//! Links librecorder.a from the folder that RECORDER_LIB_DIR names.

fn main() {
    println!("cargo::rerun-if-env-changed=RECORDER_LIB_DIR");
    let folder = std::env::var("RECORDER_LIB_DIR")
        .expect("RECORDER_LIB_DIR names the folder of librecorder.a");
    println!("cargo::rerun-if-changed={folder}/librecorder.a");
    println!("cargo::rustc-link-search=native={folder}");
    println!("cargo::rustc-link-lib=static=recorder");
}
