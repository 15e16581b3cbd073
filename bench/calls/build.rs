// Links the drive's code for this machine, and the same with its names changed, from the folder that the variable LIBRARY names.
fn main() {
    println!("cargo:rerun-if-env-changed=LIBRARY");
    let folder = std::env::var("LIBRARY").expect("LIBRARY is the folder of libjhartupal.a and libseen.a: use bench/run");
    println!("cargo:rustc-link-search=native={folder}");
    for name in ["jhartupal", "seen"] {
        println!("cargo:rerun-if-changed={folder}/lib{name}.a");
        println!("cargo:rustc-link-lib=static={name}");
    }
}
