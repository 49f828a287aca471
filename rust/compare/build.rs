//! Hands the folder of libexports.a on to the tests.

fn main() {
    let folder = std::env::var("DEP_EXPORTS_FOLDER").expect("set by the build of zagvirk");
    println!("cargo:rustc-env=EXPORTS_FOLDER={folder}");
}
