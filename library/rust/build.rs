//! Links target/staticlib/libjolmuqter.a, which `library/build` writes.
fn main() {
  let folder = format!("{}/../../target/staticlib", std::env::var("CARGO_MANIFEST_DIR").unwrap());
  println!("cargo:rerun-if-changed={folder}/libjolmuqter.a");
  println!("cargo:rustc-link-search=native={folder}");
  println!("cargo:rustc-link-lib=static=jolmuqter");
}
