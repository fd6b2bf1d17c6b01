//! Where libslp.a is: SLP_LIB_DIR, or target/staticlib of the repository.

use std::{env, path::Path};

fn main() {
	println!("cargo:rerun-if-env-changed=SLP_LIB_DIR");
	let here = env::var("CARGO_MANIFEST_DIR").unwrap();
	let dir = env::var("SLP_LIB_DIR").unwrap_or_else(|_| format!("{here}/../../target/staticlib"));
	let lib = Path::new(&dir).join("libslp.a");
	println!("cargo:rerun-if-changed={}", lib.display());
	assert!(lib.exists(), "{} is missing: build the library, or set SLP_LIB_DIR", lib.display());
	println!("cargo:rustc-link-search=native={dir}");
	println!("cargo:rustc-link-lib=static=slp");
}
