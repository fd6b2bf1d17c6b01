//! Compiles the plain C walk and mask that the library's are held against.

use std::{env, path::Path, process::Command};

fn main() {
	println!("cargo:rerun-if-changed=src/plain.c");
	let out = env::var("OUT_DIR").unwrap();
	let object = Path::new(&out).join("plain.o");
	run(&env::var("CC").unwrap_or("gcc".into()), &["-O2", "-c", "src/plain.c", "-o", object.to_str().unwrap()]);
	run(&env::var("AR").unwrap_or("ar".into()), &["rcs", &format!("{out}/libplain.a"), object.to_str().unwrap()]);
	println!("cargo:rustc-link-search=native={out}");
	println!("cargo:rustc-link-lib=static=plain");
}

fn run(program: &str, arguments: &[&str]) {
	let status = Command::new(program).args(arguments).status().unwrap();
	assert!(status.success(), "{program} {arguments:?}");
}
