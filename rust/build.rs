//! Links the proved archive, `libl1oc.a`, from the folder where `rt lib` in crates/l1oc puts it, and takes the limits, the sizes and the
//! numbers of the enums from the header.

use std::env;
use std::fs;
use std::path::PathBuf;

fn main() {
    let path = |name| PathBuf::from(env::var_os(name).expect("set by cargo"));
    let root = path("CARGO_MANIFEST_DIR").join("..");

    let folder = root.join("crates/l1oc/out");
    let library = folder.join("libl1oc.a");
    println!("cargo:rerun-if-changed={}", library.display());
    println!("cargo:rustc-link-search=native={}", folder.display());
    println!("cargo:rustc-link-lib=static=l1oc");

    let header = root.join("include/l1oc.h");
    println!("cargo:rerun-if-changed={}", header.display());
    let header = fs::read_to_string(header).expect("include/l1oc.h");
    fs::write(path("OUT_DIR").join("header.rs"), constants(&header)).expect("header.rs");
}

/// Each `#define L1OC_NAME SIZE`, and each `L1OC_NAME = NUMBER` in a module of its enum's name, without the prefix, as a constant.
fn constants(header: &str) -> String {
    let (mut sizes, mut enums) = (String::new(), String::new());
    let mut inside = false;
    for line in header.lines() {
        if let Some((name, size)) = entry(line, "#define L1OC_", " ") {
            let size = size.replace("L1OC_", "");
            sizes += &format!("pub const {name}: usize = {size};\n");
        }
        if let Some((name, _)) = entry(line, "enum l1oc_", " {") {
            enums += &format!("\n/// The numbers of `enum l1oc_{name}`.\npub mod {name} {{\n");
            inside = true;
        }
        if let Some((name, rest)) = entry(line, "    L1OC_", " = ") {
            let number: String = rest.chars().take_while(char::is_ascii_digit).collect();
            enums += &format!("    pub const {name}: u64 = {number};\n");
        }
        if inside && line == "};" {
            enums += "}\n";
            inside = false;
        }
    }
    sizes + &enums
}

/// The name and what comes after it.
fn entry<'a>(line: &'a str, prefix: &str, between: &str) -> Option<(&'a str, &'a str)> {
    line.strip_prefix(prefix)?.split_once(between)
}
