//! Tells the linker where the library is: in the folder that VINJAKWE_LIB names, or where pkg-config says, or where it
//! looks itself. This crate's tests and examples find the shared library there when they run, too. Of the crates that
//! depend on it the build scripts are told of the folder, in DEP_VINJAKWE_LIB. Of the header beside the library, or of
//! the repository's, it makes the declarations of the module `c`.
use std::path::{Path, PathBuf};
use std::process::Command;
use std::{env, fs};

fn from_pkg_config() -> Option<PathBuf> {
    let said = Command::new("pkg-config").args(["--variable=libdir", "vinjakwe"]).output().ok()?.stdout;
    let folder = String::from_utf8(said).ok()?;
    (!folder.trim().is_empty()).then(|| folder.trim().into())
}

/// The type of a name as `uint8_t`, `size_t` or `tpm_part`.
fn type_of(name: &str) -> String {
    match name {
        "size_t" => "usize".into(),
        "void" => "()".into(),
        _ => name
            .strip_prefix("uint")
            .and_then(|it| it.strip_suffix("_t"))
            .map_or(name.into(), |bits| format!("u{bits}")),
    }
}

/// A field or a parameter as `uint32_t handles[2]` or `const uint8_t *bytes`.
fn variable(text: &str) -> String {
    let words: Vec<&str> = text
        .split([' ', '\n', '*', '[', ']'])
        .filter(|it| !matches!(*it, "" | "const" | "struct"))
        .collect();
    let kind = match words[..] {
        [kind, _, count] => format!("[{}; {count}]", type_of(kind)),
        _ if text.contains("const ") => format!("*const {}", type_of(words[0])),
        _ if text.contains('*') => format!("*mut {}", type_of(words[0])),
        _ => type_of(words[0]),
    };
    format!("r#{}: {kind}", words[1])
}

/// The constant of a line as `#define TPM_CC_Startup ((uint32_t)0x144)` or `#define TPM_BUFFER_BYTES 4096`.
fn constant(line: &str) -> Option<String> {
    let (name, value) = line.strip_prefix("#define ").filter(|it| it.starts_with("TPM_"))?.split_once(' ')?;
    let (kind, value) = value.trim().strip_prefix("((").and_then(|it| it.split_once(')')).unwrap_or(("size_t", value));
    Some(format!("pub const {name}: {} = {};\n", type_of(kind), value.trim_end_matches(')')))
}

/// A structure by its name and the text between its braces.
fn structure(name: &str, body: &str) -> String {
    let fields: String = body
        .lines()
        .filter_map(|it| it.trim().strip_suffix(';'))
        .map(|it| format!("pub {}, ", variable(it)))
        .collect();
    // Zeros are numbers, and a structure of the header has nothing else.
    let zeros = format!("impl Default for {name} {{ fn default() -> Self {{ unsafe {{ core::mem::zeroed() }} }} }}");
    format!("#[repr(C)] #[derive(Clone, Copy)] pub struct {name} {{ {fields}}}\n{zeros}\n")
}

/// A function by its head, as `size_t tpm_device_size(void)`, or a state, whose bytes are the library's alone.
fn function(head: &str) -> String {
    let Some((function, words)) = head.split_once('(') else {
        return format!("pub type {} = u8;\n", head.trim_start_matches("struct "));
    };
    let (kind, name) = function.split_once(' ').expect("a type and a name");
    let words: Vec<String> = words.trim_end_matches(')').split(',').filter(|it| *it != "void").map(variable).collect();
    format!("extern \"C\" {{ pub fn {name}({}) -> {}; }}\n", words.join(", "), type_of(kind))
}

/// The declarations of a header: its numbers, structures, states and functions.
fn declarations(header: &str) -> String {
    let code: String = header.split("/*").map(|it| it.split_once("*/").map_or(it, |(_, code)| code)).collect();
    let (defined, declared): (Vec<&str>, Vec<&str>) = code.lines().partition(|it| it.starts_with('#'));
    let mut made: String = defined.into_iter().filter_map(constant).collect();
    let declared = declared.join("\n").replace("extern \"C\" {", "");
    let mut rest = declared.as_str();
    while let Some(end) = rest.find([';', '{']) {
        let head = rest[..end].trim();
        let body = rest[end..].strip_prefix('{').and_then(|it| it.split_once("};"));
        rest = body.map_or(&rest[end + 1..], |(_, after)| after);
        made += &body.map_or_else(|| function(head), |(body, _)| structure(head.trim_start_matches("struct "), body));
    }
    made
}

fn main() {
    println!("cargo:rerun-if-env-changed=VINJAKWE_LIB");
    let library = env::var_os("VINJAKWE_LIB").map(PathBuf::from).or_else(from_pkg_config);
    let kind = if env::var_os("CARGO_FEATURE_STATIC").is_some() { "static" } else { "dylib" };
    println!("cargo:rustc-link-lib={kind}=vinjakwe");
    if let Some(folder) = library.as_deref().map(Path::display) {
        println!("cargo:rustc-link-search=native={folder}");
        println!("cargo:rustc-link-arg=-Wl,-rpath,{folder}");
        println!("cargo:lib={folder}");
    }
    let installed = library.map(|it| it.join("../include/vinjakwe.h")).filter(|it| it.exists());
    let header = installed.unwrap_or_else(|| "../../include/vinjakwe.h".into());
    println!("cargo:rerun-if-changed={}", header.display());
    let text = fs::read_to_string(&header).expect("vinjakwe.h is neither beside the library nor in the repository");
    let version = concat!("#define VINJAKWE_VERSION \"", env!("CARGO_PKG_VERSION"), "\"");
    assert!(text.lines().any(|it| it == version), "{} has another version than this crate", header.display());
    let out = env::var_os("OUT_DIR").expect("cargo names the folder");
    fs::write(Path::new(&out).join("declarations.rs"), declarations(&text)).expect("the declarations are written");
}
