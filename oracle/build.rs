//! Takes the Rust functions out of ../shared/docs/src at build time, and finds out which
//! `vx_` calls an archive offers. README.md lists every function taken and every change.

use std::env;
use std::fs;
use std::path::{Path, PathBuf};
use std::process::Command;

pub fn main() {
    let here = PathBuf::from(env::var("CARGO_MANIFEST_DIR").unwrap());
    let out = PathBuf::from(env::var("OUT_DIR").unwrap());
    println!("cargo:rerun-if-changed=build.rs");
    println!("cargo:rerun-if-env-changed=VOLMEIXI_SHARED");
    println!("cargo:rerun-if-env-changed=VOLMEIXI_ARCHIVE");
    extract(&shared(&here).join("docs/src/faer/src"), &out);
    link_archive(&here);
}

/// The folder `shared`: VOLMEIXI_SHARED, else beside the repository.
fn shared(here: &Path) -> PathBuf {
    let dir = match env::var("VOLMEIXI_SHARED") {
        Ok(dir) => PathBuf::from(dir),
        Err(_) => here.join("../../shared"),
    };
    assert!(dir.is_dir(), "{} is not there: the oracle cannot be built", dir.display());
    dir
}

/// What `&a - &b` needs with `T: RealField`, put after each signature.
const LENT: &str = "where for<'x> &'x T: Ops<T>";
/// The same where only `T: ComplexField` is known.
const LENT_REAL: &str = "where for<'x> &'x T::Real: Ops<T::Real>";

/// Writes one file for each module of src/taken.rs.
fn extract(src: &Path, out: &Path) {
    let jacobi = Source::read(src, "linalg/jacobi.rs");
    let (head, methods) = (jacobi.structure("JacobiRotation"), jacobi.functions(&["rotg", "adjoint"], ""));
    write(out, "jacobi.rs", &format!("{head}\nimpl<T: RealField> JacobiRotation<T> {LENT} {{\n{methods}}}\n"));

    let house = Source::read(src, "linalg/householder.rs");
    let functions = house.functions(&["make_householder_imp", "make_householder_in_place"], LENT);
    write(out, "householder.rs", &(house.structure("HouseholderInfo") + &functions));

    let schur = Source::read(src, "linalg/evd/schur/real_schur.rs");
    let leaves = ["lasy2", "lahqr_schur22", "schur_swap_11", "schur_swap_12", "schur_swap_21", "schur_swap_22"];
    write(out, "leaves.rs", &schur.functions(&leaves, LENT));
    write(out, "real_schur.rs", &schur.functions(&["schur_swap"], LENT));

    let eigen = Source::read(src, "operator/eigen/mod.rs");
    let text = eigen.functions(&["schur_swap"], LENT_REAL) + &noted(&eigen.functions(&["reorder_schur"], LENT_REAL));
    write(out, "eigen.rs", &text);
    let whole = eigen.functions(&["partial_schur_real_imp"], "");
    write(out, "block_values.rs", &block_values(&whole));

    let evd = Source::read(src, "linalg/evd/mod.rs");
    let names = [
        "dot2x1",
        "dot2x2",
        "evd_from_real_schur_imp",
        "solve_real_shifted_upper_quasi_triangular_system",
        "solve_cplx_shifted_upper_quasi_triangular_system",
    ];
    write(out, "evd.rs", &evd.functions(&names, LENT));
}

/// `reorder_schur` with notes put in: the row where it leaves off, and each split.
fn noted(text: &str) -> String {
    let text = replace(text, "return;", "note::here(ifst); return;", 1);
    let text = replace(&text, "break;", "note::here(here); break;", 2);
    replace(&text, "nbf = 3;", "nbf = 3; note::split();", 2)
}

/// The last loop of `partial_schur_real_imp`, which writes the values, under a head of ours.
fn block_values(text: &str) -> String {
    let at = text.rfind("while ").expect("a loop");
    let body = &text[at..at + closing(&text[at..])];
    let head = "pub fn block_values<T: RealField>(H: MatRef<'_, T>, V: MatRef<'_, T>, \
        eigvals: &mut [Complex<T>], eigvecs: MatMut<'_, Complex<T>>)";
    let set = "let (n, limit, perm) = (H.nrows(), H.nrows(), &ROWS); \
        let mut eigvecs = eigvecs; let mut idx = 0usize;";
    format!("{head} {LENT} {{\n{set}\n{body}\n}}\n")
}

/// Replaces `from`, which must be there exactly `count` times.
fn replace(text: &str, from: &str, to: &str, count: usize) -> String {
    assert_eq!(text.matches(from).count(), count, "`{from}` expected {count} times");
    text.replace(from, to)
}

fn write(out: &Path, name: &str, text: &str) {
    fs::write(out.join(name), text).unwrap();
}

/// One file of the Rust.
struct Source {
    name: String,
    text: String,
}

impl Source {
    fn read(dir: &Path, name: &str) -> Source {
        let path = dir.join(name);
        println!("cargo:rerun-if-changed={}", path.display());
        let text = fs::read_to_string(&path).unwrap_or_else(|e| panic!("{}: {e}", path.display()));
        Source { name: name.to_string(), text }
    }

    /// The named functions, from `fn` to the closing brace, each made `pub`, with a bound after the signature.
    fn functions(&self, names: &[&str], bound: &str) -> String {
        let taken = |name: &&str| self.item("fn", name, &['<', '(']).replacen('{', &format!("{bound} {{"), 1);
        names.iter().map(taken).collect::<String>().replace("const { T::IS_REAL }", "T::IS_REAL")
    }

    fn structure(&self, name: &str) -> String {
        self.item("struct", name, &['<', ' '])
    }

    fn item(&self, kind: &str, name: &str, next: &[char]) -> String {
        let start = |c: &char| format!("{kind} {name}{c}");
        let found: Vec<usize> =
            next.iter().flat_map(|c| self.text.match_indices(&start(c)).map(|m| m.0).collect::<Vec<_>>()).collect();
        assert_eq!(found.len(), 1, "{}: `{kind} {name}` expected once", self.name);
        let text = &self.text[found[0]..];
        format!("pub {}\n", &text[..closing(text)])
    }
}

/// The place after the brace that closes the first one opened; comments and strings are passed over.
fn closing(text: &str) -> usize {
    let bytes = text.as_bytes();
    let (mut depth, mut i) = (0, 0);
    while i < bytes.len() {
        match bytes[i] {
            b'/' if bytes[i + 1] == b'/' => i += text[i..].find('\n').unwrap(),
            b'"' => i += 1 + text[i + 1..].find('"').unwrap(),
            b'{' => depth += 1,
            b'}' if depth == 1 => return i + 1,
            b'}' => depth -= 1,
            _ => {}
        }
        i += 1;
    }
    panic!("a brace is not closed");
}

/// Links VOLMEIXI_ARCHIVE, if given, and sets `cfg(vx_NAME)` for each call it defines.
fn link_archive(here: &Path) {
    let path = match env::var("VOLMEIXI_ARCHIVE") {
        Ok(path) => path,
        Err(_) => return,
    };
    let path = fs::canonicalize(here.join(&path)).unwrap_or_else(|e| panic!("VOLMEIXI_ARCHIVE {path}: {e}"));
    println!("cargo:rerun-if-changed={}", path.display());
    let listed = Command::new("nm").arg("-g").arg("--defined-only").arg(&path).output().expect("nm");
    assert!(listed.status.success(), "nm cannot read {}", path.display());
    let listed = String::from_utf8_lossy(&listed.stdout).into_owned();
    let names = listed.lines().filter_map(|line| line.split_whitespace().last());
    for name in names.filter(|name| name.starts_with("vx_")) {
        println!("cargo:rustc-cfg={name}");
    }
    println!("cargo:rustc-link-arg={}", path.display());
}
