//! Cuts the published functions, by name and unchanged, out of the Rust source that lies beside the
//! repository, so that they can be compiled as the oracle. Without that source there is no oracle.
use std::{env, fs, path::Path};

/// File, and the first words of each item that is taken from it.
const CUTS: [(&str, &[&str]); 6] = [
    ("ad/scalar.rs", &["pub trait Scalar:"]),
    (
        "pricers/fixedincome/bondevents.rs",
        &["pub struct CallStep", "impl CallStep", "pub struct BondEventGrid<T>", "fn call_principal(", "pub fn bond_event_grid<T: Scalar>("],
    ),
    ("models/hullwhite/parameters.rs", &["pub fn transition_variances<T: Scalar>(", "pub fn hull_white_piecewise_variance<T: Scalar>("]),
    (
        "pricers/fixedincome/treebasedbondpricer.rs",
        &["struct Transition<T: Scalar>", "type TransitionLayers<T>", "fn lattice_transitions<T: Scalar>(", "pub fn lattice_value<T: Scalar>("],
    ),
    ("pricers/fixedincome/bondpricer.rs", &["pub(super) struct ResolvedCashflow<T>", "pub(super) struct BondValuation<'a, T: Scalar>", "pub(super) fn discounted_value<T: Scalar>("]),
    (
        "pricers/fixedincome/bondanalytics.rs",
        &["pub(super) fn bracketed_root(", "fn yield_discount_and_derivative(", "pub(super) fn yield_price_and_derivative(", "pub(super) fn solve_yield("],
    ),
];

/// The item that starts with these words, with the comments and attributes right above it.
fn cut<'a>(text: &'a str, words: &str) -> &'a str {
    let at = text.find(&format!("\n{words}")).unwrap_or_else(|| panic!("no `{words}` in the source")) + 1;
    let mut start = at;
    loop {
        let above = text[..start - 1].rfind('\n').map_or(0, |i| i + 1);
        let line = &text[above..start - 1];
        let belongs = line.starts_with("///") || line.starts_with("#[") || line.starts_with("    clippy::") || line == ")]";
        if !belongs {
            break;
        }
        start = above;
    }
    let mut depth = 0;
    for (i, c) in text[at..].char_indices() {
        match c {
            '{' => depth += 1,
            '}' if depth == 1 => return &text[start..at + i + 1],
            '}' => depth -= 1,
            ';' if depth == 0 => return &text[start..at + i + 1],
            _ => {}
        }
    }
    panic!("`{words}` does not end")
}

fn main() {
    println!("cargo:rustc-check-cfg=cfg(published)");
    println!("cargo:rerun-if-changed=build.rs");
    let root = Path::new(env!("CARGO_MANIFEST_DIR")).join("../../../shared/docs/src/src");
    let out = Path::new(&env::var("OUT_DIR").unwrap()).join("published.rs");
    if !root.exists() {
        println!("cargo:warning=the published source is not beside the repository: no oracle");
        fs::write(out, "").unwrap();
        return;
    }
    let mut all = String::new();
    for (file, items) in CUTS {
        let path = root.join(file);
        println!("cargo:rerun-if-changed={}", path.display());
        let text = fs::read_to_string(&path).unwrap();
        for words in items {
            let piece = cut(&text, words);
            assert!(text.contains(piece), "a cut is a contiguous piece of its file");
            all.push_str(piece);
            all.push('\n');
        }
    }
    fs::write(out, all).unwrap();
    println!("cargo:rustc-cfg=published");
}
