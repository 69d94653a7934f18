//! Takes in the recipe for sine, cosine and the arcs: the file that TRIG_RECIPE names, else
//! oracle/recipes/trig.rs, else one that is never asked.
use std::path::Path;
use std::{env, fs};

const NO_RECIPE: &str = "// no recipe\n\
    pub fn sin(_: f64) -> f64 { unreachable!() }\n\
    pub fn cos(_: f64) -> f64 { unreachable!() }\n\
    pub fn asin(_: f64) -> f64 { unreachable!() }\n\
    pub fn acos(_: f64) -> f64 { unreachable!() }\n";

fn main() {
    let here = env::var("CARGO_MANIFEST_DIR").unwrap();
    let standard = Path::new(&here).join("../recipes/trig.rs");
    println!("cargo:rerun-if-env-changed=TRIG_RECIPE");
    println!("cargo:rerun-if-changed=build.rs");
    println!("cargo:rerun-if-changed=../recipes");
    let text = if let Ok(path) = env::var("TRIG_RECIPE") {
        println!("cargo:rerun-if-changed={path}");
        fs::read_to_string(&path).expect("TRIG_RECIPE names a file")
    } else {
        fs::read_to_string(&standard).unwrap_or(NO_RECIPE.into())
    };
    let out = env::var("OUT_DIR").unwrap();
    fs::write(Path::new(&out).join("recipe.rs"), text).unwrap();
}
