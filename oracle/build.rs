//! Finds the original's two files and hands them to the crate where they stand, unchanged.
//!
//! WEBPKIT_SRC names the folder that holds crates/webpkit/src; the default is ../shared/docs/src beside the repository.
//! `probe` is a second copy of geometry.rs with a tail that opens its private items; the public answers come from the first.
use std::path::{Path, PathBuf};
use std::{env, fs};

const TAIL: &str = r#"
/// Opens the private items of the text above; adds nothing to it.
pub mod open {
    use super::*;
    pub fn mult_argb(p: u32, inverse: bool) -> u32 {
        super::mult_argb(p, inverse)
    }
    pub fn alpha_scale(a: u32, inverse: bool) -> u32 {
        super::alpha_scale(a, inverse)
    }
    pub fn rescale_plane(src: &[u8], n: u32, h: u32, m: u32, g: u32, lanes: u32) -> Vec<u8> {
        super::rescale_plane(src, n as i32, h as i32, lanes as usize, m as i32, g as i32)
    }
    /// A rescaler whose state can be set.
    pub struct Scaler(Rescaler);
    impl Scaler {
        /// Crop n by h to m by g, of so many lanes, with room for `rows` output rows.
        pub fn new(n: u32, h: u32, m: u32, g: u32, lanes: u32, rows: u32) -> Self {
            let whole = Rescaler::new(n as i32, h as i32, m as i32, g as i32, lanes as usize);
            let dst = vec![0; whole.dst_stride * rows as usize];
            Scaler(Rescaler { dst, ..whole })
        }
        /// The phase after u rows in and t rows out.
        pub fn set_phase(&mut self, u: u32, t: u32) {
            let r = &mut self.0;
            let first = if r.y_expand { r.y_sub } else { r.y_add };
            r.y_accum = first - u as i32 * r.y_sub + t as i32 * r.y_add;
            r.dst_y = t as i32;
        }
        pub fn rows(&mut self) -> (&mut [u32], &mut [u32]) {
            (&mut self.0.irow, &mut self.0.frow)
        }
        pub fn import_one(&mut self, row: &[u8]) -> bool {
            self.0.import(1, row, row.len()) == 1
        }
        pub fn pending(&self) -> bool {
            self.0.has_pending_output()
        }
        pub fn done(&self) -> bool {
            self.0.output_done()
        }
        pub fn grows(&self) -> bool {
            self.0.y_expand
        }
        /// Writes the next output row as row `at` of `dst`.
        pub fn export_at(&mut self, at: u32) {
            let t = self.0.dst_y;
            self.0.dst_y = at as i32;
            self.0.export_row();
            self.0.dst_y = t + 1;
        }
        /// Request 4, where the height grows and span is 1: MULT with 2^32 − 1 leaves a j below 2^31 as it is.
        pub fn count_the_factor_as_one(&mut self) {
            self.0.fy_scale = u32::MAX;
        }
        pub fn dst(&self) -> &[u8] {
            &self.0.dst
        }
    }
}
"#;

fn main() {
    println!("cargo:rerun-if-env-changed=WEBPKIT_SRC");
    println!("cargo:rerun-if-changed=build.rs");
    let here = PathBuf::from(env::var("CARGO_MANIFEST_DIR").unwrap());
    let root = env::var("WEBPKIT_SRC").map(PathBuf::from).unwrap_or(here.join("../../shared/docs/src"));
    let folder = root.join("crates/webpkit/src");
    let file = |name: &str| {
        let path = folder.join(name);
        println!("cargo:rerun-if-changed={}", path.display());
        fs::canonicalize(&path).unwrap_or_else(|e| panic!("{}: {e}; set WEBPKIT_SRC", path.display()))
    };
    let (geometry, image) = (file("geometry.rs"), file("image.rs"));
    let out = env::var("OUT_DIR").unwrap();
    let probe = Path::new(&out).join("probe.rs");
    fs::write(&probe, fs::read_to_string(&geometry).unwrap() + TAIL).unwrap();
    let module = |path: &Path, name: &str| format!("#[allow(dead_code, unused_imports)]\n#[path = {path:?}]\npub mod {name};\n");
    let text = module(&geometry, "geometry") + &module(&image, "image") + &module(&probe, "probe");
    fs::write(Path::new(&out).join("original.rs"), text).unwrap();
}
