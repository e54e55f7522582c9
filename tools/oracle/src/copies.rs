//! The modules of the Rust as build.rs copied them into one of its directories.

macro_rules! rust_copied_to {
    ($directory:literal) => {
        #[allow(warnings)]
        mod circuit {
            include!(concat!(env!("OUT_DIR"), "/", $directory, "/circuit.rs"));
        }
        #[allow(warnings)]
        mod lut {
            include!(concat!(env!("OUT_DIR"), "/", $directory, "/lut.rs"));
        }
        #[allow(warnings)]
        mod mapper {
            include!(concat!(env!("OUT_DIR"), "/", $directory, "/mapper.rs"));
        }
    };
}
