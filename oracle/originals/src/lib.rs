//! The six files of sarpro, unchanged, in the modules that they expect. Private functions are reached by accessors that stand
//! in the same module as the file.
#![allow(dead_code, clippy::all)]

include!(concat!(env!("OUT_DIR"), "/types.rs"));

pub use types::{AutoscaleStrategy, BitDepth};

pub mod core {
    pub mod processing {
        pub mod ops {
            include!(env!("ORIGINAL_OPS"));
        }
        pub mod padding {
            include!(env!("ORIGINAL_PADDING"));
        }
        pub mod pipeline {
            include!(env!("ORIGINAL_PIPELINE"));
        }
        pub mod synthetic_rgb {
            include!(env!("ORIGINAL_SYNTHETIC_RGB"));
        }
        pub mod autoscale {
            include!(env!("ORIGINAL_AUTOSCALE"));

            /// `compute_histogram_stats`: the count and the fifteen floats in the order of the record.
            pub fn histogram_stats(db: &Array2<f64>, valid_mask: &[bool]) -> (usize, [f64; 15]) {
                let s = compute_histogram_stats(db, valid_mask);
                let floats = [
                    s.min_db, s.max_db, s.mean_db, s.std_db, s.median_db, s.p01, s.p02, s.p05, s.p10, s.p25, s.p75, s.p90, s.p95, s.p98,
                    s.p99,
                ];
                (s.valid_count, floats)
            }

            /// `clahe_equalize_normalized` as `autoscale_db_image_advanced` calls it.
            pub fn clahe_equalize(norm: &Array2<f64>, valid_mask: &[bool]) -> Array2<f64> {
                clahe_equalize_normalized(norm, valid_mask, 8, 8, 2.0, 256)
            }
        }
    }
}

pub mod tiles;
