//! In place of the Rust's report.rs, which was not published: hardware.rs declares the module, and nothing here uses it.
