//! The oracle: the Rust of betula-cluster with document 01's stand-ins and questions, and what compares, feeds and
//! times it. `assemble.sh` copies the Rust to target/oracle/rust.

#[path = "../../../target/oracle/rust/adwin.rs"]
#[allow(dead_code)]
pub mod adwin;
#[path = "../../../target/oracle/rust/counting.rs"]
pub mod counting;
#[path = "../../../target/oracle/rust/feature.rs"]
#[allow(dead_code)]
pub mod feature;
#[path = "../../../target/oracle/rust/kernels.rs"]
#[allow(dead_code)]
mod kernels;
#[path = "../own/linalg.rs"]
mod linalg;
#[path = "../own/standins.rs"]
pub mod standins;
#[path = "../../../target/oracle/rust/stream.rs"]
#[allow(dead_code)]
pub mod stream;
#[path = "../../../target/oracle/rust/types.rs"]
mod types;

pub mod machine;
pub mod points;
pub mod random;
pub mod record;
pub mod scripts;
pub mod sessions;
pub mod text;
