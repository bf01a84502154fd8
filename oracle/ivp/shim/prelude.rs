//! Stands in for the absent src/prelude.rs.
