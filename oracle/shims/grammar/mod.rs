// Shim: names of the published modules and of the three shims beside them.
pub mod consts;
pub mod free_variables;
pub mod parse_tree;
pub mod pattern;
pub mod repr;
