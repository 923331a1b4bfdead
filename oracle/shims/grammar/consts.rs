// Shim: names of attributes; no table reaches them.
pub const INPUT_LIFETIME: &str = "'input";
pub const LALR: &str = "LALR";
pub const TABLE_DRIVEN: &str = "table_driven";
pub const RECURSIVE_ASCENT: &str = "recursive_ascent";
pub const TEST_ALL: &str = "test_all";
