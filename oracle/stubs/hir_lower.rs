//! Stands where cyrs-hir has its own module `lower`, which goes from a syntax
//! tree to the statement tree. The comparison starts from the statement tree,
//! so neither function is ever called.

pub fn lower_parse(
    _parse: &cyrs_syntax::Parse,
) -> Result<crate::Statement, crate::HirLowerError> {
    unimplemented!("no syntax tree in this comparison")
}

pub fn lower_statement(_text: &str) -> Result<crate::Statement, crate::HirLowerError> {
    unimplemented!("no syntax tree in this comparison")
}
