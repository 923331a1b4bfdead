// Shim: free variables of action types; no table has any.
use crate::grammar::repr::{TypeParameter, TypeRepr};

pub trait FreeVariables {
    fn free_variables(&self, type_parameters: &[TypeParameter]) -> Vec<TypeParameter>;
}

impl FreeVariables for TypeRepr {
    fn free_variables(&self, _: &[TypeParameter]) -> Vec<TypeParameter> {
        unreachable!("a table has no action types")
    }
}
