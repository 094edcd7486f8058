//! Stands for openjp2's `function_list`, which is not among the files given: the type of a field only.

use std::marker::PhantomData;

#[derive(Clone, Default)]
pub(crate) struct ProcedureList<P>(PhantomData<P>);
