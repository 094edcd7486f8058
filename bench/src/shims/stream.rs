//! Stands for openjp2's `stream`, which is not among the files given: the type of a field only.

pub(crate) struct StreamInner;
