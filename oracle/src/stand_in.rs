//! Stands in for what the Rust imports from crates that are not at hand, as far as it needs to compile.
//! Scopes are built by their own calls here, so values and types are never made.
#![allow(dead_code)]

pub use crate::rust::names::Name;
pub use crate::rust::{bif, bip};
use std::collections::BTreeMap;

pub type Result<T, E = DsntkError> = std::result::Result<T, E>;

/// An error is its message.
#[derive(Debug)]
pub struct DsntkError(pub String);

pub trait ToErrorMessage {}

pub trait Jsonify {
    fn jsonify(&self) -> String;
}

pub enum FeelType {
    Any,
    Number,
    List(Box<FeelType>),
    Context(BTreeMap<Name, FeelType>),
    Function(Vec<FeelType>, Box<FeelType>),
}

pub struct FeelScope;

impl FeelScope {
    pub fn contexts(&self) -> Vec<context::FeelContext> {
        vec![]
    }
}

pub mod context {
    use super::*;

    pub struct FeelContext(BTreeMap<Name, values::Value>);

    impl FeelContext {
        pub fn iter(&self) -> impl Iterator<Item = (&Name, &values::Value)> {
            self.0.iter()
        }
    }
}

pub mod values {
    use super::*;

    pub enum Value {
        Null,
        Context(context::FeelContext),
        List(Vec<Value>),
        FeelType(super::FeelType),
    }

    impl Value {
        pub fn type_of(&self) -> super::FeelType {
            super::FeelType::Any
        }
    }
}

pub mod errors {
    pub fn err_unknown_function_name(name: &str) -> super::DsntkError {
        super::DsntkError(format!("unknown function name: {name}"))
    }
}
