//! What the six source files want from serde_json 1.0.87 and from modules that are not among them. No answer that is compared depends on the latter:
//! they stand here so that the files compile, and panic where a reference function would reach them.

use serde_json::{Map, Number, Value};

/// `Value::as_number` of later versions of serde_json.
pub trait AsNumber {
    fn as_number(&self) -> Option<&Number>;
}

impl AsNumber for Value {
    fn as_number(&self) -> Option<&Number> {
        match self {
            Value::Number(number) => Some(number),
            _ => None,
        }
    }
}

/// `FromStr for Number` of later versions of serde_json.
pub trait ParsedNumber {
    fn parse(&self) -> Result<Number, serde_json::Error>;
}

impl ParsedNumber for String {
    fn parse(&self) -> Result<Number, serde_json::Error> {
        serde_json::from_str(self)
    }
}

pub mod validation {
    use super::{Map, Value};
    use crate::{DefinitionErrors, EntityDefinition, FieldDefinition, ObjectSchema, Semantics, ValidationError};

    pub fn apply_defaults(_: &ObjectSchema, _: &mut Map<String, Value>) {
        unreachable!("no reference function applies defaults")
    }

    pub fn validate_field_value(_: &FieldDefinition, _: &Value, _: &str, _: Semantics) -> Vec<ValidationError> {
        unreachable!("no reference function validates")
    }

    pub fn validate_object_under(_: &ObjectSchema, _: &Map<String, Value>, _: &str, _: Semantics) -> Vec<ValidationError> {
        unreachable!("no reference function validates")
    }

    pub fn validate_definition(_: &EntityDefinition) -> Result<(), DefinitionErrors> {
        unreachable!("no reference function validates")
    }

    /// No field is declared, so no element has a declaration.
    pub fn collection_element<'a>(
        _: &Value,
        _: &ObjectSchema,
        _: Option<&ObjectSchema>,
        _: impl Fn(&str) -> Option<Option<&'a FieldDefinition>>,
    ) -> Result<Option<&'a FieldDefinition>, ()> {
        Ok(None)
    }

    pub fn content_key(_: &FieldDefinition) -> &str {
        "value"
    }
}

pub mod identity {
    use super::Value;
    use crate::FieldKind;

    pub fn address(_: FieldKind, _: &Value) -> Result<String, String> {
        unreachable!("no reference function derives an address")
    }
}

pub mod timestamp {
    #[derive(PartialEq, PartialOrd)]
    pub struct Timestamp;

    pub fn parse(_: &str) -> Option<Timestamp> {
        unreachable!("`before` and `after` are not carried")
    }
}

/// A definition as the public functions want it.
#[derive(Debug)]
pub struct ValidatedDefinition(crate::EntityDefinition);

impl ValidatedDefinition {
    pub fn as_definition(&self) -> &crate::EntityDefinition {
        &self.0
    }
}

impl std::ops::Deref for ValidatedDefinition {
    type Target = crate::EntityDefinition;

    fn deref(&self) -> &crate::EntityDefinition {
        &self.0
    }
}

#[derive(Debug)]
pub struct Registry;

impl Registry {
    pub fn get(&self, _: &str, _: u32) -> Option<&ValidatedDefinition> {
        None
    }
}
