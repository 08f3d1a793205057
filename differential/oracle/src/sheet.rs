//! A sheet as the Rust's own definitions: member for member, by serde.

use crate::{
    Condition, CreateDefinition, EntityDefinition, LifecycleDefinition, NumberObservation, ObjectSchema, OperationDefinition, OutcomeDefinition,
    RuleDefinition, Semantics,
};
use serde::Deserialize;
use serde_json::{Map, Value};

#[derive(Deserialize)]
#[serde(deny_unknown_fields)]
struct Members {
    entity: String,
    version: u32,
    to_state: String,
    args: Map<String, Value>,
    fields: Map<String, Value>,
    old_fields: Map<String, Value>,
    states: Vec<String>,
    preconditions: Vec<RuleDefinition>,
    invariants: Vec<RuleDefinition>,
    outcomes: Vec<OutcomeDefinition>,
    id: Option<String>,
    from_state: Option<String>,
    state: Option<String>,
    condition: Option<Condition>,
}

pub struct Sheet {
    pub definition: EntityDefinition,
    pub operation: OperationDefinition,
    pub condition: Option<Condition>,
    pub id: Option<String>,
    pub args: Map<String, Value>,
    pub fields: Map<String, Value>,
    pub old_fields: Map<String, Value>,
    pub from_state: Option<String>,
    pub to_state: String,
    pub state: Option<String>,
}

impl Sheet {
    pub fn read(text: &str) -> Result<Self, serde_json::Error> {
        let members: Members = serde_json::from_str(text)?;
        Ok(Self {
            definition: EntityDefinition {
                entity: members.entity,
                version: members.version,
                schema: ObjectSchema::default(),
                lifecycle: LifecycleDefinition { initial: String::new(), states: members.states },
                invariants: members.invariants,
                create: CreateDefinition::default(),
                operations: Default::default(),
                projections: Default::default(),
                semantics: Semantics::Kernel1,
                identity: None,
                relations: Default::default(),
                scales: Default::default(),
                number_observation: NumberObservation::default(),
            },
            operation: OperationDefinition {
                arguments: ObjectSchema::default(),
                transitions: Vec::new(),
                preconditions: members.preconditions,
                set: Default::default(),
                emits: Vec::new(),
                response: ObjectSchema::default(),
                outcomes: members.outcomes,
            },
            condition: members.condition,
            id: members.id,
            args: members.args,
            fields: members.fields,
            old_fields: members.old_fields,
            from_state: members.from_state,
            to_state: members.to_state,
            state: members.state,
        })
    }
}
