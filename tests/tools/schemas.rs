use openapiv3::{OpenAPI, ReferenceOr, Schema, SchemaKind, Type};

/// Adds the location of a schema without a title, and those inside it.
fn collect(location: &str, schema: &Schema, found: &mut Vec<String>) {
    if schema.schema_data.title.is_none() {
        found.push(location.to_string());
    }
    match &schema.schema_kind {
        SchemaKind::Type(Type::Object(object)) => {
            for (name, property) in &object.properties {
                if let ReferenceOr::Item(schema) = property {
                    collect(&format!("{location}/properties/{name}"), schema, found);
                }
            }
        }
        SchemaKind::Type(Type::Array(array)) => {
            if let Some(ReferenceOr::Item(schema)) = &array.items {
                collect(&format!("{location}/items"), schema, found);
            }
        }
        SchemaKind::OneOf { one_of: all } | SchemaKind::AllOf { all_of: all } | SchemaKind::AnyOf { any_of: all } => {
            for (index, item) in all.iter().enumerate() {
                if let ReferenceOr::Item(schema) = item {
                    collect(&format!("{location}/{index}"), schema, found);
                }
            }
        }
        _ => {}
    }
}

/// Returns the location of each schema without a title among the components: those of operations need as much again.
pub fn untitled_schemas(document: &OpenAPI) -> Vec<String> {
    let mut found = Vec::new();
    for components in &document.components {
        for (name, item) in &components.schemas {
            if let ReferenceOr::Item(schema) = item {
                collect(&format!("/components/schemas/{name}"), schema, &mut found);
            }
        }
    }
    found
}
