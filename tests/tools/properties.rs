use openapiv3::{OpenAPI, ReferenceOr, Schema, SchemaKind, Type};

/// Returns the schema to which a reference leads.
fn component<'a>(document: &'a OpenAPI, reference: &'a str) -> Option<&'a Schema> {
    let mut name = reference.strip_prefix("#/components/schemas/")?;
    let schemas = &document.components.as_ref()?.schemas;
    for _ in 0..=schemas.len() {
        match schemas.get(name)? {
            ReferenceOr::Item(schema) => return Some(schema),
            ReferenceOr::Reference { reference } => name = reference.strip_prefix("#/components/schemas/")?,
        }
    }
    None
}

/// Returns the name and the title of each property of the schema to which a reference leads.
pub fn properties_of(document: &OpenAPI, reference: &str) -> Option<Vec<String>> {
    let mut found = Vec::new();
    if let SchemaKind::Type(Type::Object(object)) = &component(document, reference)?.schema_kind {
        for (name, property) in &object.properties {
            let property = match property {
                ReferenceOr::Item(schema) => schema,
                ReferenceOr::Reference { reference } => component(document, reference)?,
            };
            let title = property.schema_data.title.as_deref().unwrap_or("");
            found.push(format!("{name}: {title}"));
        }
    }
    Some(found)
}
