use indexmap::IndexMap;
use openapiv3::*;

/// Returns a map of one entry.
fn map_of<T>(name: &str, value: T) -> IndexMap<String, T> {
    IndexMap::from([(name.to_string(), value)])
}

/// Returns a document with one operation.
pub fn pets() -> OpenAPI {
    let id = Parameter::Path {
        parameter_data: ParameterData {
            name: "id".to_string(),
            description: None,
            required: true,
            deprecated: None,
            format: ParameterSchemaOrContent::Schema(ReferenceOr::Item(Schema {
                schema_data: SchemaData::default(),
                schema_kind: SchemaKind::Type(Type::Integer(IntegerType::default())),
            })),
            example: None,
            examples: IndexMap::new(),
            explode: None,
            extensions: IndexMap::new(),
        },
        style: PathStyle::Simple,
    };
    let media_type = MediaType {
        schema: Some(ReferenceOr::ref_("#/components/schemas/Pet")),
        ..MediaType::default()
    };
    let response = Response {
        description: "A pet".to_string(),
        content: map_of("application/json", media_type),
        ..Response::default()
    };
    let get_pet = Operation {
        operation_id: Some("getPet".to_string()),
        parameters: vec![ReferenceOr::Item(id)],
        responses: Responses {
            responses: IndexMap::from([(StatusCode::Code(200), ReferenceOr::Item(response))]),
            ..Responses::default()
        },
        ..Operation::default()
    };
    let name = Schema {
        schema_data: SchemaData::default(),
        schema_kind: SchemaKind::Type(Type::String(StringType::default())),
    };
    let pet = Schema {
        schema_data: SchemaData::default(),
        schema_kind: SchemaKind::Type(Type::Object(ObjectType {
            properties: map_of("name", ReferenceOr::boxed_item(name)),
            required: vec!["name".to_string()],
            ..ObjectType::default()
        })),
    };
    let mut document = OpenAPI::default();
    document.openapi = "3.0.3".to_string();
    document.info.title = "Pets".to_string();
    document.info.version = "1".to_string();
    let item = PathItem { get: Some(get_pet), ..PathItem::default() };
    document.paths.paths = map_of("/pets/{id}", ReferenceOr::Item(item));
    document.components = Some(Components { schemas: map_of("Pet", ReferenceOr::Item(pet)), ..Components::default() });
    document
}
