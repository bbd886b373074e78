use openapiv3::OpenAPI;

/// Returns the method and the path of each operation without a description.
pub fn undescribed_operations(document: &OpenAPI) -> Vec<String> {
    document
        .operations()
        .filter(|(_, _, operation)| operation.description.is_none())
        .map(|(path, method, _)| format!("{method} {path}"))
        .collect()
}
