use openapiv3::{OpenAPI, PathItem, ReferenceOr};

/// Returns the text of a document in which each operation under a path is deprecated.
pub fn deprecate(bytes: &[u8], path: &str) -> serde_json::Result<String> {
    let mut document: OpenAPI = serde_json::from_slice(bytes)?;
    if let Some(ReferenceOr::Item(item)) = document.paths.paths.get_mut(path) {
        let PathItem { get, put, post, delete, options, head, patch, trace, .. } = item;
        for operation in [get, put, post, delete, options, head, patch, trace].into_iter().flatten() {
            operation.deprecated = true;
        }
    }
    serde_json::to_string_pretty(&document)
}
