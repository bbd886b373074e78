"""The fields of the objects of OpenAPI 3.0.3, for `tests/random_documents.py`: a copy of this project's tables that was written
from OpenAPI's text, and not from the definitions in `crates/`. Every object of a table may have extensions.
"""

# A row is `name mode kind`. The modes: R required; O may be missing or null; N the same, and written as null then; E a
# list or map that is empty if it is missing; F a flag that is false if it is missing; S a style, of which the first
# is the default; C two names of which one is required, and the first in the object decides. The kinds: [K] a list, {K} a
# map, &K a reference or a K, a|b one of these words, or the name of a table.
TABLES = {
    "OpenAPI": "openapi R text, info R Info, servers E [Server], paths R Paths, components O Components, security O [Security],"
               "tags E [Tag], externalDocs O ExternalDocs",
    "Info": "title R text, description O text, termsOfService O text, contact O Contact, license O License, version R text",
    "Contact": "name O text, url O text, email O text",
    "License": "name R text, url O text",
    "Server": "url R text, description O text, variables O {ServerVariable}",
    "ServerVariable": "enum E [text], default R text, description N text",
    "Tag": "name R text, description O text, externalDocs O ExternalDocs",
    "ExternalDocs": "description O text, url R text",
    "Components": "schemas E {&Schema}, responses E {&Response}, parameters E {&Parameter}, examples E {&Example},"
                  "requestBodies E {&RequestBody}, headers E {&Header}, securitySchemes E {&SecurityScheme}, links E {&Link},"
                  "callbacks E {&Callback}",
    "PathItem": "summary O text, description O text, get O Operation, put O Operation, post O Operation, delete O Operation,"
                "options O Operation, head O Operation, patch O Operation, trace O Operation, servers E [Server],"
                "parameters E [&Parameter]",
    "Operation": "tags E [text], summary O text, description O text, externalDocs O ExternalDocs, operationId O text,"
                 "parameters E [&Parameter], requestBody O &RequestBody, responses R Responses, callbacks E {&Callback},"
                 "deprecated F flag, security O [Security], servers E [Server]",
    "ParameterData": "name R text, description O text, required F flag, deprecated O flag,"
                     "schema/content C &Schema/{MediaType}, example O any, examples E {&Example}, explode O flag",
    "Header": "description O text, style S simple, required F flag, deprecated O flag, schema/content C &Schema/{MediaType},"
              "example O any, examples E {&Example}",
    "MediaType": "schema O &Schema, example O any, examples E {&Example}, encoding E {Encoding}",
    "Encoding": "contentType N text, headers E {&Header}, style O form|spaceDelimited|pipeDelimited|deepObject, explode F flag,"
                "allowReserved F flag",
    "RequestBody": "description O text, content E {MediaType}, required F flag",
    "Response": "description R text, headers E {&Header}, content E {MediaType}, links E {&Link}",
    "Link": "description O text, operationRef/operationId C text/text, requestBody O any, parameters E {any}, server O Server",
    "Example": "summary O text, description O text, value O any, externalValue O text",
    "OAuthFlows": "implicit O Implicit, password O Password, clientCredentials O Password, authorizationCode O AuthorizationCode",
    "Implicit": "authorizationUrl R text, refreshUrl O text, scopes R {text}",
    "Password": "refreshUrl O text, tokenUrl R text, scopes R {text}",
    "AuthorizationCode": "authorizationUrl R text, tokenUrl R text, refreshUrl O text, scopes R {text}",
    "Discriminator": "propertyName R text, mapping E {text}",
    "Xml": "name O text, namespace O text, prefix O text, attribute F flag, wrapped F flag",
    "SchemaData": "nullable F flag, readOnly F flag, writeOnly F flag, deprecated F flag, externalDocs O ExternalDocs, example O any,"
                  "title O text, description O text, discriminator O Discriminator, default O any, xml O Xml",
}
# Objects with a tag: its name, and the rows behind each of its words.
TAGGED = {
    "Parameter": ("in", {
        "query": "allowReserved F flag, style S form|spaceDelimited|pipeDelimited|deepObject, allowEmptyValue O flag",
        "header": "style S simple",
        "path": "style S simple|matrix|label",
        "cookie": "style S form",
    }),
    "SecurityScheme": ("type", {
        "apiKey": "in R query|header|cookie, name R text, description O text",
        "http": "scheme R text, bearerFormat O text, description O text",
        "oauth2": "flows R OAuthFlows, description O text",
        "openIdConnect": "openIdConnectUrl R text, description O text",
    }),
}
# The names that distinguish the sorts of schemas, and those that each type may have.
KEYWORDS = {
    "type": "text", "pattern": "text", "multipleOf": "whole", "exclusiveMinimum": "flag", "exclusiveMaximum": "flag",
    "minimum": "whole", "maximum": "whole", "properties": "{&Schema}", "required": "[text]",
    "additionalProperties": "flag-or-schema", "minProperties": "size", "maxProperties": "size", "items": "&Schema",
    "minItems": "size", "maxItems": "size", "uniqueItems": "flag", "enum": "[any]", "format": "text", "minLength": "size",
    "maxLength": "size", "oneOf": "[&Schema]", "allOf": "[&Schema]", "anyOf": "[&Schema]", "not": "&Schema",
}
NUMBERS = ["multipleOf", "exclusiveMinimum", "exclusiveMaximum", "minimum", "maximum", "enum", "format"]
OF_TYPE = {
    "string": ["pattern", "enum", "format", "minLength", "maxLength"],
    "number": NUMBERS,
    "integer": NUMBERS,
    "boolean": ["enum"],
    "object": ["properties", "required", "additionalProperties", "minProperties", "maxProperties"],
    "array": ["items", "minItems", "maxItems", "uniqueItems"],
}
METHODS = ["get", "put", "post", "delete", "options", "head", "patch", "trace"]
