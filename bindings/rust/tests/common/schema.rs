//! Holds a document to a schema, by the keywords that the guide's schema uses and no others.

use super::json::Json;

pub struct Schema(Json);

/// What is wrong with the document.
type Told = Result<(), String>;

fn unless(wrong: bool, sentence: impl FnOnce() -> String) -> Told {
    if wrong {
        return Err(sentence());
    }
    Ok(())
}

fn has_type(value: &Json, name: &str) -> bool {
    match name {
        "object" => matches!(value, Json::Object(_)),
        "array" => matches!(value, Json::List(_)),
        "string" => matches!(value, Json::Text(_)),
        "integer" => matches!(value, Json::Number(_)),
        _ => panic!("a type that is not asked for: {name}"),
    }
}

/// A limit of the schema is asked only of the type that it is for.
fn within(found: Option<i64>, limit: &Json, fits: fn(i64, i64) -> bool) -> bool {
    let limit = limit.number().expect("a limit");
    found.is_none_or(|found| fits(found, limit))
}

fn length(value: &Json) -> Option<i64> {
    match value {
        Json::List(items) => i64::try_from(items.len()).ok(),
        Json::Text(text) => i64::try_from(text.chars().count()).ok(),
        _ => None,
    }
}

impl Schema {
    pub fn read(text: &str) -> Schema {
        Schema(Json::read(text).expect("a schema"))
    }

    pub fn holds(&self, document: &Json) -> Told {
        self.meets(&self.0, document)
    }

    fn meets(&self, schema: &Json, value: &Json) -> Told {
        for (keyword, said) in schema.members() {
            self.keyword(keyword, said, schema, value)?;
        }
        Ok(())
    }

    fn keyword(&self, keyword: &str, said: &Json, schema: &Json, value: &Json) -> Told {
        let fits = match keyword {
            "$schema" | "$defs" | "title" | "description" => true,
            "$ref" => return self.meets(self.definition(said), value),
            "items" => return self.items(said, value),
            "properties" => return self.properties(said, value),
            "required" => return required(said, value),
            "additionalProperties" => return nothing_else(said, schema, value),
            "oneOf" => return self.one_of(said, value),
            "type" => has_type(value, said.text().expect("a type")),
            "const" => value == said,
            "enum" => said.items().contains(value),
            "minimum" => within(value.number(), said, |found, least| found >= least),
            "maximum" => within(value.number(), said, |found, most| found <= most),
            "minItems" | "minLength" => within(length(value), said, |found, least| found >= least),
            "maxItems" => within(length(value), said, |found, most| found <= most),
            _ => panic!("a keyword that is not asked: {keyword}"),
        };
        unless(!fits, || format!("{value:?} is not {keyword} {said:?}"))
    }

    /// What a reference names: a definition of the schema.
    fn definition(&self, name: &Json) -> &Json {
        let name = name.text().and_then(|name| name.strip_prefix("#/$defs/"));
        let definitions = self.0.get("$defs").expect("definitions");
        let found = definitions.get(name.expect("a name of a definition"));
        found.unwrap_or_else(|| panic!("no definition: {name:?}"))
    }

    fn items(&self, schema: &Json, value: &Json) -> Told {
        let mut items = value.items().iter();
        items.try_for_each(|item| self.meets(schema, item))
    }

    fn properties(&self, schemas: &Json, value: &Json) -> Told {
        for (name, schema) in schemas.members() {
            if let Some(member) = value.get(name) {
                self.meets(schema, member)
                    .map_err(|told| format!("{name}: {told}"))?;
            }
        }
        Ok(())
    }

    fn one_of(&self, schemas: &Json, value: &Json) -> Told {
        let told: Vec<Told> = schemas
            .items()
            .iter()
            .map(|schema| self.meets(schema, value))
            .collect();
        let met = told.iter().filter(|told| told.is_ok()).count();
        unless(met != 1, || format!("{met} of these are met: {told:?}"))
    }
}

fn required(names: &Json, value: &Json) -> Told {
    let mut names = names.items().iter().filter_map(Json::text);
    let missing = names.find(|name| matches!(value, Json::Object(_)) && value.get(name).is_none());
    unless(missing.is_some(), || format!("{missing:?} is missing"))
}

/// The schema's one use of this: no member but those that it lists.
fn nothing_else(said: &Json, schema: &Json, value: &Json) -> Told {
    assert_eq!(*said, Json::Bool(false));
    let listed = schema.get("properties").expect("the members");
    let mut members = value.members().iter();
    let other = members.find(|(name, _)| listed.get(name).is_none());
    unless(other.is_some(), || format!("{other:?} is not listed"))
}
