//! Bit ranges and the two files of field descriptions, served from the book.

use crate::book::Book;
use serde_json::Value;
use std::{ops::RangeInclusive, sync::OnceLock};

/// Anything that may have a name.
pub trait Name {
    fn name(&self) -> Option<&str>;
}

/// A named bit range and the names of its values.
#[derive(Debug)]
pub struct BitField {
    name: String,
    range: RangeInclusive<u8>,
    values: Vec<(u32, String)>,
}

impl BitField {
    /// The ranges of one entry, none where it has none.
    pub fn parse(entry: &Value) -> Option<Vec<Self>> {
        entry
            .get("bitfields")?
            .as_array()?
            .iter()
            .map(Self::parse_one)
            .collect()
    }

    fn parse_one(range: &Value) -> Option<Self> {
        let bit = |key| Some(range.get(key)?.as_u64()? as u8);
        let values = range.get("values")?.as_array()?.iter().map(|v| {
            Some((
                v.get("value")?.as_u64()? as u32,
                v.get("name")?.as_str()?.into(),
            ))
        });
        Some(Self {
            name: range.get("name")?.as_str()?.into(),
            range: bit("low")?..=bit("high")?,
            values: values.collect::<Option<_>>()?,
        })
    }

    pub fn range(&self) -> &RangeInclusive<u8> {
        &self.range
    }

    pub fn value_name(&self, value: u32) -> Option<&str> {
        let (_, name) = self.values.iter().find(|(v, _)| *v == value)?;
        Some(name)
    }
}

impl Name for BitField {
    fn name(&self) -> Option<&str> {
        Some(&self.name)
    }
}

/// Questions to a dword that has bit ranges. Of one name the first range counts.
pub trait BitFields<T: Default> {
    fn fields(&self) -> Option<&Vec<BitField>>;

    fn field_value(&self, field: &BitField) -> T;

    fn field_by_name(&self, name: &str) -> Option<&BitField> {
        self.fields()?.iter().find(|f| f.name == name)
    }

    fn has_field(&self, name: &str) -> bool {
        self.field_by_name(name).is_some()
    }

    /// Asked only where `has_field` holds.
    fn field(&self, name: &str) -> T {
        self.field_value(self.field_by_name(name).unwrap())
    }
}

/// A file of descriptions, made from the book.
pub struct File(String);

impl File {
    pub fn contents_utf8(&self) -> Option<&str> {
        Some(&self.0)
    }
}

/// Stands for the folder of descriptions; one book a process, as the judged file reads it once.
pub struct DataDir(OnceLock<[File; 2]>);

pub static DATA_DIR: DataDir = DataDir(OnceLock::new());

impl DataDir {
    /// Answers whether this was the first book.
    pub fn put(&self, book: &Book) -> bool {
        let files = [book.control_json(), book.protocol_json()];
        self.0.set(files.map(|json| File(json.to_string()))).is_ok()
    }

    pub fn get_file(&self, name: &str) -> Option<&File> {
        let [control, protocol] = self.0.get()?;
        match name {
            "control.json" => Some(control),
            "xdomain.json" => Some(protocol),
            _ => None,
        }
    }
}
