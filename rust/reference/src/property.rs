//! Properties, and the attributes that are laid out as properties are.

use crate::bytes::all_distinct;
use crate::record::{BitReader, BitWriter};
use crate::sizes;

#[derive(Clone, Debug, PartialEq, Eq)]
pub struct Property {
    pub key: Vec<u8>,
    pub value: Vec<u8>,
}

pub type Attribute = Property;

impl Property {
    pub fn new(key: &[u8], value: &[u8]) -> Self {
        Property {
            key: key.to_vec(),
            value: value.to_vec(),
        }
    }

    fn read(reader: &mut BitReader) -> Option<Property> {
        let key_length = reader.count(7)?;
        let value_length = reader.count(9)?;
        let within_sizes = (1..=sizes::PROPERTY_KEY).contains(&key_length)
            && value_length <= sizes::PROPERTY_VALUE;
        if !within_sizes {
            return None;
        }
        Some(Property {
            key: reader.text(key_length)?,
            value: reader.text(value_length)?,
        })
    }

    fn write(&self, writer: &mut BitWriter) {
        writer.count(7, self.key.len());
        writer.count(9, self.value.len());
        writer.text(&self.key);
        writer.text(&self.value);
    }
}

pub fn value_of<'a>(properties: &'a [Property], key: &[u8]) -> Option<&'a [u8]> {
    properties
        .iter()
        .find(|property| property.key == key)
        .map(|property| property.value.as_slice())
}

/// Reads so many properties, or gives `None` if one is faulty or two keys are equal.
pub fn read_properties(reader: &mut BitReader, count: usize) -> Option<Vec<Property>> {
    let properties: Vec<Property> = (0..count)
        .map(|_| Property::read(reader))
        .collect::<Option<_>>()?;
    keys_are_distinct(&properties).then_some(properties)
}

pub fn write_properties(writer: &mut BitWriter, properties: &[Property]) {
    for property in properties {
        property.write(writer);
    }
}

fn keys_are_distinct(properties: &[Property]) -> bool {
    all_distinct(properties.iter().map(|property| property.key.as_slice()))
}
