//! The attributes and properties that a rules text asks for.

use recordings::import::Named;

use super::template::What;
use super::{rules, Key, Pair};

/// The names in all rules that can be read, in keys and in templates.
pub fn named(text: &[u8]) -> Named {
    let mut named = Named::default();
    for rule in rules(text) {
        for pair in &rule.pairs {
            add(&mut named, pair);
        }
    }
    named
}

fn add(named: &mut Named, pair: &Pair) {
    match pair.key {
        Key::Attr | Key::Attrs => {
            named.attributes.insert(pair.argument.clone());
        }
        Key::Env => {
            named.properties.insert(pair.argument.clone());
        }
        _ => {}
    }
    for piece in pair.pieces() {
        match piece.what {
            What::Attr => named.attributes.insert(piece.name.to_vec()),
            What::Env => named.properties.insert(piece.name.to_vec()),
            _ => continue,
        };
    }
}
