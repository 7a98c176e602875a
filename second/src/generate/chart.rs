//! What a dataset says, apart from how it is put into bytes: the state that a generated update is made to fit.

use crate::build::Field;
pub use crate::model::Kind;

/// An attribute entry with its run of children; index and parent follow from where it stands.
#[derive(Clone, Debug, PartialEq, Eq)]
pub struct Node {
    pub code: u16,
    pub value: Vec<u8>,
    pub children: Vec<Node>,
}

/// The key of an association: RRID, NIAC, NARC (RRNM is always 150).
pub type AssociationKey = (u32, u16, u16);

#[derive(Clone, Debug, PartialEq, Eq)]
pub struct Association {
    pub key: AssociationKey,
    pub attributes: Vec<Node>,
}

/// The key of a record, and of a spatial association: kind and RCID.
pub type Key = (Kind, u32);

#[derive(Clone, Debug, PartialEq, Eq)]
pub struct Location {
    pub key: Key,
    pub orientation: u8,
    pub scales: (u32, u32),
}

/// One record of the four kinds; what its kind lacks is empty. A point has exactly one coordinate.
#[derive(Clone, Debug, PartialEq, Eq)]
pub struct Item {
    pub key: Key,
    pub code: u16,
    pub rver: u16,
    pub foid: (u16, u32, u16),
    pub attributes: Vec<Node>,
    pub associations: Vec<Association>,
    pub locations: Vec<Location>,
    pub coordinates: Vec<(i32, i32)>,
}

impl Item {
    /// Whether the record names another one by this key.
    pub fn names(&self, key: Key) -> bool {
        let by_association = self.associations.iter().any(|a| (Kind::Information, a.key.0) == key);
        by_association || self.locations.iter().any(|location| location.key == key)
    }
}

/// The general record: texts are ENSP, ENED, PRSP, PRED, PROF, then DSNM in name.
#[derive(Clone, Debug, PartialEq, Eq)]
pub struct General {
    pub rcid: u32,
    pub texts: [Vec<u8>; 5],
    pub name: Vec<u8>,
    pub edition: u16,
    pub update: u16,
    pub date: [u8; 8],
    pub unread: Vec<Field>,
}

/// The general record's unread fields, in their order.
pub const UNREAD: [&str; 7] = ["DSSI", "ATCS", "ITCS", "FTCS", "IACS", "FACS", "ARCS"];

#[derive(Clone, Debug, PartialEq, Eq)]
pub struct Chart {
    pub descriptive: Vec<Field>,
    pub general: General,
    pub csid: Vec<Field>,
    pub items: Vec<Item>,
}

impl Chart {
    pub fn keys(&self) -> Vec<Key> {
        self.items.iter().map(|item| item.key).collect()
    }

    /// Where the record stands among the items.
    pub fn place(&self, key: Key) -> Option<usize> {
        self.items.iter().position(|item| item.key == key)
    }

    /// A record joins the end of its kind.
    pub fn join(&mut self, item: Item) {
        let end = self.items.iter().position(|other| other.key.0 > item.key.0).unwrap_or(self.items.len());
        self.items.insert(end, item);
    }

    /// Whether a record besides the one with this key names it.
    pub fn is_named(&self, key: Key) -> bool {
        self.items.iter().any(|item| item.key != key && item.names(key))
    }
}

/// The unread general fields after an update: each is the update's where it brings one.
pub fn merged_unread(old: &[Field], brought: &[Field]) -> Vec<Field> {
    let of = |fields: &[Field], tag: &str| fields.iter().find(|f| f.tag == tag.as_bytes()).cloned();
    UNREAD.iter().filter_map(|tag| of(brought, tag).or_else(|| of(old, tag))).collect()
}
