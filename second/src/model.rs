//! What a chart means: records with their attribute trees, associations and coordinates.

use crate::build::Field;

/// The kinds of record, in the order in which a dataset has them.
#[derive(Clone, Copy, Debug, PartialEq, Eq, PartialOrd, Ord)]
pub enum Kind {
    Information,
    Point,
    MultiPoint,
    Feature,
}

impl Kind {
    pub const ALL: [Kind; 4] = [Kind::Information, Kind::Point, Kind::MultiPoint, Kind::Feature];

    pub fn tag(self) -> &'static [u8; 4] {
        match self {
            Kind::Information => b"IRID",
            Kind::Point => b"PRID",
            Kind::MultiPoint => b"MRID",
            Kind::Feature => b"FRID",
        }
    }

    /// RCNM
    pub fn name(self) -> u8 {
        match self {
            Kind::Information => 150,
            Kind::Point => 110,
            Kind::MultiPoint => 115,
            Kind::Feature => 100,
        }
    }

    /// It has a code, NITC or NFTC.
    pub fn coded(self) -> bool {
        matches!(self, Kind::Information | Kind::Feature)
    }

    pub fn of_tag(tag: &[u8; 4]) -> Option<Kind> {
        Kind::ALL.into_iter().find(|kind| kind.tag() == tag)
    }
}

/// RCNM with RCID.
pub type Key = (u8, u32);

/// An entry of an attribute tree.
#[derive(Clone, Debug, PartialEq, Eq)]
pub struct Entry {
    pub code: u16,
    pub value: Vec<u8>,
    pub children: Vec<Entry>,
}

/// An association with an information type: RRNM, RRID, NIAC, NARC are its key.
#[derive(Clone, Debug, PartialEq, Eq)]
pub struct Association {
    pub key: (Key, u16, u16),
    pub attributes: Vec<Entry>,
}

/// A spatial association: RRNM, RRID are its key.
#[derive(Clone, Debug, PartialEq, Eq)]
pub struct Spatial {
    pub key: Key,
    pub orientation: u8,
    pub scale_minimum: u32,
    pub scale_maximum: u32,
}

/// A stored record; parts that its kind lacks are empty, and a point has one coordinate tuple.
#[derive(Clone, Debug, PartialEq, Eq)]
pub struct Record {
    pub kind: Kind,
    pub rcid: u32,
    pub code: u16,
    pub version: u16,
    pub object: Option<[u8; 8]>,
    pub attributes: Vec<Entry>,
    pub associations: Vec<Association>,
    pub coordinates: Vec<(i32, i32)>,
    pub spatial: Vec<Spatial>,
}

impl Record {
    pub fn key(&self) -> Key {
        (self.kind.name(), self.rcid)
    }

    /// The keys of all records that it names.
    pub fn named(&self) -> impl Iterator<Item = Key> + '_ {
        self.associations.iter().map(|a| a.key.0).chain(self.spatial.iter().map(|s| s.key))
    }
}

/// The general record: DSID's three numbered subfields that updates compare, and all its fields as they stand.
#[derive(Clone, Debug, PartialEq, Eq)]
pub struct General {
    pub name: Vec<u8>,
    pub edition: u16,
    pub update: u16,
    pub fields: Vec<Field>,
}

/// A dataset: the descriptive and the CSID record are carried as they are.
#[derive(Clone, Debug, PartialEq, Eq)]
pub struct Dataset {
    pub descriptive: Vec<Field>,
    pub general: General,
    pub systems: Vec<Field>,
    pub records: Vec<Record>,
}
