//! Files put together by hand, for samples, tests and generated cases: fields from values, records in any widths.
//! Nothing here tests anything, so that wrong files can be built as easily as right ones.

/// A field: its tag, and its body without the closing 1E.
#[derive(Clone, Debug, PartialEq, Eq)]
pub struct Field {
    pub tag: [u8; 4],
    pub body: Vec<u8>,
}

pub fn field(tag: &str, body: Vec<u8>) -> Field {
    let tag: [u8; 4] = tag.as_bytes().try_into().expect("a tag has four bytes");
    Field { tag, body }
}

/// A record: first of its file or not, its fields in directory widths a and b.
pub fn record(first: bool, a: usize, b: usize, fields: &[Field]) -> Vec<u8> {
    let base = 24 + fields.len() * (4 + a + b) + 1;
    let length = base + fields.iter().map(|f| f.body.len() + 1).sum::<usize>();
    let middle = if first { "3LE1 09" } else { " D     " };
    let end = if first { " ! " } else { "   " };
    let mut bytes = format!("{length:05}{middle}{base:05}{end}{a}{b}04").into_bytes();
    let mut position = 0;
    for f in fields {
        bytes.extend_from_slice(&f.tag);
        let size = f.body.len() + 1;
        bytes.extend_from_slice(format!("{size:0a$}{position:0b$}").as_bytes());
        position += size;
    }
    bytes.push(0x1e);
    for f in fields {
        bytes.extend_from_slice(&f.body);
        bytes.push(0x1e);
    }
    bytes
}

/// A file of records, all in the widths 5 and 5.
pub fn file(records: &[Vec<Field>]) -> Vec<u8> {
    records.iter().enumerate().flat_map(|(n, fields)| record(n == 0, 5, 5, fields)).collect()
}

/// Files joined to the list of a month, each preceded by its length.
pub fn joined(files: &[Vec<u8>]) -> Vec<u8> {
    files.iter().flat_map(|file| [&(file.len() as u32).to_le_bytes(), &file[..]].concat()).collect()
}

/// A parcel: its whole length, its kind and its body.
pub fn parcel(kind: u16, body: &[u8]) -> Vec<u8> {
    [&(6 + body.len() as u32).to_le_bytes(), &kind.to_le_bytes()[..], body].concat()
}

/// The parcel of kind 1 that tells a holding.
pub fn holding(edition: u16, update: u16, name: &[u8]) -> Vec<u8> {
    parcel(1, &[&edition.to_le_bytes(), &update.to_le_bytes(), name].concat())
}

/// A dataset at the front of a pool of so many bytes, with this byte behind it.
pub fn pooled(dataset: &[u8], pool: usize, behind: u8) -> Vec<u8> {
    let mut bytes = vec![behind; pool];
    bytes[..dataset.len()].copy_from_slice(dataset);
    bytes
}

/// The general record's identification; the five texts before the name are empty.
pub fn dsid(rcid: u32, name: &str, edition: u16, update: u16) -> Field {
    let mut body = vec![10];
    body.extend_from_slice(&rcid.to_le_bytes());
    body.extend_from_slice(&[0x1f; 5]);
    body.extend_from_slice(name.as_bytes());
    body.push(0x1f);
    body.extend_from_slice(&edition.to_le_bytes());
    body.extend_from_slice(&update.to_le_bytes());
    body.extend_from_slice(b"20260101");
    field("DSID", body)
}

/// IRID (150) or FRID (100): with a code.
pub fn coded(tag: &str, rcnm: u8, rcid: u32, code: u16, rver: u16, ruin: u8) -> Field {
    let mut body = vec![rcnm];
    body.extend_from_slice(&rcid.to_le_bytes());
    body.extend_from_slice(&code.to_le_bytes());
    body.extend_from_slice(&rver.to_le_bytes());
    body.push(ruin);
    field(tag, body)
}

/// PRID (110) or MRID (115): without a code.
pub fn plain(tag: &str, rcnm: u8, rcid: u32, rver: u16, ruin: u8) -> Field {
    let mut body = vec![rcnm];
    body.extend_from_slice(&rcid.to_le_bytes());
    body.extend_from_slice(&rver.to_le_bytes());
    body.push(ruin);
    field(tag, body)
}

pub fn irid(rcid: u32, code: u16, rver: u16, ruin: u8) -> Field {
    coded("IRID", 150, rcid, code, rver, ruin)
}

pub fn frid(rcid: u32, code: u16, rver: u16, ruin: u8) -> Field {
    coded("FRID", 100, rcid, code, rver, ruin)
}

pub fn prid(rcid: u32, rver: u16, ruin: u8) -> Field {
    plain("PRID", 110, rcid, rver, ruin)
}

pub fn mrid(rcid: u32, rver: u16, ruin: u8) -> Field {
    plain("MRID", 115, rcid, rver, ruin)
}

pub fn foid(agency: u16, number: u32, subdivision: u16) -> Field {
    let mut body = agency.to_le_bytes().to_vec();
    body.extend_from_slice(&number.to_le_bytes());
    body.extend_from_slice(&subdivision.to_le_bytes());
    field("FOID", body)
}

/// A tuple of ATTR: code, index, parent, instruction, value.
pub type Tuple<'a> = (u16, u16, u16, u8, &'a str);

/// One tuple, whose value may hold any bytes.
pub fn tuple(code: u16, index: u16, parent: u16, instruction: u8, value: &[u8]) -> Vec<u8> {
    let mut body = Vec::new();
    for number in [code, index, parent] {
        body.extend_from_slice(&number.to_le_bytes());
    }
    body.push(instruction);
    body.extend_from_slice(value);
    body.push(0x1f);
    body
}

pub fn tuples(list: &[Tuple]) -> Vec<u8> {
    let of = |t: &Tuple| tuple(t.0, t.1, t.2, t.3, t.4.as_bytes());
    list.iter().flat_map(of).collect()
}

pub fn attr(list: &[Tuple]) -> Field {
    field("ATTR", tuples(list))
}

/// An association with information type rrid.
pub fn inas(rrid: u32, association: u16, role: u16, instruction: u8, attributes: &[Tuple]) -> Field {
    let mut body = vec![150];
    body.extend_from_slice(&rrid.to_le_bytes());
    body.extend_from_slice(&association.to_le_bytes());
    body.extend_from_slice(&role.to_le_bytes());
    body.push(instruction);
    body.extend_from_slice(&tuples(attributes));
    field("INAS", body)
}

/// A tuple of SPAS: RRNM, RRID, ORNT, SMIN, SMAX, SAUI.
pub type Spatial = (u8, u32, u8, u32, u32, u8);

pub fn spas(list: &[Spatial]) -> Field {
    let mut body = Vec::new();
    for (rrnm, rrid, ornt, smin, smax, saui) in list {
        body.push(*rrnm);
        body.extend_from_slice(&rrid.to_le_bytes());
        body.push(*ornt);
        body.extend_from_slice(&smin.to_le_bytes());
        body.extend_from_slice(&smax.to_le_bytes());
        body.push(*saui);
    }
    field("SPAS", body)
}

pub fn cocc(instruction: u8, index: u16, count: u16) -> Field {
    let mut body = vec![instruction];
    body.extend_from_slice(&index.to_le_bytes());
    body.extend_from_slice(&count.to_le_bytes());
    field("COCC", body)
}

fn coordinates(list: &[(i32, i32)]) -> Vec<u8> {
    list.iter().flat_map(|(y, x)| [y.to_le_bytes(), x.to_le_bytes()].concat()).collect()
}

pub fn c2it(y: i32, x: i32) -> Field {
    field("C2IT", coordinates(&[(y, x)]))
}

pub fn c2il(list: &[(i32, i32)]) -> Field {
    field("C2IL", coordinates(list))
}
