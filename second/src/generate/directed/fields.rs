//! Number 4 inside records of the four kinds: which fields, in which order, and which instruction takes them.

use super::base::*;
use super::Table;
use crate::build::*;

pub fn rows(table: &mut Table) {
    informations(table);
    points(table);
    multi_points(table);
    features(table);
    deletes(table);
    modifies(table);
    instructions_out_of_range(table);
    malformed_instructions(table);
    dataset_instructions(table);
}

const V: [Tuple<'static>; 1] = [(1, 1, 0, 1, "v")];

fn informations(table: &mut Table) {
    let id = || irid(NEW, 1, 1, 1);
    let named = || inas(5, 1, 1, 1, &[]);
    let rows: [(&str, Vec<Field>); 10] = [
        ("ATTR twice", vec![id(), attr(&V), attr(&V)]),
        ("ATTR twice, both empty", vec![id(), attr(&[]), attr(&[])]),
        ("ATTR behind INAS", vec![id(), named(), attr(&V)]),
        ("an empty ATTR behind INAS", vec![id(), named(), attr(&[])]),
        ("C2IT in an information type", vec![id(), c2it(0, 0)]),
        ("FOID in an information type", vec![id(), foid(0, 0, 0)]),
        ("SPAS in an information type", vec![id(), spas(&[])]),
        ("IRID twice", vec![id(), id()]),
        ("PRID behind IRID", vec![id(), prid(NEW, 1, 1)]),
        ("ATTR before IRID", vec![attr(&V), id()]),
    ];
    for (name, fields) in rows {
        table.specimen(name, AS_INFORMATION, 4, fields);
    }
}

fn points(table: &mut Table) {
    let id = || prid(NEW, 1, 1);
    let at = || c2it(0, 0);
    let rows: [(&str, Vec<Field>); 13] = [
        ("a point without C2IT", vec![id()]),
        ("a point with INAS and no C2IT", vec![id(), inas(5, 1, 1, 1, &[])]),
        ("C2IT twice", vec![id(), at(), at()]),
        ("INAS behind C2IT", vec![id(), at(), inas(5, 1, 1, 1, &[])]),
        ("C2IT before PRID", vec![at(), id()]),
        ("ATTR in a point", vec![id(), attr(&V), at()]),
        ("an empty ATTR in a point", vec![id(), attr(&[]), at()]),
        ("C2IL in a point", vec![id(), c2il(&[(0, 0)])]),
        ("an empty C2IL behind C2IT", vec![id(), at(), c2il(&[])]),
        ("COCC in a point", vec![id(), cocc(1, 1, 1), at()]),
        ("SPAS in a point", vec![id(), at(), spas(&[])]),
        ("FOID in a point", vec![id(), foid(0, 0, 0), at()]),
        ("C3IT in a point", vec![id(), field("C3IT", vec![0; 12])]),
    ];
    for (name, fields) in rows {
        table.specimen(name, AS_POINT, 4, fields);
    }
}

fn multi_points(table: &mut Table) {
    let id = || mrid(NEW, 1, 1);
    let list = || c2il(&[(0, 0)]);
    let rows: [(&str, Vec<Field>); 10] = [
        ("COCC insert", vec![id(), cocc(1, 1, 1), list()]),
        ("COCC modify", vec![id(), cocc(3, 1, 1), list()]),
        ("COCC delete", vec![id(), cocc(2, 1, 1)]),
        ("COCC of a wrong length", vec![id(), field("COCC", vec![1]), list()]),
        ("C2IT in a multi point", vec![id(), c2it(0, 0)]),
        ("INAS behind C2IL", vec![id(), list(), inas(5, 1, 1, 1, &[])]),
        ("INAS between two C2IL", vec![id(), list(), inas(5, 1, 1, 1, &[]), list()]),
        ("ATTR in a multi point", vec![id(), attr(&[]), list()]),
        ("SPAS in a multi point", vec![id(), list(), spas(&[])]),
        ("C3IL in a multi point", vec![id(), field("C3IL", vec![0; 16])]),
    ];
    for (name, fields) in rows {
        table.specimen(name, AS_MULTI, 4, fields);
    }
}

fn features(table: &mut Table) {
    let id = || frid(NEW, 1, 1, 1);
    let object = || foid(0, 0, 0);
    let named = || inas(5, 1, 1, 1, &[]);
    let place = || spas(&PLACES[..1]);
    let rows: [(&str, Vec<Field>); 15] = [
        ("a feature without FOID", vec![id()]),
        ("ATTR where FOID is absent", vec![id(), attr(&V)]),
        ("FOID twice", vec![id(), object(), object()]),
        ("FOID behind ATTR", vec![id(), attr(&V), object()]),
        ("ATTR twice in a feature", vec![id(), object(), attr(&V), attr(&[])]),
        ("ATTR behind INAS in a feature", vec![id(), object(), named(), attr(&V)]),
        ("INAS behind SPAS", vec![id(), object(), place(), named()]),
        ("INAS behind an empty SPAS", vec![id(), object(), spas(&[]), named()]),
        ("C2IT in a feature", vec![id(), object(), c2it(0, 0)]),
        ("C2IL in a feature", vec![id(), object(), c2il(&[])]),
        ("FASC", vec![id(), object(), field("FASC", vec![0; 11])]),
        ("THAS", vec![id(), object(), empty("THAS")]),
        ("MASK", vec![id(), object(), place(), empty("MASK")]),
        ("COCC in a feature", vec![id(), object(), cocc(1, 1, 1)]),
        ("IRID behind FRID", vec![id(), irid(NEW, 1, 1, 1), object()]),
    ];
    for (name, fields) in rows {
        table.specimen(name, AS_FEATURE, 4, fields);
    }
}

/// A delete takes its identifier only, whatever the other field holds.
fn deletes(table: &mut Table) {
    let named = || inas(5, 1, 2, 2, &[]);
    let rows: [(&str, Vec<Field>); 15] = [
        ("INAS", vec![irid(5, 30, 3, 2), named()]),
        ("ATTR", vec![irid(5, 30, 3, 2), attr(&V)]),
        ("an empty ATTR", vec![irid(5, 30, 3, 2), attr(&[])]),
        ("C2IT", vec![prid(7, 2, 2), c2it(10, -1)]),
        ("an empty C2IT", vec![prid(7, 2, 2), empty("C2IT")]),
        ("INAS in a point", vec![prid(7, 2, 2), named()]),
        ("C2IL", vec![mrid(8, 5, 2), c2il(&[(1, 1)])]),
        ("an empty C2IL", vec![mrid(8, 5, 2), c2il(&[])]),
        ("COCC", vec![mrid(8, 5, 2), cocc(2, 1, 1)]),
        ("an empty COCC", vec![mrid(8, 5, 2), empty("COCC")]),
        ("FOID", vec![frid(3, 40, 3, 2), foid(1, 2, 3)]),
        ("SPAS", vec![frid(3, 40, 3, 2), spas(&PLACES)]),
        ("an empty SPAS", vec![frid(3, 40, 3, 2), spas(&[])]),
        ("an empty ATTR in a feature", vec![frid(3, 40, 3, 2), attr(&[])]),
        ("C2IT, with RCID 0", vec![prid(0, 2, 2), c2it(10, -1)]),
    ];
    for (name, fields) in rows {
        table.act(&format!("a delete with {name}"), fields, 4);
    }
}

fn modifies(table: &mut Table) {
    let id = || mrid(8, 5, 3);
    let one = || c2il(&[(9, 9)]);
    let rows: [(&str, Vec<Field>); 14] = [
        ("C2IT twice", vec![prid(7, 2, 3), c2it(0, 0), c2it(0, 0)]),
        ("INAS behind C2IT", vec![prid(7, 2, 3), c2it(0, 0), inas(5, 1, 1, 1, &[])]),
        ("C2IL with a COCC delete", vec![id(), cocc(2, 1, 1), one()]),
        ("an empty C2IL with a COCC delete", vec![id(), cocc(2, 1, 1), c2il(&[])]),
        ("C2IL without COCC", vec![id(), one()]),
        ("an empty C2IL without COCC", vec![id(), c2il(&[])]),
        ("COCC twice", vec![id(), cocc(1, 1, 1), cocc(1, 1, 1), one()]),
        ("COCC behind C2IL", vec![id(), one(), cocc(1, 1, 1)]),
        ("COCC before INAS", vec![id(), cocc(1, 1, 1), inas(5, 1, 1, 1, &[]), one()]),
        ("FOID twice", vec![frid(3, 40, 3, 3), foid(1, 2, 3), foid(1, 2, 3)]),
        ("FOID behind ATTR", vec![frid(3, 40, 3, 3), attr(&[]), foid(1, 2, 3)]),
        ("ATTR twice", vec![irid(5, 30, 3, 3), attr(&[]), attr(&[])]),
        ("COCC in a point", vec![prid(7, 2, 3), cocc(1, 1, 1)]),
        ("INAS behind SPAS", vec![frid(3, 40, 3, 3), spas(&[]), inas(5, 1, 1, 2, &[])]),
    ];
    for (name, fields) in rows {
        table.act(&format!("a modify with {name}"), fields, 4);
    }
}

/// With RUIN out of range no field is refused on its account; COUI still decides over C2IL.
fn instructions_out_of_range(table: &mut Table) {
    for ruin in [0, 4, 0x1e, 255] {
        let id = || mrid(8, 5, ruin);
        let name = |what: &str| format!("RUIN {ruin} and {what}");
        table.act(&name("a COCC delete with C2IL"), vec![id(), cocc(2, 1, 1), c2il(&[(0, 0)])], 4);
        table.act(&name("a COCC delete with an empty C2IL"), vec![id(), cocc(2, 1, 1), c2il(&[])], 4);
        table.act(&name("C2IL without COCC"), vec![id(), c2il(&[(0, 0)])], 5);
        table.act(&name("a COCC insert with C2IL"), vec![id(), cocc(1, 1, 1), c2il(&[(0, 0)])], 5);
        table.act(&name("no C2IT"), vec![prid(7, 2, ruin)], 5);
        table.act(&name("C2IT"), vec![prid(7, 2, ruin), c2it(0, 0)], 5);
        table.act(&name("C2IT twice"), vec![prid(7, 2, ruin), c2it(0, 0), c2it(0, 0)], 4);
        table.act(&name("no FOID"), vec![frid(3, 40, 3, ruin)], 5);
        table.act(&name("a tag of another kind"), vec![frid(3, 40, 3, ruin), c2it(0, 0)], 4);
    }
    for coui in [0, 4, 0x1e, 255] {
        let fields = vec![mrid(8, 5, 3), cocc(coui, 1, 1), c2il(&[(0, 0)])];
        table.act(&format!("COUI {coui} with C2IL"), fields, 5);
    }
}

/// The byte at the instruction's place decides where it lies inside the field, though the field is malformed.
fn malformed_instructions(table: &mut Table) {
    let modify = || mrid(8, 5, 3);
    let one = || c2il(&[(9, 9)]);
    let rows: [(&str, Vec<Field>, u32); 13] = [
        ("PRID delete one byte too long, and C2IT", vec![longer(prid(7, 2, 2), &[0]), c2it(0, 0)], 4),
        ("IRID delete one byte too long, and ATTR", vec![longer(irid(5, 30, 3, 2), &[9]), attr(&[])], 4),
        ("FRID delete one byte too long, and FOID", vec![longer(frid(3, 40, 3, 2), &[9]), foid(1, 2, 3)], 4),
        ("PRID delete one byte too long", vec![longer(prid(7, 2, 2), &[0])], 5),
        ("PRID insert one byte too long, no C2IT", vec![longer(prid(NEW, 1, 1), &[0])], 4),
        ("MRID insert one byte too long, and COCC", vec![longer(mrid(NEW, 1, 1), &[0]), cocc(2, 1, 1)], 4),
        ("MRID modify one byte too long, and C2IL", vec![longer(modify(), &[0]), one()], 4),
        ("PRID without its RUIN, and C2IT", vec![shorter(prid(7, 2, 2), 1), c2it(0, 0)], 5),
        ("PRID without its RUIN, no C2IT", vec![shorter(prid(NEW, 1, 1), 1)], 5),
        ("COCC of one byte 02, and C2IL", vec![modify(), field("COCC", vec![2]), one()], 4),
        ("COCC of one byte 01, and C2IL", vec![modify(), field("COCC", vec![1]), one()], 5),
        ("an empty COCC, and C2IL", vec![modify(), empty("COCC"), one()], 5),
        ("COCC delete one byte too long, and C2IL", vec![modify(), longer(cocc(2, 1, 1), &[0]), one()], 4),
    ];
    for (name, fields, number) in rows {
        table.act(name, fields, number);
    }
}

/// In a dataset every instruction but insert is 5, and what is absent is 4 whatever the instruction says.
fn dataset_instructions(table: &mut Table) {
    for ruin in [0, 2, 3, 4, 255] {
        let name = |what: &str| format!("RUIN {ruin} and {what}");
        let rows: [(&str, usize, Vec<Field>, u32); 6] = [
            ("C2IT", AS_POINT, vec![prid(NEW, 1, ruin), c2it(0, 0)], 5),
            ("no C2IT", AS_POINT, vec![prid(NEW, 1, ruin)], 4),
            ("C2IL", AS_MULTI, vec![mrid(NEW, 1, ruin), c2il(&[(0, 0)])], 5),
            ("COCC", AS_MULTI, vec![mrid(NEW, 1, ruin), cocc(1, 1, 1), c2il(&[(0, 0)])], 4),
            ("FOID", AS_FEATURE, vec![frid(NEW, 1, 1, ruin), foid(0, 0, 0)], 5),
            ("no FOID", AS_FEATURE, vec![frid(NEW, 1, 1, ruin)], 4),
        ];
        for (what, place, fields, number) in rows {
            let mut records = dataset();
            records.insert(place - 1, fields);
            table.dataset(&name(what), &records, number, place);
        }
    }
    let mut records = dataset();
    records.insert(AS_POINT - 1, vec![shorter(prid(NEW, 1, 1), 1)]);
    table.dataset("PRID without its RUIN, no C2IT", &records, 4, AS_POINT);
}
