//! Number 6: the tree rule in whole trees, and the attributes of a modify in the first pass and when applied.

use super::base::*;
use super::Table;
use crate::build::*;

pub fn rows(table: &mut Table) {
    whole_trees(table);
    good_trees(table);
    parents_sent(table);
    applied(table);
    associations_of_modifies(table);
}

/// Faults of a whole tree, in a dataset and in an insert, in ATTR and in INAS.
fn whole_trees(table: &mut Table) {
    let rows: [(&str, &[Tuple]); 15] = [
        ("a first PAIX of 1", &[(1, 1, 1, 1, "")]),
        ("a first PAIX of all ones", &[(1, 1, 65535, 1, "")]),
        ("a PAIX of the tuple itself", &[(1, 1, 0, 1, ""), (2, 1, 2, 1, "")]),
        ("a PAIX of a later tuple", &[(1, 1, 0, 1, ""), (2, 1, 3, 1, ""), (3, 1, 0, 1, "")]),
        ("a PAIX of a closed run", &[(1, 1, 0, 1, ""), (2, 1, 0, 1, ""), (3, 1, 1, 1, "")]),
        ("a PAIX of a closed run below", &[(1, 1, 0, 1, ""), (2, 1, 1, 1, ""), (3, 1, 1, 1, ""), (4, 1, 2, 1, "")]),
        ("a first ATIX of 2", &[(1, 2, 0, 1, "")]),
        ("ATIX 1 twice", &[(1, 1, 0, 1, "a"), (1, 1, 0, 1, "b")]),
        ("ATIX 1 twice, not side by side", &[(1, 1, 0, 1, "a"), (2, 1, 0, 1, ""), (1, 1, 0, 1, "b")]),
        ("ATIX 1 and 3", &[(1, 1, 0, 1, "a"), (1, 3, 0, 1, "b")]),
        ("ATIX 2 before 1", &[(1, 2, 0, 1, "a"), (1, 1, 0, 1, "b")]),
        ("ATIX counted on in a child", &[(1, 1, 0, 1, ""), (1, 2, 1, 1, "b")]),
        (
            "ATIX counted on under the next parent",
            &[(1, 1, 0, 1, ""), (2, 1, 1, 1, ""), (1, 2, 0, 1, ""), (2, 2, 3, 1, "")],
        ),
        ("a value beside a child", &[(1, 1, 0, 1, "v"), (2, 1, 1, 1, "w")]),
        ("a value beside a grandchild", &[(1, 1, 0, 1, ""), (2, 1, 1, 1, "v"), (3, 1, 2, 1, "w")]),
    ];
    for (name, tree) in rows {
        let by_attr = vec![frid(NEW, 1, 1, 1), foid(0, 0, 0), attr(tree)];
        table.specimen(&format!("ATTR with {name}"), AS_FEATURE, 6, by_attr);
        let by_inas = vec![irid(NEW, 1, 1, 1), inas(5, 1, 1, 1, tree)];
        table.specimen(&format!("INAS with {name}"), AS_INFORMATION, 6, by_inas);
    }
}

fn good_trees(table: &mut Table) {
    let rows: [(&str, &[Tuple]); 4] = [
        ("codes that repeat apart", &[(1, 1, 0, 1, "a"), (2, 1, 0, 1, ""), (1, 2, 0, 1, "b"), (2, 2, 0, 1, "")]),
        (
            "a code inside itself",
            &[(1, 1, 0, 1, ""), (1, 1, 1, 1, ""), (1, 1, 2, 1, "v"), (1, 2, 1, 1, ""), (1, 2, 0, 1, "")],
        ),
        (
            "back to the top from the third level",
            &[(1, 1, 0, 1, ""), (2, 1, 1, 1, ""), (3, 1, 2, 1, "v"), (4, 1, 0, 1, "")],
        ),
        ("an empty entry without children", &[(1, 1, 0, 1, "")]),
    ];
    for (name, tree) in rows {
        table.good_specimen(name, AS_INFORMATION, vec![irid(NEW, 1, 1, 1), attr(tree), inas(NEW, 1, 1, 1, tree)]);
    }
}

/// A modify of the first feature with these tuples.
pub fn edit(tuples: &[Tuple]) -> Vec<Field> {
    vec![frid(3, 40, 3, 3), attr(tuples)]
}

/// First pass: parents only. The records are refused before any is applied.
fn parents_sent(table: &mut Table) {
    let rows: [(&str, &[Tuple]); 8] = [
        ("a first PAIX of 1", &[(25, 1, 1, 3, "")]),
        ("the stored place as PAIX", &[(25, 1, 2, 3, "z")]),
        ("a PAIX of the tuple itself", &[(21, 1, 0, 3, "z"), (25, 1, 2, 3, "z")]),
        ("a PAIX of a closed run", &[(22, 1, 0, 3, ""), (22, 2, 0, 3, ""), (25, 1, 1, 3, "z")]),
        ("a delete tuple as parent", &[(22, 1, 0, 2, ""), (25, 1, 1, 3, "z")]),
        ("a delete tuple as parent of a delete", &[(22, 1, 0, 2, ""), (25, 1, 1, 2, "")]),
        ("a delete tuple as parent, further down", &[(22, 1, 0, 3, ""), (26, 1, 1, 2, ""), (27, 1, 2, 1, "")]),
        ("a PAIX of all ones", &[(22, 1, 0, 3, ""), (25, 1, 65535, 3, "z")]),
    ];
    let other_edition =
        |acts: &[Vec<Field>]| [vec![heading()[0].clone(), vec![dsid(2, "CHART", 4, 8)]], acts.to_vec()].concat();
    for (name, tuples) in rows {
        table.act(&format!("modify with {name}"), edit(tuples), 6);
        table.update(&format!("modify with {name}, before 8"), &other_edition(&[edit(tuples)]), 6, 3);
    }
}

/// When applied: values beside children, whoever brought them.
fn applied(table: &mut Table) {
    let rows: [(&str, &[Tuple]); 10] = [
        ("a value sent to an entry with children", &[(22, 1, 0, 3, "v")]),
        ("a value sent to a leading entry", &[(22, 1, 0, 3, "v"), (25, 1, 1, 3, "z")]),
        ("a value sent deeper", &[(22, 1, 0, 3, ""), (26, 1, 1, 3, "v")]),
        ("a child put under a stored value", &[(21, 1, 0, 3, "z"), (30, 1, 1, 1, "y")]),
        ("a child put under an inserted value", &[(50, 1, 0, 1, "z"), (30, 1, 1, 1, "y")]),
        ("a child put under a value, index too great", &[(21, 1, 0, 3, "z"), (30, 2, 1, 1, "y")]),
        ("a child put deeper under a value", &[(22, 1, 0, 3, ""), (25, 2, 1, 3, "z"), (30, 1, 2, 1, "y")]),
        ("an empty child put under a value", &[(21, 1, 0, 3, "z"), (30, 1, 1, 1, "")]),
        ("a value sent after a child was put", &[(22, 2, 0, 3, ""), (30, 1, 1, 1, ""), (22, 2, 0, 3, "v")]),
        ("a child under a value that was set before", &[(22, 2, 0, 3, "v"), (30, 1, 1, 1, "")]),
    ];
    let wrong_update =
        |acts: &[Vec<Field>]| [vec![heading()[0].clone(), vec![dsid(2, "CHART", 3, 9)]], acts.to_vec()].concat();
    for (name, tuples) in rows {
        table.act(&format!("modify with {name}"), edit(tuples), 6);
        table.update(&format!("modify with {name}, after 8"), &wrong_update(&[edit(tuples)]), 8, 2);
    }
}

/// The attributes of an inserted association are tested whole in the first pass, also inside a modify.
fn associations_of_modifies(table: &mut Table) {
    let add = |tree: &[Tuple]| vec![frid(3, 40, 3, 3), inas(5, 9, 9, 1, tree)];
    let late = |acts: &[Vec<Field>]| [vec![heading()[0].clone(), vec![dsid(2, "OTHER", 3, 8)]], acts.to_vec()].concat();
    let rows: [(&str, &[Tuple]); 3] = [
        ("ATIX 2", &[(1, 2, 0, 1, "")]),
        ("a value beside a child", &[(1, 1, 0, 1, "v"), (2, 1, 1, 1, "")]),
        ("PAIX 1", &[(1, 1, 1, 1, "")]),
    ];
    for (name, tree) in rows {
        table.act(&format!("an association inserted by a modify with {name}"), add(tree), 6);
        table.update(&format!("the same with {name}, before 8"), &late(&[add(tree)]), 6, 3);
    }
}
