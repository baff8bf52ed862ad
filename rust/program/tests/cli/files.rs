//! The example files are the document's tables, byte by byte, and nothing else stands among them.
use crate::program::run;
use std::collections::BTreeMap;
use std::path::Path;

// A frame's E, D and P, and a task's kind and frames.
type Frame = (u16, u16, u16);
type Task = (u8, &'static [Frame]);

fn table(tasks: &[Task]) -> Vec<u8> {
    let mut bytes = Vec::new();
    for (task, (kind, frames)) in tasks.iter().enumerate() {
        for (e, d, p) in *frames {
            bytes.extend([task as u8, *kind]);
            [e, d, p].iter().for_each(|n| bytes.extend(n.to_le_bytes()));
        }
    }
    bytes
}

fn folder(name: &str) -> BTreeMap<String, Vec<u8>> {
    let top = Path::new(env!("CARGO_MANIFEST_DIR")).join("../..").join(name);
    let entries = std::fs::read_dir(top).unwrap().map(|entry| {
        let entry = entry.unwrap();
        (
            entry.file_name().into_string().unwrap(),
            std::fs::read(entry.path()).expect("a file, not a folder"),
        )
    });
    entries.collect()
}

#[test]
fn the_tables_are_the_documents() {
    const A: &[Frame] = &[(1, 2, 3), (2, 2, 2), (5, 8, 3), (1, 5, 4)];
    const K7: &[Frame] = &[(2, 2, 2), (1, 20, 1), (2, 2, 10)];
    const LIGHT: Task = (3, &[(1, 64, 64); 4]);
    let f: [Task; 5] = [
        (2, &[(1, 3, 3)]),
        (2, &[(2, 9, 9)]),
        (2, &[(3, 18, 18), (1, 18, 18)]),
        (2, &[(2, 20, 20), (1, 20, 20)]),
        (2, &[(6, 60, 60), (3, 60, 60)]),
    ];
    let full = table(&[LIGHT; 16]);
    let wanted = [
        ("A", table(&[(3, A)])),
        ("A-1-4-12", table(&[(3, A), (1, &[(1, 4, 12)])])),
        ("B", table(&[(3, A), (1, &[(1, 2, 10)])])),
        ("F", table(&f)),
        ("K7", table(&[(3, K7)])),
        ("K7-2-5-10", table(&[(3, K7), (1, &[(2, 5, 10)])])),
        ("one", table(&[(1, &[(1, 1, 1)])])),
        ("two", table(&[(1, &[(1, 1, 1)]), (1, &[(1, 1, 1)])])),
        ("longest", table(&[(1, &[(65535, 65535, 65535)])])),
        ("limit", table(&[(1, &[(32769, 65535, 1)])])),
        ("undecided", table(&[(1, &[(21846, 65535, 1)])])),
        ("64-records", full.clone()),
        ("65-records", [&full[..], &[15, 3, 1, 0, 64, 0, 64, 0]].concat()),
    ];
    let wanted: BTreeMap<String, Vec<u8>> = wanted.map(|(name, bytes)| (name.to_string(), bytes)).into();
    assert_eq!(folder("examples"), wanted);
}

#[test]
fn every_list_is_legal_for_the_table_of_its_name() {
    let lists = folder("lists");
    assert!(lists.len() >= 4);
    for name in lists.keys() {
        let said = run(&["list", &format!("examples/{name}"), &format!("lists/{name}")]);
        assert!(
            said.out.starts_with("legal records=") && said.status == 0,
            "{name}: {}",
            said.out
        );
    }
}
