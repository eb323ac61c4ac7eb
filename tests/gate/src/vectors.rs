//! The records of the vectors.

use reference::corpus::{self, CheckRecord, EvalRecord, JoinRecord, WriteRecord};
use std::path::Path;

/// Those of the base, then those of the requests.
pub fn checks() -> Vec<CheckRecord> {
    let files = [
        ("base/check.bin", 3551),
        ("t02/check.bin", 1527),
        ("t03/check.bin", 1534),
        ("t04/check.bin", 1435),
        ("t05/check.bin", 1506),
        ("t06/check.bin", 966),
    ];
    let records = files.map(|(file, count)| {
        let records = corpus::read_checks(&read(file)).expect("whole records");
        assert_eq!(records.len(), count, "{file}");
        records
    });
    records.concat()
}

pub fn evals() -> Vec<EvalRecord> {
    let mut records = corpus::read_narrow_evals(&read("base/eval.bin")).expect("whole records");
    assert_eq!(records.len(), 519, "base/eval.bin");
    let files = [
        ("t04/eval.bin", 399),
        ("t05/eval.bin", 356),
        ("t06/eval.bin", 274),
    ];
    for (file, count) in files {
        let more = corpus::read_evals(&read(file)).expect("whole records");
        assert_eq!(more.len(), count, "{file}");
        records.extend(more);
    }
    records
}

pub fn writes() -> Vec<WriteRecord> {
    let files = [
        ("t01/write.bin", 640),
        ("t04/write.bin", 337),
        ("t05/write.bin", 598),
        ("t06/write.bin", 240),
    ];
    let records = files.map(|(file, count)| {
        let records = corpus::read_writes(&read(file)).expect("whole records");
        assert_eq!(records.len(), count, "{file}");
        records
    });
    records.concat()
}

pub fn joins() -> Vec<JoinRecord> {
    let records = corpus::read_joins(&read("t07/join.bin")).expect("whole records");
    assert_eq!(records.len(), 300, "t07/join.bin");
    records
}

fn read(file: &str) -> Vec<u8> {
    let folder = Path::new(env!("CARGO_MANIFEST_DIR")).join("../vectors");
    std::fs::read(folder.join(file)).expect("the vectors")
}
