//! Corpus files: records of inputs with the answer each must get. All numbers
//! little-endian.

use crate::goals::Form;
use crate::join::{joined, Files, Joined};
use crate::refusal::Refusal;
use crate::write::{EntryRecord, NodeRecord, Records, Written};
use std::fmt;

/// `[u32 claim length][claim][u32 proof length][proof][u32 answer]`
#[derive(Clone, Debug, PartialEq, Eq)]
pub struct CheckRecord {
    pub claim: Vec<u8>,
    pub proof: Vec<u8>,
    pub answer: u32,
}

/// `[u32 claim length][claim][u32 model length][model][u64 answer][u32 n][n × u64]`
#[derive(Clone, Debug, PartialEq, Eq)]
pub struct EvalRecord {
    pub claim: Vec<u8>,
    pub model: Vec<u8>,
    /// 0, or refusal × 2^32 + place.
    pub answer: u64,
    pub words: Vec<u64>,
}

impl CheckRecord {
    /// The refusal's number; 0 is acceptance.
    pub fn number(&self) -> u32 {
        self.answer >> 16
    }

    /// The form that claim and proof are opened in, where it is one.
    pub fn form(&self) -> Option<Form> {
        let form = Form::of_claim(&self.claim)?;
        let opening = &form.proof().letters;
        self.proof.starts_with(opening).then_some(form)
    }
}

impl EvalRecord {
    pub fn number(&self) -> u32 {
        (self.answer >> 32) as u32
    }
}

/// What is given to the two calls of the writer, and what they answer:
/// `[u32 form][u32 entry count][u32 n][n × entry][u32 n][n × u16 goal counts]`
/// `[u32 n][n × u16 members][u32 node count][u32 n][n × node]`
/// `[u32 n][n × u16 roots][u32 n][n × u16 codes]`, then for the claim and for the
/// proof `[u64 answer][u32 n][n bytes]`.
#[derive(Clone, Debug, PartialEq, Eq)]
pub struct WriteRecord {
    pub records: Records,
    pub claim: Written,
    pub proof: Written,
}

/// Two claims with their proofs, the entry that they are to be joined at, and what comes
/// of it: `[u32 n][claim][u32 n][proof][u32 n][claim][u32 n][proof][u32 entry]`
/// `[u64 answer][u32 n][claim][u32 n][proof]`.
#[derive(Clone, Debug, PartialEq, Eq)]
pub struct JoinRecord {
    pub first: Files,
    pub second: Files,
    pub entry: u16,
    pub joined: Joined,
}

impl JoinRecord {
    /// The refusal's number; 0 is a join.
    pub fn number(&self) -> u32 {
        self.joined
            .as_ref()
            .map_or_else(|refusal| refusal.number.into(), |_| 0)
    }
}

/// A corpus that ends inside a record, or has a length that is not that of the
/// bytes beside it.
#[derive(Clone, Copy, Debug, PartialEq, Eq)]
pub struct Damaged {
    pub record: usize,
    pub offset: usize,
}

impl fmt::Display for Damaged {
    fn fmt(&self, f: &mut fmt::Formatter<'_>) -> fmt::Result {
        let Damaged { record, offset } = self;
        write!(
            f,
            "damaged corpus: record {record} is not whole at byte {offset}"
        )
    }
}

pub fn read_checks(bytes: &[u8]) -> Result<Vec<CheckRecord>, Damaged> {
    read_all(bytes, |reader| {
        Some(CheckRecord {
            claim: reader.file()?,
            proof: reader.file()?,
            answer: reader.four()?,
        })
    })
}

pub fn read_evals(bytes: &[u8]) -> Result<Vec<EvalRecord>, Damaged> {
    read_all(bytes, |reader| reader.eval(Reader::eight))
}

/// Evaluations with a u32 in place of the u64, refusal × 65,536 + place, as they
/// were answered before T-04: the same refusals.
pub fn read_narrow_evals(bytes: &[u8]) -> Result<Vec<EvalRecord>, Damaged> {
    let widened = |answer| Refusal::unpack(answer).map_or(0, Refusal::packed_wide);
    read_all(bytes, |reader| {
        reader.eval(|reader| reader.four().map(widened))
    })
}

/// "Entries, nodes and codes are to be lent at full length (256, 1,024, 24,576) or
/// longer, filled up with anything; members, goal counts and roots at just their
/// length". A form has one byte in the calls.
pub fn read_writes(bytes: &[u8]) -> Result<Vec<WriteRecord>, Damaged> {
    read_all(bytes, |reader| {
        let form = u8::try_from(reader.four()?).ok()?;
        let entry_count = reader.size()?;
        let entries = reader.list(Reader::entry)?;
        let goal_counts = reader.list(Reader::two)?;
        let members = reader.list(Reader::two)?;
        let node_count = reader.size()?;
        let nodes = reader.list(Reader::node)?;
        let roots = reader.list(Reader::two)?;
        let codes = reader.list(Reader::two)?;
        Some(WriteRecord {
            records: Records {
                form,
                entries: filled(entries, 256, ANY_ENTRY),
                entry_count,
                goal_counts,
                members,
                nodes: filled(nodes, 1024, ANY_NODE),
                node_count,
                roots,
                codes: filled(codes, 24_576, 0xfffe),
            },
            claim: reader.written()?,
            proof: reader.written()?,
        })
    })
}

/// An entry has two bytes in the call.
pub fn read_joins(bytes: &[u8]) -> Result<Vec<JoinRecord>, Damaged> {
    read_all(bytes, |reader| {
        Some(JoinRecord {
            first: reader.files()?,
            second: reader.files()?,
            entry: u16::try_from(reader.four()?).ok()?,
            joined: reader.joined()?,
        })
    })
}

const ANY_ENTRY: EntryRecord = EntryRecord {
    kind: 0xff,
    a: 0xfffe,
    b: 0xfffd,
};

const ANY_NODE: NodeRecord = NodeRecord {
    rule: 0xff,
    principal: 0xfffe,
    first: 0xfffd,
    second: 0xfffc,
    back: 0xfffb,
    count: 0xfe,
};

fn filled<T: Clone>(mut list: Vec<T>, length: usize, with: T) -> Vec<T> {
    list.resize(list.len().max(length), with);
    list
}

pub fn write_checks(records: &[CheckRecord]) -> Vec<u8> {
    let mut bytes = Vec::new();
    for record in records {
        put_file(&mut bytes, &record.claim);
        put_file(&mut bytes, &record.proof);
        bytes.extend(record.answer.to_le_bytes());
    }
    bytes
}

pub fn write_evals(records: &[EvalRecord]) -> Vec<u8> {
    let mut bytes = Vec::new();
    for record in records {
        put_file(&mut bytes, &record.claim);
        put_file(&mut bytes, &record.model);
        bytes.extend(record.answer.to_le_bytes());
        bytes.extend((record.words.len() as u32).to_le_bytes());
        bytes.extend(record.words.iter().flat_map(|word| word.to_le_bytes()));
    }
    bytes
}

fn put_file(bytes: &mut Vec<u8>, file: &[u8]) {
    bytes.extend((file.len() as u32).to_le_bytes());
    bytes.extend_from_slice(file);
}

fn read_all<T>(bytes: &[u8], read: impl Fn(&mut Reader) -> Option<T>) -> Result<Vec<T>, Damaged> {
    let mut reader = Reader { rest: bytes };
    let mut records = Vec::new();
    while !reader.rest.is_empty() {
        match read(&mut reader) {
            Some(record) => records.push(record),
            None => {
                return Err(Damaged {
                    record: records.len(),
                    offset: bytes.len() - reader.rest.len(),
                })
            }
        }
    }
    Ok(records)
}

struct Reader<'a> {
    rest: &'a [u8],
}

impl Reader<'_> {
    fn take<const N: usize>(&mut self) -> Option<[u8; N]> {
        let (head, rest) = self.rest.split_first_chunk::<N>()?;
        self.rest = rest;
        Some(*head)
    }

    fn one(&mut self) -> Option<u8> {
        self.take().map(u8::from_le_bytes)
    }

    fn two(&mut self) -> Option<u16> {
        self.take().map(u16::from_le_bytes)
    }

    fn four(&mut self) -> Option<u32> {
        self.take().map(u32::from_le_bytes)
    }

    fn eight(&mut self) -> Option<u64> {
        self.take().map(u64::from_le_bytes)
    }

    fn size(&mut self) -> Option<usize> {
        usize::try_from(self.four()?).ok()
    }

    fn file(&mut self) -> Option<Vec<u8>> {
        let length = self.size()?;
        let (file, rest) = self.rest.split_at_checked(length)?;
        self.rest = rest;
        Some(file.to_vec())
    }

    fn files(&mut self) -> Option<Files> {
        Some(Files {
            claim: self.file()?,
            proof: self.file()?,
        })
    }

    fn list<T>(&mut self, item: impl Fn(&mut Self) -> Option<T>) -> Option<Vec<T>> {
        let count = self.four()?;
        (0..count).map(|_| item(self)).collect()
    }

    fn eval(&mut self, answer: impl Fn(&mut Self) -> Option<u64>) -> Option<EvalRecord> {
        Some(EvalRecord {
            claim: self.file()?,
            model: self.file()?,
            answer: answer(self)?,
            words: self.list(Reader::eight)?,
        })
    }

    fn entry(&mut self) -> Option<EntryRecord> {
        Some(EntryRecord {
            kind: self.one()?,
            a: self.two()?,
            b: self.two()?,
        })
    }

    fn node(&mut self) -> Option<NodeRecord> {
        Some(NodeRecord {
            rule: self.one()?,
            principal: self.two()?,
            first: self.two()?,
            second: self.two()?,
            back: self.two()?,
            count: self.one()?,
        })
    }

    /// "an answer being the length, or 2^32 + refusal × 65,536 + place, and then
    /// no bytes"
    fn written(&mut self) -> Option<Written> {
        let answer = self.eight()?;
        let file = self.file()?;
        match (answer >> 32, Refusal::unpack(answer as u32)) {
            (0, _) if answer == file.len() as u64 => Some(Ok(file)),
            (1, Some(refusal)) if file.is_empty() => Some(Err(refusal)),
            _ => None,
        }
    }

    /// "The answer is claim length + 65,536 × proof length, or 2^32 + refusal × 65,536
    /// + place, and then both are empty."
    fn joined(&mut self) -> Option<Joined> {
        let answer = self.eight()?;
        let files = self.files()?;
        let none = files.claim.is_empty() && files.proof.is_empty();
        match (answer >> 32, Refusal::unpack(answer as u32)) {
            (0, _) if answer == joined(Ok(files.lengths())) => Some(Ok(files)),
            (1, Some(refusal)) if none => Some(Err(refusal)),
            _ => None,
        }
    }
}

#[cfg(test)]
mod tests {
    use super::*;

    #[test]
    fn records_come_back() {
        let checks = vec![CheckRecord {
            claim: vec![1, 2],
            proof: vec![],
            answer: 38 << 16 | 3,
        }];
        assert_eq!(read_checks(&write_checks(&checks)), Ok(checks));
        let evals = vec![EvalRecord {
            claim: vec![7],
            model: vec![8, 9],
            answer: 0,
            words: vec![u64::MAX, 1],
        }];
        assert_eq!(read_evals(&write_evals(&evals)), Ok(evals));
    }

    #[test]
    fn narrow_answers_are_widened() {
        let narrow = [0, 0, 0, 0, 0, 0, 0, 0, 5, 0, 63, 0, 0, 0, 0, 0];
        let evals = read_narrow_evals(&narrow).expect("a whole record");
        let [record] = &evals[..] else {
            panic!("one record");
        };
        assert_eq!(record.answer, 63 << 32 | 5);
        assert_eq!(record.number(), 63);
    }

    /// A record of that form without entries, members, nodes, codes, goal counts and
    /// roots.
    fn of_nothing(form: u32, claim: &[u8]) -> Vec<u8> {
        let refusal: u64 = 1 << 32 | 32 << 16 | 4;
        let proof = [&refusal.to_le_bytes()[..], &[0; 4]].concat();
        [&form.to_le_bytes()[..], &[0; 32], claim, &proof].concat()
    }

    #[test]
    fn records_to_be_written_are_filled_up() {
        let claim = [2, 0, 0, 0, 0, 0, 0, 0, 2, 0, 0, 0, 8, 9];
        let read = read_writes(&of_nothing(2, &claim)).expect("a whole record");
        let [record] = &read[..] else {
            panic!("one record");
        };
        assert_eq!(record.claim, Ok(vec![8, 9]));
        assert_eq!(record.proof, Err(Refusal::new(32, 4)));
        let Records {
            form,
            entries,
            nodes,
            codes,
            ..
        } = &record.records;
        assert_eq!(*form, 2);
        assert_eq!(
            (entries.len(), nodes.len(), codes.len()),
            (256, 1024, 24_576)
        );
    }

    #[test]
    fn a_length_beside_other_bytes_is_damage() {
        let claim = [3, 0, 0, 0, 0, 0, 0, 0, 2, 0, 0, 0, 8, 9];
        let offset = 36 + claim.len();
        let damaged = Damaged { record: 0, offset };
        assert_eq!(read_writes(&of_nothing(1, &claim)), Err(damaged));
    }

    #[test]
    fn a_form_of_more_than_a_byte_is_damage() {
        let claim = [2, 0, 0, 0, 0, 0, 0, 0, 2, 0, 0, 0, 8, 9];
        let damaged = Damaged {
            record: 0,
            offset: 4,
        };
        assert_eq!(read_writes(&of_nothing(256, &claim)), Err(damaged));
    }

    /// A pair of empty files twice, the entry, and what came of it.
    fn of_no_files(entry: u32, answer: u64, files: &[u8]) -> Vec<u8> {
        let answer = answer.to_le_bytes();
        [&[0; 16][..], &entry.to_le_bytes(), &answer, files].concat()
    }

    #[test]
    fn joins_are_files_or_a_refusal() {
        let refused = of_no_files(3, 1 << 32 | 10 << 16, &[0; 8]);
        let files = [1, 0, 0, 0, 7, 2, 0, 0, 0, 8, 9];
        let accepted = of_no_files(65_535, 2 << 16 | 1, &files);
        let records = read_joins(&[refused, accepted].concat()).expect("whole records");
        let [refused, accepted] = &records[..] else {
            panic!("two records");
        };
        assert_eq!(refused.joined, Err(Refusal::new(10, 0)));
        assert_eq!((refused.entry, refused.number()), (3, 10));
        let (claim, proof) = (vec![7], vec![8, 9]);
        assert_eq!(accepted.joined, Ok(Files { claim, proof }));
        assert_eq!((accepted.entry, accepted.number()), (65_535, 0));
    }

    #[test]
    fn other_lengths_than_those_of_the_joined_files_are_damage() {
        let files = [1, 0, 0, 0, 7, 2, 0, 0, 0, 8, 9];
        let whole = Damaged {
            record: 0,
            offset: 28 + files.len(),
        };
        for answer in [2 << 16 | 2, 3 << 16 | 1, 1 << 32 | 73 << 16] {
            let damaged = read_joins(&of_no_files(3, answer, &files));
            assert_eq!(damaged, Err(whole));
        }
        let entry = Damaged {
            record: 0,
            offset: 20,
        };
        assert_eq!(read_joins(&of_no_files(65_536, 0, &[0; 8])), Err(entry));
    }

    #[test]
    fn a_cut_record_is_damage() {
        let bytes = [1, 0, 0, 0, 9, 5, 0, 0, 0, 1];
        assert_eq!(
            read_checks(&bytes),
            Err(Damaged {
                record: 0,
                offset: 9
            })
        );
    }
}
