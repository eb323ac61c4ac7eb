//! The writer, over the vectors and over generated records: the answer, the file
//! and every place of the lent slices.

use gate_tests::decode::{self, Decoding};
use gate_tests::lent::{Canary, Lengths, Lent, LentRecords, LentWords, CODES, ENTRIES, NODES};
use gate_tests::tables::{self, no_goals, nu_of_box, sized, sized_goals, two_goals};
use gate_tests::{check, evaluate, present, setting, vectors, write_claim, write_proof};
use gate_tests::{Entry, Gate, Node, Records};
use reference::corpus::WriteRecord;
use reference::generate::{self, Empty, Tally};
use reference::{describe, describe_wide, Form, Kind, NodeRecord, Refusal, Rule, Written};
use std::collections::BTreeMap;
use Call::{WritingClaim, WritingProof};

#[derive(Clone, Copy, Debug, PartialEq, Eq)]
enum Call {
    WritingClaim,
    WritingProof,
}

/// Records, and what each call must make of them.
struct Case {
    records: Records,
    claim: Written,
    proof: Written,
}

impl Case {
    fn new(record: WriteRecord) -> Case {
        Case {
            records: Records::from(&record.records),
            claim: record.claim,
            proof: record.proof,
        }
    }

    /// Records with the reference's opinion of them.
    fn judged(records: &reference::Records) -> Case {
        Case {
            records: Records::from(records),
            claim: records.write_claim(),
            proof: records.write_proof(),
        }
    }

    fn calls(&self) -> [(Call, &Written); 2] {
        [(WritingClaim, &self.claim), (WritingProof, &self.proof)]
    }
}

fn cases() -> Vec<Case> {
    vectors::writes().into_iter().map(Case::new).collect()
}

fn refused(number: u16, place: u32) -> Written {
    Err(Refusal { number, place })
}

fn answer(written: &Written) -> u64 {
    reference::written(written.as_ref().map(Vec::len).map_err(|refusal| *refusal))
}

fn shown(answer: u64) -> String {
    match answer >> 32 {
        0 => format!("{answer} bytes"),
        1 => describe(answer as u32),
        _ => format!("{answer:#x}"),
    }
}

/// The answer, the file at the start of the output slice or no byte of it, and
/// nothing else touched.
fn assert_written(
    call: Call,
    (records, lengths): (&Records, Lengths),
    expected: &Written,
    lent: &mut LentRecords,
    what: &str,
) {
    let slices = &mut lent.lend(records, lengths);
    let got = match call {
        WritingClaim => write_claim(slices),
        WritingProof => write_proof(slices),
    };
    let what = format!("{what}, {call:?} in {lengths:?}");
    assert_eq!(shown(got), shown(answer(expected)), "{what}");
    let file = expected.as_deref().unwrap_or_default();
    lent.assert_holds(records, file, &what);
}

fn assert_both(case: &Case, lengths: Lengths, lent: &mut LentRecords, what: &str) {
    for (call, expected) in case.calls() {
        assert_written(call, (&case.records, lengths), expected, lent, what);
    }
}

#[test]
fn every_write_record_agrees() {
    let mut lent = LentRecords::default();
    let (mut claims, mut proofs) = (0, 0);
    let cases = cases();
    for (index, case) in cases.iter().enumerate() {
        let what = format!("write record {index}");
        assert_both(case, Lengths::of(&case.records), &mut lent, &what);
        claims += u64::from(case.claim.is_ok());
        proofs += u64::from(case.proof.is_ok());
    }
    assert!(claims > 600 && proofs > 400, "{claims} and {proofs}");
    let all = cases.len();
    println!("gate: {all} write records agree, {claims} claims and {proofs} proofs written");
}

#[test]
fn every_write_record_in_longer_slices() {
    let mut lent = LentRecords::default();
    for (index, case) in cases().iter().enumerate() {
        let what = format!("write record {index}");
        let given = Lengths::of(&case.records);
        for more in [[1, 1, 1, 1], [300, 0, 0, 0], [0, 777, 0, 0], [0, 0, 900, 0]] {
            let lengths = Lengths {
                entries: given.entries + more[0],
                nodes: given.nodes + more[1],
                codes: given.codes + more[2],
                out: given.out + more[3],
            };
            assert_both(case, lengths, &mut lent, &what);
        }
    }
}

/// "1 ... a lent slice under 256 entries, 1,024 nodes, 24,576 codes", before all
/// else; the claim's writer is lent no nodes and codes.
#[test]
fn a_short_slice_earns_1_and_nothing_is_written() {
    let mut lent = LentRecords::default();
    for (index, case) in cases().iter().enumerate() {
        let what = format!("write record {index}");
        let full = Lengths::of(&case.records);
        let short = |entries, nodes, codes| Lengths {
            entries,
            nodes,
            codes,
            ..full
        };
        let mut assert_1 = |call, lengths| {
            let given = (&case.records, lengths);
            assert_written(call, given, &refused(1, 0), &mut lent, &what);
        };
        for lengths in [short(255, NODES, CODES), short(0, 0, 0)] {
            assert_1(WritingClaim, lengths);
            assert_1(WritingProof, lengths);
            assert_1(WritingProof, Lengths { out: 0, ..lengths });
        }
        for lengths in [
            short(ENTRIES, 1023, CODES),
            short(ENTRIES, NODES, 24_575),
            short(ENTRIES, 0, CODES),
            short(ENTRIES, NODES, 0),
        ] {
            assert_1(WritingProof, lengths);
        }
        let claim_alone = (&case.records, short(ENTRIES, 0, 0));
        assert_written(WritingClaim, claim_alone, &case.claim, &mut lent, &what);
    }
}

/// An output slice as long as the file is enough; "70, the output slice is shorter
/// than the file, judged after the records, with place 0". Answers how many were
/// too short.
fn assert_outputs(case: &Case, lent: &mut LentRecords, what: &str) -> u64 {
    let full = Lengths::of(&case.records);
    let mut short = 0;
    for (call, expected) in case.calls() {
        let mut assert_in = |out: usize, expected: &Written| {
            let given = (&case.records, Lengths { out, ..full });
            assert_written(call, given, expected, lent, what);
        };
        let Ok(file) = expected else {
            assert_in(0, expected);
            continue;
        };
        assert_in(file.len(), expected);
        for out in [file.len() - 1, file.len() / 2, 0] {
            assert_in(out, &refused(70, 0));
            short += 1;
        }
    }
    short
}

#[test]
fn a_short_output_earns_70_after_all_else() {
    let mut lent = LentRecords::default();
    let mut short = 0;
    for (index, case) in cases().iter().enumerate() {
        short += assert_outputs(case, &mut lent, &format!("write record {index}"));
    }
    assert!(short > 2000, "only {short} output slices were too short");
}

/// The codes that the nodes up to the count have, as far as there are so many.
fn codes_counted(records: &Records) -> usize {
    let nodes = records.nodes.iter().take(records.node_count);
    let codes: usize = nodes.map(|node| usize::from(node.count)).sum();
    codes.min(records.codes.len())
}

/// The records with other values beyond the counts: such as no record has, or such
/// as would do.
fn with_other_values(records: &Records, would_do: bool) -> Records {
    let mut other = records.clone();
    let known = (records.entries[0], records.nodes[0]);
    let codes = codes_counted(records);
    for (place, entry) in other.entries.iter_mut().enumerate() {
        if place >= records.entry_count {
            *entry = if would_do {
                known.0
            } else {
                Entry::canary(place)
            };
        }
    }
    for (place, node) in other.nodes.iter_mut().enumerate() {
        if place >= records.node_count {
            *node = if would_do {
                known.1
            } else {
                Node::canary(place)
            };
        }
    }
    for (place, code) in other.codes.iter_mut().enumerate().skip(codes) {
        *code = if would_do { 1 } else { u16::canary(place) };
    }
    other
}

#[test]
fn what_stands_beyond_the_counts_does_not_count() {
    let mut lent = LentRecords::default();
    let mut changed = 0;
    for (index, case) in cases().into_iter().enumerate() {
        for would_do in [false, true] {
            let what = format!("write record {index}, would do: {would_do}");
            let records = with_other_values(&case.records, would_do);
            changed += u64::from(records != case.records);
            let (claim, proof) = (case.claim.clone(), case.proof.clone());
            let other = Case {
                records,
                claim,
                proof,
            };
            assert_both(&other, Lengths::of(&other.records), &mut lent, &what);
        }
    }
    assert!(changed > 1000, "only {changed} were other records");
}

/// The records of two files, as they are read off the bytes here.
fn records_of(claim: &[u8], proof: &[u8]) -> Records {
    let Decoding {
        entries,
        nodes,
        codes,
    } = decode::decode(claim, proof);
    let goals = decode::goals(claim);
    Records {
        form: decode::form(claim),
        entry_count: entries.len(),
        entries,
        goal_counts: goals.iter().map(|goal| goal.len() as u16).collect(),
        members: goals.concat(),
        node_count: nodes.len(),
        nodes,
        roots: decode::roots(claim, proof),
        codes,
    }
}

/// What is lent up to the counts.
fn counted(records: &Records) -> Decoding {
    Decoding {
        entries: records.entries[..records.entry_count].to_vec(),
        nodes: records.nodes[..records.node_count].to_vec(),
        codes: records.codes[..codes_counted(records)].to_vec(),
    }
}

/// "Reading a written file must give the records back": a claim's by evaluating it
/// in a model of one state, a claim's and proof's by presenting them.
struct Readers {
    words: LentWords,
    slices: Lent,
}

impl Readers {
    fn new() -> Readers {
        Readers {
            words: LentWords::least(),
            slices: Lent::least(),
        }
    }

    /// Whether both files were written.
    fn assert_give_back(&mut self, case: &Case, what: &str) -> bool {
        let records = &case.records;
        let Ok(claim) = &case.claim else {
            return false;
        };
        self.words.renew();
        let got = evaluate(claim, b"MDL1\x01\0", &mut self.words);
        assert_eq!(describe_wide(got), "accept", "{what}");
        let entries = &records.entries[..records.entry_count];
        self.words.entries.assert_holds(entries, what);
        let Ok(proof) = &case.proof else {
            return false;
        };
        self.slices.renew();
        let mut gate = Gate {
            phase: Gate::OPEN,
            tag: 0,
        };
        let got = present(&mut gate, 7, claim, proof, &mut self.slices);
        assert!(matches!(got >> 16, 0 | 36..=39), "{what}: {got:#x}");
        assert_eq!(check(claim, proof), got, "{what}");
        self.slices.assert_holds(&counted(records), what);
        assert_reference_gives_back(records, claim, proof, what);
        true
    }
}

fn assert_reference_gives_back(records: &Records, claim: &[u8], proof: &[u8], what: &str) {
    let read = reference::judge(claim, proof).decoded;
    let read = tables::read(&read.expect("what is written is well formed"));
    assert_eq!(counted(&Records::from(&read)), counted(records), "{what}");
    assert_eq!(read.form, records.form, "{what}");
    assert_eq!(read.goal_counts, records.goal_counts, "{what}");
    assert_eq!(read.members, records.members, "{what}");
    assert_eq!(read.roots, records.roots, "{what}");
}

/// Records whose two calls were refused or not, by form and goals.
#[derive(Debug, Default)]
struct Shares {
    /// Of the form of several goals.
    goals: u64,
    /// Of these, both files written with two goals at least, and trees that interleave.
    several: u64,
    interleaved: u64,
    /// Of no form.
    none: u64,
    /// Without entries, goals or nodes, and of these how many of which both files are
    /// written.
    empty: BTreeMap<Empty, u64>,
    empty_written: u64,
}

impl Shares {
    fn count_empty(&mut self, record: &WriteRecord) {
        if let Some(empty) = Empty::of_records(&record.records) {
            *self.empty.entry(empty).or_default() += 1;
            self.empty_written += u64::from(record.claim.is_ok() && record.proof.is_ok());
        }
    }

    fn count(&mut self, case: &Case) {
        self.goals += u64::from(case.records.form == Form::Several as u8);
        self.none += u64::from(Form::from_number(case.records.form).is_none());
        let (Ok(claim), Ok(proof)) = (&case.claim, &case.proof) else {
            return;
        };
        self.several += u64::from(case.records.roots.len() > 1);
        let decoded = reference::judge(claim, proof).decoded;
        let decoded = decoded.expect("what is written is well formed");
        self.interleaved += u64::from(generate::interleaved(&decoded));
    }

    /// Enough of each sort among so many.
    fn assert_telling(&self, count: u64) {
        assert!(self.goals * 3 > count, "{self:?}");
        assert!(
            self.several * 12 > count && self.interleaved * 24 > count,
            "{self:?}"
        );
        assert!(self.none * 200 > count, "{self:?}");
        for form in Empty::ALL {
            let lacking = self.empty.get(&form).copied().unwrap_or_default();
            assert!(lacking * 400 > count, "{form:?} in {self:?}");
        }
        assert!(self.empty_written * 100 > count, "{self:?}");
    }
}

#[test]
fn written_vectors_give_the_records_back() {
    let mut readers = Readers::new();
    let mut both = 0;
    for (index, case) in cases().iter().enumerate() {
        let what = format!("write record {index}");
        both += u64::from(readers.assert_give_back(case, &what));
    }
    assert!(both > 200, "only {both} pairs were written");
}

/// Records good and damaged in every field; `GATE_RECORDS` sets how many,
/// `GATE_SEED` the seed.
#[test]
fn generated_records_are_written_alike() {
    let count = setting("GATE_RECORDS", 30_000);
    let mut lent = LentRecords::default();
    let mut readers = Readers::new();
    let mut both = 0;
    let mut numbers = Vec::new();
    let mut shares = Shares::default();
    let records = generate::writes(setting("GATE_SEED", 1));
    for (index, record) in records.take(count as usize).enumerate() {
        let what = format!("generated records {index}");
        shares.count_empty(&record);
        let case = Case::new(record);
        assert_both(&case, Lengths::of(&case.records), &mut lent, &what);
        assert_outputs(&case, &mut lent, &what);
        both += u64::from(readers.assert_give_back(&case, &what));
        shares.count(&case);
        numbers.push(case.proof.err().map_or(0, |refusal| refusal.number.into()));
    }
    let tally = Tally::of(numbers.into_iter());
    let ranges = (12..=14).chain(20..=23).chain(32..=35);
    for number in ranges.chain([10, 71, 72]) {
        let seen = tally.count(number) > 0 || count < 10_000;
        assert!(seen, "no refusal {number} in\n{tally}");
    }
    assert!(both * 4 > count, "only {both} of {count} were written");
    println!(
        "gate: {count} generated records agree, {both} pairs written and read again; {} of the \
         form of several goals, {} of them written with several, {} with trees that interleave; \
         {} of no form; lacking {:?} ({} written)",
        shares.goals,
        shares.several,
        shares.interleaved,
        shares.none,
        shares.empty,
        shares.empty_written
    );
    shares.assert_telling(count);
}

/// Whether a 0 is written out in a claim: it has more bytes than its records want.
fn is_written_out(claim: &[u8]) -> bool {
    let entries = decode::entries(claim);
    let modal = entries.iter().filter(|entry| matches!(entry.kind, 6 | 7));
    let wanted = modal.filter(|entry| entry.b != 0).count();
    let mut at = 6;
    let mut with_map_3 = 0;
    for entry in &entries {
        let map = claim[at];
        with_map_3 += usize::from(map == 3 && matches!(entry.kind, 6 | 7));
        at += 2 + 2 * map.count_ones() as usize;
    }
    with_map_3 != wanted
}

/// A node, with as many roots as a claim of that form wants.
fn any_proof(claim: &[u8]) -> Vec<u8> {
    match decode::form(claim) {
        1 => b"PRF1\x01\0\0\0".to_vec(),
        _ => {
            let roots = [0, 0].repeat(decode::goals(claim).len());
            [b"PRF2\x01\0", &roots[..], &[0, 0]].concat()
        }
    }
}

/// What the writer must make of two files' records: "with the number and place the
/// reader would give for the file", and "writing the records of an accepted file
/// must give its bytes back". None where a file is not whole, or has what no record
/// can say.
fn case_of_files(claim: &[u8], proof: &[u8], answer: u32) -> Option<Case> {
    let refusal = || Err(Refusal::unpack(answer).expect("a refusal"));
    let (proof, written) = match answer >> 16 {
        0 | 36..=39 => (proof.to_vec(), (Ok(claim.to_vec()), Ok(proof.to_vec()))),
        35 => (proof.to_vec(), (Ok(claim.to_vec()), refusal())),
        20..=23 | 71 if !is_written_out(claim) => (any_proof(claim), (refusal(), refusal())),
        _ => return None,
    };
    Some(Case {
        records: records_of(claim, &proof),
        claim: written.0,
        proof: written.1,
    })
}

#[test]
fn records_of_files_give_the_bytes_back() {
    let mut lent = LentRecords::default();
    let (mut accepted, mut actions, mut goals, mut files) = (0, 0, 0, 0);
    let generated = generate::checks(setting("GATE_SEED", 1) + 2).take(10_000);
    for (index, record) in vectors::checks().into_iter().chain(generated).enumerate() {
        assert_eq!(check(&record.claim, &record.proof), record.answer);
        let case = case_of_files(&record.claim, &record.proof, record.answer);
        let Some(case) = case else { continue };
        let what = format!("file {index}");
        assert_both(&case, Lengths::of(&case.records), &mut lent, &what);
        accepted += u64::from(record.answer == 0);
        actions += u64::from(record.number() == 71);
        goals += u64::from(case.records.roots.len() > 1);
        files += 1;
    }
    assert!(
        accepted > 2000 && actions > 50 && goals > 2000 && files > 6000,
        "{accepted} accepted of {files}, {actions} with unfit actions, {goals} of several goals"
    );
    println!(
        "gate: records of {files} files written again, {accepted} of them accepted, {goals} of \
         several goals"
    );
}

/// The gate does what the reference does; answers what that is.
fn alike(records: &reference::Records, lent: &mut LentRecords, what: &str) -> [String; 2] {
    let case = Case::judged(records);
    assert_both(&case, Lengths::of(&case.records), lent, what);
    [&case.claim, &case.proof].map(|written| shown(answer(written)))
}

/// Every kind byte with each field 0 and not, and every rule byte likewise.
#[test]
fn every_kind_and_rule_with_every_field_agrees() {
    let mut lent = LentRecords::default();
    let (mut claims, mut proofs) = (0, 0);
    let bit = |bits: u16, at: u16| bits >> at & 1;
    for kind in 0..=255 {
        for bits in 0..4 {
            let mut records = nu_of_box();
            records.entries[1] = tables::entry(kind, [0, 1].map(|at| bit(bits, at)));
            let what = format!("kind {kind}, fields {bits}");
            let [claim, _] = alike(&records, &mut lent, &what);
            claims += u64::from(claim != "refuse 13 at 10");
        }
    }
    for rule in 0..=255 {
        for bits in 0..32 {
            let mut records = nu_of_box();
            let fields = [0, 1, 2, 3].map(|at| bit(bits, at));
            records.nodes[0] = tables::node(rule, fields, bit(bits, 4) as u8);
            let what = format!("rule {rule}, fields {bits}");
            let [_, proof] = alike(&records, &mut lent, &what);
            proofs += u64::from(proof != "refuse 33 at 6");
        }
    }
    // Kinds 0 and 1 have one good pair each, 2, 3 and 8 to 10 two, 4 to 7 four.
    assert_eq!(claims, 2 + 2 * 5 + 4 * 4);
    // By their fields rules 0 and 1 have one pair each, 3 eight, 10 and 11 two, the
    // seven others four; each with codes and without.
    assert_eq!(proofs, 2 * (2 + 8 + 2 + 2 + 4 * 7));
}

/// Every action of a box and of a diamond, and numbers that are none: "B above 15 is
/// 71", and "B = 0 is map 1".
#[test]
fn every_action_agrees() {
    let mut lent = LentRecords::default();
    let mut readers = Readers::new();
    let high = (9..16).flat_map(|bit| [(1 << bit) - 1, 1 << bit, (1 << bit) + 1]);
    let actions: Vec<u16> = (0..=300).chain(high).chain([65_534, 65_535]).collect();
    for kind in [Kind::Diamond, Kind::Box] {
        for &action in &actions {
            let mut records = nu_of_box();
            records.entries[1] = tables::entry(kind as u8, [0, action]);
            let what = format!("{kind:?} by {action}");
            let case = Case::judged(&records);
            assert_both(&case, Lengths::of(&case.records), &mut lent, &what);
            let expected = match action {
                0 => Ok(22),
                1..=15 => Ok(24),
                _ => Err(71),
            };
            let claim = case.claim.as_ref();
            assert_eq!(
                claim.map(Vec::len).map_err(|r| r.number),
                expected,
                "{what}"
            );
            assert_eq!(readers.assert_give_back(&case, &what), action <= 15);
        }
    }
}

/// Every code count, at the first node and at the last, and every field of every
/// record with each number near a limit.
#[test]
fn every_count_and_large_fields_agree() {
    let mut lent = LentRecords::default();
    for node in 0..4 {
        for count in 0..=255 {
            let mut records = nu_of_box();
            records.nodes[node].count = count;
            let what = format!("{count} codes in node {node}");
            let [_, proof] = alike(&records, &mut lent, &what);
            if count > 24 {
                let offsets = [10, 19, 28, 35];
                assert_eq!(proof, format!("refuse 32 at {}", offsets[node]), "{what}");
            }
        }
    }
    for number in [1, 2, 3, 4, 31, 32, 255, 256, 511, 512, 1023, 1024, 65_535] {
        for at in 0..3 {
            for field in 0..2 {
                let mut records = nu_of_box();
                let entry = &mut records.entries[at];
                *[&mut entry.a, &mut entry.b][field] = number;
                alike(&records, &mut lent, &format!("{number} in entry {at}"));
            }
        }
        for at in 0..4 {
            for field in 0..5 {
                let mut records = nu_of_box();
                let node = &mut records.nodes[at];
                let code = &mut records.codes[at];
                let NodeRecord {
                    principal,
                    first,
                    second,
                    back,
                    ..
                } = node;
                *[principal, first, second, back, code][field] = number;
                alike(&records, &mut lent, &format!("{number} in node {at}"));
            }
        }
    }
}

/// A count is judged as the number it is, not by its lowest bits.
#[test]
fn counts_of_any_size() {
    let mut lent = LentRecords::default();
    let wide = |count: usize| [16, 31, 32, 63].map(|bit| count | 1 << bit);
    for count in [&[0, 257, usize::MAX][..], &wide(3)].concat() {
        let mut records = nu_of_box();
        records.entry_count = count;
        let answers = alike(&records, &mut lent, &format!("{count} entries"));
        assert_eq!(answers, ["refuse 12 at 4", "refuse 12 at 4"]);
    }
    for count in [&[0, 1025, usize::MAX][..], &wide(4)].concat() {
        let mut records = nu_of_box();
        records.node_count = count;
        let answers = alike(&records, &mut lent, &format!("{count} nodes"));
        assert_eq!(answers, ["22 bytes", "refuse 32 at 4"]);
    }
    for count in [0, 25, 256, 257, 65_535, 65_536, 65_537, 65_560] {
        let records = tables::with_members(nu_of_box(), vec![2; count]);
        let answers = alike(&records, &mut lent, &format!("{count} members"));
        assert_eq!(answers, ["refuse 12 at 18", "refuse 12 at 18"]);
    }
}

/// A record beyond the ones of the sample is taken in by a count one higher.
#[test]
fn a_count_one_lower_or_higher() {
    let mut lent = LentRecords::default();
    let mut answers = |entries, nodes| {
        let mut records = nu_of_box();
        records.entry_count = entries;
        records.node_count = nodes;
        alike(&records, &mut lent, &format!("{entries}, {nodes}"))
    };
    assert_eq!(answers(3, 4), ["22 bytes", "38 bytes"]);
    assert_eq!(answers(2, 4), ["refuse 14 at 16", "refuse 14 at 16"]);
    assert_eq!(answers(4, 4), ["refuse 13 at 18", "refuse 13 at 18"]);
    assert_eq!(answers(3, 3), ["22 bytes", "refuse 35 at 2"]);
    assert_eq!(answers(3, 5), ["22 bytes", "refuse 33 at 38"]);
    assert_eq!(answers(4, 5), ["refuse 13 at 18", "refuse 13 at 18"]);
}

/// Each count at its limit, and one beyond.
#[test]
fn limits() {
    let mut lent = LentRecords::default();
    let mut answers = |entries, members, nodes, codes| {
        let what = format!("{entries}, {members}, {nodes}, {codes}");
        let records = sized(entries, members, nodes, codes);
        alike(&records, &mut lent, &what)
    };
    assert_eq!(answers(256, 24, 1024, 24), ["1590 bytes", "56324 bytes"]);
    assert_eq!(answers(256, 1, 1, 0), ["1544 bytes", "10 bytes"]);
    assert_eq!(answers(257, 24, 1, 1), ["refuse 12 at 4"; 2]);
    assert_eq!(answers(256, 25, 1, 1), ["refuse 12 at 1540"; 2]);
    assert_eq!(answers(256, 24, 1025, 1), ["1590 bytes", "refuse 32 at 4"]);
    assert_eq!(answers(256, 24, 1, 25), ["1590 bytes", "refuse 32 at 10"]);
    assert_eq!(answers(255, 24, 1, 1), ["refuse 14 at 1582"; 2]);
    let mut records = sized(256, 24, 1024, 24);
    records.codes[24_575] = 65_535;
    let last = alike(&records, &mut lent, "the last code");
    assert_eq!(last[1], "refuse 34 at 56322");
}

/// The longest files again, in output slices of just their lengths and shorter ones.
#[test]
fn the_longest_files_just_fit() {
    let case = Case::judged(&sized(256, 24, 1024, 24));
    let mut lent = LentRecords::default();
    assert_eq!(assert_outputs(&case, &mut lent, "the longest files"), 6);
    assert!(Readers::new().assert_give_back(&case, "the longest files"));
}

/// The sample of two goals with something changed: what both calls answer.
fn of_two_goals(lent: &mut LentRecords, change: impl Fn(&mut reference::Records)) -> [String; 2] {
    let mut records = two_goals();
    change(&mut records);
    alike(&records, lent, "two goals")
}

/// "any other number is 10 at 0, after 1"
#[test]
fn every_form() {
    let mut lent = LentRecords::default();
    for form in 0..=255 {
        let mut records = two_goals();
        records.form = form;
        let expected = match form {
            // Two counts in place of one, before the roots are looked at.
            1 => ["refuse 12 at 26", "refuse 12 at 26"],
            2 => ["38 bytes", "49 bytes"],
            _ => ["refuse 10 at 0", "refuse 10 at 0"],
        };
        let what = format!("form {form}");
        assert_eq!(alike(&records, &mut lent, &what), expected, "{what}");
        records.entry_count = 0;
        let counted = match form {
            1 => "refuse 12 at 4",
            // The members of its goals are then those of no entries.
            2 => "refuse 14 at 10",
            _ => "refuse 10 at 0",
        };
        assert_eq!(alike(&records, &mut lent, &what), [counted; 2], "{what}");
        let case = Case::judged(&records);
        let full = Lengths::of(&case.records);
        for (entries, nodes, codes) in [(255, NODES, CODES), (ENTRIES, 1023, CODES), (0, 0, 0)] {
            let short = Lengths {
                entries,
                nodes,
                codes,
                ..full
            };
            let given = (&case.records, short);
            assert_written(WritingProof, given, &refused(1, 0), &mut lent, &what);
        }
    }
}

/// "72, then the sum (12 at the goal count), then list by list". The goal count of the
/// sample stands at 26.
#[test]
fn goal_counts_that_do_not_add_up() {
    let mut lent = LentRecords::default();
    let mut assert_both_refuse = |counts: &[u16], expected: &str| {
        let got = of_two_goals(&mut lent, |records| records.goal_counts = counts.to_vec());
        assert_eq!(got, [expected; 2], "{counts:?}");
    };
    for length in [17, 18, 65_535, 65_536, 65_537, 65_538] {
        assert_both_refuse(&vec![0; length], "refuse 72 at 26");
    }
    for counts in [
        &[][..],
        &[2],
        &[1, 2, 1],
        &[1, 1],
        &[2, 2],
        &[0, 0],
        &[32_769, 32_770],
        &[1, 2, 32_768, 32_768],
        &[65_535, 4],
        &[65_535; 16],
    ] {
        assert_both_refuse(counts, "refuse 12 at 26");
    }
    assert_both_refuse(&[0, 3], "refuse 12 at 28");
    assert_both_refuse(&[3, 0], "refuse 12 at 36");
    assert_both_refuse(&[1, 2, 0], "refuse 12 at 38");
    // In one goal the members rise as well; then there is a root too many.
    let one = of_two_goals(&mut lent, |records| records.goal_counts = vec![3]);
    assert_eq!(one, ["36 bytes", "refuse 34 at 6"]);
}

/// "the roots in a slice as long as the goal count (else 34 where the roots begin)",
/// each of them rising and a node.
#[test]
fn roots_of_every_length_and_number() {
    let mut lent = LentRecords::default();
    let mut proof_of = |roots: Vec<u16>| {
        let [claim, proof] = of_two_goals(&mut lent, |records| records.roots = roots.clone());
        assert_eq!(claim, "38 bytes");
        proof
    };
    for length in [0, 1, 3, 16, 17, 65_535, 65_536, 65_538] {
        assert_eq!(
            proof_of((0..length).map(|n| n as u16).collect()),
            "refuse 34 at 6"
        );
    }
    let high = (11..16).flat_map(|bit| [(1 << bit) - 1, 1 << bit, (1 << bit) + 2]);
    for number in (0..1100).chain(high).chain([65_534, 65_535]) {
        let second = match number {
            2 => "49 bytes",
            // Root 2 of before is an orphan, unless its own parent is refused first.
            1 => "refuse 35 at 0",
            3 => "refuse 35 at 1",
            4 => "refuse 35 at 3",
            _ => "refuse 34 at 8",
        };
        assert_eq!(proof_of(vec![0, number]), second, "second root {number}");
        if number > 4 {
            assert_eq!(proof_of(vec![number, 2]), "refuse 34 at 6");
        }
    }
    assert_eq!(proof_of(vec![1, 2]), "refuse 35 at 0");
    assert_eq!(proof_of(vec![2, 3]), "refuse 35 at 1");
}

/// "Forms with one goal: the goal count slice is one number, the length of the
/// members' slice, and there are no roots."
#[test]
fn one_goal_has_one_count_and_no_roots() {
    let mut lent = LentRecords::default();
    for counts in [
        &[][..],
        &[0],
        &[2],
        &[1, 0],
        &[0, 1],
        &[1; 16],
        &[1; 17],
        &[0; 65_537],
    ] {
        let mut records = nu_of_box();
        records.goal_counts = counts.to_vec();
        let answers = alike(&records, &mut lent, "other goal counts");
        assert_eq!(answers, ["refuse 12 at 18"; 2]);
    }
    for length in [1, 2, 16, 65_536] {
        let mut records = nu_of_box();
        records.roots = vec![0; length];
        let what = format!("{length} roots");
        let answers = alike(&records, &mut lent, &what);
        assert_eq!(answers, ["22 bytes", "refuse 34 at 6"]);
        records.node_count = 0;
        let answers = alike(&records, &mut lent, &what);
        assert_eq!(answers, ["22 bytes", "refuse 32 at 4"]);
    }
}

/// Up to 16 goals of 24 members, and one more of either.
#[test]
fn limits_of_goals() {
    let mut lent = LentRecords::default();
    let mut answers = |goals, members, nodes| {
        let what = format!("{goals} goals, {members} members, {nodes} nodes");
        let records = sized_goals(goals, sized(256, members, nodes, 24));
        alike(&records, &mut lent, &what)
    };
    assert_eq!(answers(1, 24, 1024), ["1592 bytes", "56326 bytes"]);
    assert_eq!(answers(16, 24, 1024), ["2342 bytes", "56326 bytes"]);
    assert_eq!(answers(17, 24, 1024), ["refuse 72 at 1540"; 2]);
    assert_eq!(answers(16, 25, 1024), ["refuse 12 at 1542"; 2]);
    assert_eq!(answers(16, 24, 1025), ["2342 bytes", "refuse 32 at 4"]);
    assert_eq!(answers(16, 24, 16), ["2342 bytes", "886 bytes"]);
}

/// The longest files of several goals in output slices of just their lengths and
/// shorter ones, and what is written read again.
#[test]
fn the_longest_files_of_several_goals_just_fit() {
    let mut lent = LentRecords::default();
    for goals in [1, 6, 16] {
        let case = Case::judged(&sized_goals(goals, sized(256, 24, 1024, 24)));
        let what = format!("the longest files of {goals} goals");
        assert_eq!(assert_outputs(&case, &mut lent, &what), 6);
        assert!(Readers::new().assert_give_back(&case, &what));
    }
}

/// "In the `CLM2` form, zero entries and zero goals are now good", and with them zero
/// nodes: both files in output slices of just their lengths and shorter ones, and read
/// again.
#[test]
fn nothing_is_written_and_read_again() {
    let mut lent = LentRecords::default();
    let mut records = no_goals();
    for entries in [0, 1, 256] {
        records.entry_count = entries;
        let truth = tables::entry(Kind::True as u8, [0, 0]);
        records.entries[..entries].fill(truth);
        let case = Case::judged(&records);
        let lengths = [&case.claim, &case.proof].map(|file| file.as_ref().map(Vec::len));
        assert_eq!(lengths, [Ok(8 + 2 * entries), Ok(6)]);
        let what = format!("{entries} entries and no goals");
        assert_both(&case, Lengths::of(&case.records), &mut lent, &what);
        assert_eq!(assert_outputs(&case, &mut lent, &what), 6);
        assert!(Readers::new().assert_give_back(&case, &what));
        for out in 0..6 {
            let short = Lengths {
                out,
                ..Lengths::of(&case.records)
            };
            let given = (&case.records, short);
            assert_written(WritingClaim, given, &refused(70, 0), &mut lent, &what);
            assert_written(WritingProof, given, &refused(70, 0), &mut lent, &what);
        }
    }
}

/// "Slices under their length get 1 all the same."
#[test]
fn nothing_in_short_slices() {
    let mut lent = LentRecords::default();
    let case = Case::judged(&no_goals());
    let full = Lengths::of(&case.records);
    for (entries, nodes, codes) in [
        (255, NODES, CODES),
        (ENTRIES, 1023, CODES),
        (ENTRIES, NODES, 24_575),
        (0, 0, 0),
    ] {
        let short = Lengths {
            entries,
            nodes,
            codes,
            ..full
        };
        // No more records than are lent.
        let mut records = case.records.clone();
        records.entries.truncate(entries);
        records.nodes.truncate(nodes);
        records.codes.truncate(codes);
        let given = (&records, short);
        assert_written(WritingProof, given, &refused(1, 0), &mut lent, "nothing");
        let claim = match entries < ENTRIES {
            true => refused(1, 0),
            false => case.claim.clone(),
        };
        assert_written(WritingClaim, given, &claim, &mut lent, "nothing");
    }
}

/// Nothing but for one thing: what both calls answer.
fn of_nothing(lent: &mut LentRecords, change: impl Fn(&mut reference::Records)) -> [String; 2] {
    let mut records = no_goals();
    change(&mut records);
    alike(&records, lent, "nothing but for one thing")
}

#[test]
fn something_beside_nothing() {
    let mut lent = LentRecords::default();
    let mut answers = |change: &dyn Fn(&mut reference::Records)| of_nothing(&mut lent, change);
    assert_eq!(answers(&|_| {}), ["8 bytes", "6 bytes"]);
    assert_eq!(answers(&|records| records.form = 1), ["refuse 12 at 4"; 2]);
    for count in [257, 65_536, 1 << 32, 1 << 63] {
        let entries = answers(&|records| records.entry_count = count);
        assert_eq!(entries, ["refuse 12 at 4"; 2], "{count} entries");
    }
    for count in [1025, 65_536, 1 << 32, 1 << 63] {
        let nodes = answers(&|records| records.node_count = count);
        assert_eq!(nodes, ["8 bytes", "refuse 32 at 4"], "{count} nodes");
    }
    let entry = answers(&|records| records.entry_count = 1);
    assert_eq!(entry, ["refuse 13 at 6"; 2]);
    for length in [1, 16, 17, 65_536] {
        let members = answers(&|records| records.members = vec![0; length]);
        assert_eq!(members, ["refuse 12 at 6"; 2], "{length} members");
        let goals = answers(&|records| records.goal_counts = vec![0; length]);
        let expected = match length {
            1..=16 => "refuse 12 at 8",
            _ => "refuse 72 at 6",
        };
        assert_eq!(goals, [expected; 2], "{length} goals");
        let roots = answers(&|records| records.roots = vec![0; length]);
        assert_eq!(roots, ["8 bytes", "refuse 34 at 6"], "{length} roots");
    }
    let goal = answers(&|records| *records = tables::with_members(records.clone(), vec![0]));
    assert_eq!(goal, ["refuse 14 at 10"; 2]);
}

/// Counts that do not add up are a fault of the bytes, and come before those of the
/// table, also where no goal follows and the file up to there is whole.
#[test]
fn members_without_a_goal_before_the_table() {
    let mut lent = LentRecords::default();
    let mut answers = |members: &[u16]| {
        of_nothing(&mut lent, |records| {
            records.entries[0] = tables::entry(Kind::Letter as u8, [32, 0]);
            records.entry_count = 1;
            records.members = members.to_vec();
        })
    };
    assert_eq!(answers(&[]), ["refuse 20 at 0"; 2]);
    assert_eq!(answers(&[0]), ["refuse 12 at 10"; 2]);
}

/// "well-formed nodes get 35", from the writer too; and goals without nodes 34 where
/// the roots begin.
#[test]
fn nodes_without_goals_and_goals_without_nodes() {
    let mut lent = LentRecords::default();
    let mut proof_of = |nodes: &[NodeRecord]| {
        let [claim, proof] = of_nothing(&mut lent, |records| {
            records.nodes[..nodes.len()].copy_from_slice(nodes);
            records.node_count = nodes.len();
        });
        assert_eq!(claim, "8 bytes");
        proof
    };
    let leaf = tables::node(Rule::Ax2 as u8, [0; 4], 0);
    let d = |child| tables::node(Rule::D as u8, [0, child, 0, 0], 0);
    assert_eq!(proof_of(&[]), "6 bytes");
    assert_eq!(proof_of(&[leaf]), "refuse 35 at 0");
    assert_eq!(proof_of(&[d(1), leaf]), "refuse 35 at 0");
    assert_eq!(proof_of(&[d(1), d(0)]), "refuse 35 at 1");
    assert_eq!(proof_of(&[d(1), d(65_535)]), "refuse 35 at 1");
    assert_eq!(proof_of(&[leaf; 32]), "refuse 35 at 0");
    assert_eq!(proof_of(&[leaf; 33]), "refuse 35 at 0");
    assert_eq!(proof_of(&[leaf; 1024]), "refuse 35 at 0");
    let no_nodes = of_two_goals(&mut lent, |records| records.node_count = 0);
    assert_eq!(no_nodes, ["38 bytes", "refuse 34 at 6"]);
    let no_roots = of_two_goals(&mut lent, |records| {
        records.node_count = 0;
        records.roots.clear();
    });
    assert_eq!(no_roots, ["38 bytes", "refuse 34 at 6"]);
}
