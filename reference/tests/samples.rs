//! The observed samples of the specification.

use reference::generate::extremes;
use reference::{check, describe, evaluate, Refusal};

/// Bytes from hexadecimal, blanks left out.
fn hex(text: &str) -> Vec<u8> {
    text.split_whitespace()
        .map(|byte| u8::from_str_radix(byte, 16).expect("hexadecimal"))
        .collect()
}

fn verdict(claim: &str, proof: &str) -> String {
    describe(check(&hex(claim), &hex(proof)))
}

const NU_BOX: &str = "43 4C 4D 31 03 00 01 0A 02 00 01 07 00 00 01 09 01 00 01 00 02 00";
const MU_BOX: &str = "43 4C 4D 31 03 00 01 0A 02 00 01 07 00 00 01 08 01 00 01 00 02 00";

#[test]
fn nu_of_box_is_accepted() {
    let proof = "50 52 46 31 04 00 12 0A 01 00 01 05 00 13 06 05 00 02 00 01 05 00 \
                 13 04 03 00 03 00 01 03 00 18 0B 00 00 01 05 00";
    assert_eq!(verdict(NU_BOX, proof), "accept");
}

#[test]
fn mu_of_box_with_the_leaf_out_of_focus() {
    let proof = "50 52 46 31 04 00 12 0A 01 00 01 05 00 13 05 05 00 02 00 01 05 00 \
                 13 04 02 00 03 00 01 02 00 18 0B 00 00 01 04 00";
    assert_eq!(verdict(MU_BOX, proof), "refuse 38 at 3");
}

#[test]
fn mu_of_box_with_f_before_the_leaf() {
    let proof = "50 52 46 31 05 00 12 0A 01 00 01 05 00 13 05 05 00 02 00 01 05 00 \
                 13 04 02 00 03 00 01 02 00 13 08 04 00 04 00 01 04 00 18 0B 00 00 01 05 00";
    assert_eq!(verdict(MU_BOX, proof), "refuse 39 at 4");
}

#[test]
fn d_then_a_back_leaf() {
    let proof = "50 52 46 31 02 00 12 0A 01 00 01 05 00 18 0B 00 00 01 05 00";
    assert_eq!(verdict(NU_BOX, proof), "refuse 39 at 1");
}

#[test]
fn a_letter_or_its_negation() {
    let claim = "43 4C 4D 31 03 00 01 02 00 00 01 03 00 00 03 04 00 00 01 00 01 00 02 00";
    let proof = "50 52 46 31 02 00 13 02 05 00 01 00 01 05 00 10 00 02 01 00 03 00";
    assert_eq!(verdict(claim, proof), "accept");
}

#[test]
fn mu_of_its_own_name() {
    let claim = "43 4C 4D 31 02 00 01 0A 01 00 01 08 00 00 01 00 01 00";
    assert_eq!(verdict(claim, ""), "refuse 23 at 1");
}

#[test]
fn diamond_above_a_fixpoint_over_its_name() {
    let claim = "43 4C 4D 31 04 00 01 0A 02 00 01 07 00 00 01 08 01 00 01 06 00 00 01 00 02 00";
    assert_eq!(verdict(claim, ""), "refuse 21 at 3");
}

#[test]
fn one_state_without_and_with_a_successor() {
    let (still, circle) = (hex("4D 44 4C 31 01 00"), hex("4D 44 4C 31 01 02 01 00"));
    let (mu, nu) = (hex(MU_BOX), hex(NU_BOX));
    assert_eq!(evaluate(&mu, &still), Ok(vec![1, 1, 1]));
    assert_eq!(evaluate(&mu, &circle), Ok(vec![0, 0, 0]));
    assert_eq!(evaluate(&nu, &circle), Ok(vec![1, 1, 1]));
}

#[test]
fn entries_256_and_257() {
    let claim = |count: u16| {
        let mut bytes = b"CLM1".to_vec();
        bytes.extend(count.to_le_bytes());
        bytes.extend([0, 1].repeat(count.into()));
        bytes.extend([1, 0, 0, 0]);
        bytes
    };
    let proof = hex("50 52 46 31 01 00 10 01 01 01 00");
    assert_eq!(describe(check(&claim(256), &proof)), "accept");
    assert_eq!(describe(check(&claim(257), &proof)), "refuse 12 at 4");
}

#[test]
fn members_24_and_25() {
    let verdict = |count| {
        let (claim, proof) = extremes::weakened(count);
        describe(check(&claim.bytes, &proof.bytes))
    };
    assert_eq!(verdict(24), "accept");
    assert_eq!(verdict(25), "refuse 12 at 104");
}

#[test]
fn codes_24_and_25() {
    let claim = |count: u16| extremes::weakened(count).0.bytes;
    let (_, proof) = extremes::weakened(25);
    assert_eq!(describe(check(&claim(24), &proof.bytes)), "refuse 32 at 12");
}

#[test]
fn nodes_1024_and_1025() {
    let verdict = |count| {
        let (claim, proof) = extremes::chain(count);
        describe(check(&claim.bytes, &proof.bytes))
    };
    assert_eq!(verdict(1024), "accept");
    assert_eq!(verdict(1025), "refuse 32 at 4");
}

#[test]
fn letters_31_and_32() {
    let verdict = |letter| {
        let (claim, proof) = extremes::letter(letter);
        describe(check(&claim.bytes, &proof.bytes))
    };
    assert_eq!(verdict(31), "accept");
    assert_eq!(verdict(32), "refuse 20 at 0");
}

#[test]
fn states_64_and_65() {
    let model = |count: u8| {
        let mut bytes = b"MDL1".to_vec();
        bytes.push(count);
        bytes.extend([0].repeat(count.into()));
        bytes
    };
    let all = Ok(vec![u64::MAX; 3]);
    assert_eq!(evaluate(&hex(NU_BOX), &model(64)), all);
    let refusal = Refusal {
        number: 62,
        place: 4,
    };
    assert_eq!(evaluate(&hex(NU_BOX), &model(65)), Err(refusal));
}
