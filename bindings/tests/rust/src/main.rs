//! The crate's calls, over octets with answers by hand.
use jilgomt::{canonicalise, canonicalise_into, check, convert, Checked, Error, Mode, Stage};

fn main() {
    let octets = [0x80, 0xff, 0x02, 0x06, 0xc0, 0x01, 0xff, 0x01, 0xff, 0x77];
    assert_eq!(canonicalise("seq1", Mode::Oer, &octets), Ok((vec![0, 0xff], &octets[9..])));
    assert_eq!(convert("seq2", "seq1", Mode::Coer, &octets), Ok((vec![0, 0xff], &octets[9..])));
    assert_eq!(check("seq2", Mode::Coer, &octets), Ok(Checked { consumed: 9, canonical: 9, is_canonical: true }));
    assert_eq!(check("seq2", Mode::Coer, &octets[..7]), Err(Error::Incomplete { needed: 1 }));
    assert_eq!(check("bool", Mode::Coer, &[]), Err(Error::Incomplete { needed: 1 }));
    assert_eq!(canonicalise("empty", Mode::Coer, &[]), Ok((vec![], &[][..])));
    assert_eq!(canonicalise_into("seq2", Mode::Coer, 128, &octets, &mut [0; 8]), Err(Error::NoRoom { needed: 9 }));
    assert_eq!(canonicalise_into("seq2", Mode::Coer, 1025, &octets, &mut [0; 8]), Err(Error::NoOptions));
    assert_eq!(check("nosuch", Mode::Coer, &octets), Err(Error::NoType));
    let refused = check("bool", Mode::Coer, &[0x33]).unwrap_err();
    assert!(matches!(refused, Error::Refused { stage: Stage::Reading, number: 0x33, .. }));
    assert_eq!(refused.to_string(), "reading refused: InvalidBool");
    let refused = convert("bool", "int", Mode::Coer, &[0]).unwrap_err();
    assert_eq!(refused.to_string(), "not a value of the other type: EmptyInteger");
    println!("main.rs: all as wanted");
}
