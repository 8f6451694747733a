//! Where the signs of fields stand, and why each has its conversion.
use crate::common::side_by_side;
use stumpgarret::ConversionReason::{None as NoReason, Repr, Spec, Written};
use stumpgarret::{field_signs, parse_strings, StringKind};

const BODIES: [(StringKind, &str); 3] = [
    (StringKind::FString, "{a!r}{b=}{c=:3}{d}"),
    (StringKind::String, "{no}"),
    (StringKind::RawFString, "{e = !s:{f=:>{g}}}"),
];

#[test]
fn each_field_has_its_reason() {
    let (script, literals) = side_by_side(&BODIES[..2]);
    let signs = field_signs(&script, &literals).unwrap();
    let reasons: Vec<_> = signs.iter().map(|signs| signs.reason).collect();
    assert_eq!(reasons, [Written, Repr, Spec, NoReason]);
}

#[test]
fn each_place_is_just_after_its_sign() {
    let (script, literals) = side_by_side(&BODIES[..1]);
    for signs in field_signs(&script, &literals).unwrap() {
        let stands = |place: usize, sign: u8| script.as_bytes()[place - 1] == sign;
        assert!(stands(signs.place, b'{') && stands(signs.close, b'}'));
        assert!(signs.equals.map_or(true, |place| stands(place, b'=')));
        assert!(signs.bang.map_or(true, |place| stands(place, b'!')));
        assert!(signs.colon.map_or(true, |place| stands(place, b':')));
    }
}

#[test]
fn signs_are_those_of_the_fields() {
    let bodies = [BODIES[0], BODIES[1], (StringKind::RawFString, "{e = !s:>{f=}}")];
    let (script, literals) = side_by_side(&bodies);
    let places: Vec<_> =
        parse_strings(&script, &literals).unwrap().fields().map(|field| field.place).collect();
    let signs = field_signs(&script, &literals).unwrap();
    assert_eq!(signs.iter().map(|signs| signs.place).collect::<Vec<_>>(), places);
    assert_eq!(&script[signs[4].spec().unwrap()], ">{f=}");
    assert_eq!((signs[4].reason, signs[5].reason), (Written, Repr));
}

#[test]
fn what_is_refused_is_refused() {
    let (script, literals) = side_by_side(&BODIES);
    let refusal = field_signs(&script, &literals).unwrap_err();
    assert_eq!(refusal, parse_strings(&script, &literals).unwrap_err());
}
