use super::form::{decode, encode, encode_head};
use super::head::HeadCase;
use super::own::{own, own_heads};
use super::{Collection, Coverage, Origin};
use crate::gen::{Case, World};
use crate::hex;
use crate::reading::{Device, Group};
use crate::vectors::{parse, Form, Written};

fn encoded(case: &Case) -> Option<String> {
    encode(case).map(|bytes| hex::encode(&bytes))
}

fn world() -> World {
    World {
        verdict: true,
        device: Device {
            vendor: [0xaa; 16],
            class: [0xbb; 16],
            number: 0x0102_0304,
            event_open: true,
        },
        slots: vec![0xcc; 2],
        answers: vec![0xdd],
        trace: vec![0xee; 300],
    }
}

/// What is lent above: verdict, device, trace, slots, answers.
fn lent() -> String {
    let device = format!("{}{}0102030401", "aa".repeat(16), "bb".repeat(16));
    format!("01{device}012cee0002cccc0001dd")
}

#[test]
fn checks_and_comparisons() {
    let check = |envelope: &[u8]| {
        let envelope = envelope.to_vec();
        encoded(&Case::Check { envelope })
    };
    assert_eq!(check(&[]).as_deref(), Some("000101"));
    assert_eq!(check(&[0xa2, 0x01]).as_deref(), Some("000301a201"));
    let newer = Case::Newer {
        first: vec![0xa1],
        second: vec![0xa2, 0xa3],
    };
    assert_eq!(encoded(&newer).as_deref(), Some("0006020001a1a2a3"));
}

#[test]
fn translations() {
    let translate = |group, room| {
        encoded(&Case::Translate {
            envelope: vec![0xa2],
            group,
            room: vec![Case::ROOM_FILL; room],
        })
    };
    let install = translate(Group::Install, 106);
    assert_eq!(install.as_deref(), Some("00050300006aa2"));
    let boot = translate(Group::Boot, 0x1234);
    assert_eq!(boot.as_deref(), Some("000503011234a2"));
    assert_eq!(translate(Group::Boot, 65_536), None);
}

#[test]
fn runs() {
    let run = |group| {
        encoded(&Case::Run {
            envelope: vec![0xa2, 0xa3],
            group,
            world: world(),
        })
    };
    let fields = |start: &str, rest: &str| Some(format!("0034{start}{}{rest}", lent()));
    assert_eq!(run(Group::Install), fields("0400", "a2a3"));
    assert_eq!(run(Group::Boot), fields("0401", "a2a3"));
    let program = Case::RunProgram {
        program: vec![0x53, 0x50],
        world: world(),
    };
    assert_eq!(encoded(&program), fields("0500", "5350"));
}

#[test]
fn heads() {
    let head = |place, envelope: &[u8]| {
        let envelope = envelope.to_vec();
        encode_head(&HeadCase { place, envelope }).map(|bytes| hex::encode(&bytes))
    };
    assert_eq!(head(0, &[]).as_deref(), Some("0003060000"));
    assert_eq!(head(258, &[0xa2, 1]).as_deref(), Some("0005060102a201"));
    assert!(head(0, &[0; 65_532]).is_some());
    assert_eq!(head(0, &[0; 65_533]), None);
}

#[test]
fn what_the_form_does_not_take() {
    let run = |world| {
        encoded(&Case::RunProgram {
            program: Vec::new(),
            world,
        })
    };
    assert!(run(world()).is_some());
    let mut unequal = world();
    unequal.trace[299] = 0;
    assert_eq!(run(unequal), None);
    let mut long = world();
    long.trace = vec![0; 65_536];
    assert_eq!(run(long), None);
    let envelope = vec![0; 65_535];
    assert_eq!(encoded(&Case::Check { envelope }), None);
}

#[test]
fn cases_read_back() {
    for own in own() {
        let bytes = encode(&own.case).expect("in the form");
        let cases = decode(&bytes).expect("a case");
        assert_eq!(format!("{cases:?}"), format!("[Job({:?})]", own.case));
    }
    for own in own_heads() {
        let bytes = encode_head(&own.case).expect("in the form");
        let cases = decode(&bytes).expect("a case");
        assert_eq!(format!("{cases:?}"), format!("[Head({:?})]", own.case));
    }
    assert!(decode(&[0, 2, 1]).is_none());
    assert!(decode(&[0, 2, 6, 0]).is_none());
    assert!(decode(&[0, 1, 7]).is_none());
}

#[test]
fn the_repository_covers_everything_alone() {
    let collection = Collection::new().expect("every answer is the wanted one");
    assert_eq!(collection.coverage.missing(), Vec::<String>::new());
    assert_eq!(collection.read_back(), Ok(()));
    assert_eq!(collection.count(Origin::Examples), 59);
    assert_eq!(collection.count(Origin::Sheet), 16);
    assert!(!Coverage::default().missing().is_empty());
}

fn written(cases: &str, answers: &str) -> Written {
    Written {
        cases: cases.into(),
        answers: answers.into(),
    }
}

#[test]
fn a_wrong_answer_is_an_error() {
    let none = Written::default();
    for (cases, answers, good) in [
        ("check -", "refused 65 0", true),
        ("check -", "refused 65 1", false),
        ("check -", "", false),
        ("chekc -", "refused 65 0", false),
    ] {
        let vectors = written(cases, answers);
        assert_eq!(Collection::with_vectors(&vectors, &none).is_ok(), good);
        assert_eq!(Collection::with_vectors(&none, &vectors).is_ok(), good);
    }
}

#[test]
fn each_document_has_its_form() {
    let none = Written::default();
    let first = written("newer - -", "(0, 0, 0)");
    let second = written("newer - -", "part 0 0 0");
    assert!(Collection::with_vectors(&second, &first).is_ok());
    assert!(Collection::with_vectors(&none, &second).is_err());
    let zeros = "00".repeat(16);
    let case = format!("program - 1 {zeros}:{zeros}:0:0 - - 3:10");
    let trace = |form| match parse(&case, form) {
        Some(Case::RunProgram { world, .. }) => Some(world.trace),
        _ => None,
    };
    assert_eq!(trace(Form::Document01), Some(vec![10; 3]));
    assert_eq!(trace(Form::Document02), Some(vec![16; 3]));
}

/// The first vector that a request moved must have another answer.
#[test]
fn a_moved_answer_must_have_moved() {
    let none = Written::default();
    let to_the_first = |answer: &str| {
        let cases = "check -\n".repeat(7);
        let answers = "refused 65 0\n".repeat(6) + answer;
        Collection::with_vectors(&none, &written(&cases, &answers))
    };
    assert!(to_the_first("refused 65 0").is_err());
    assert!(to_the_first("refused 65 1").is_err());
}
