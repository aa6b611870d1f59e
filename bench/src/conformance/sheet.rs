//! The bench sheet of document 01, with the answers that stand there.

use crate::subjects::E;

const IMAGE: &str = "00112233445566778899aabbccddeeff0123456789abcdeffedcba9876543210";
const OTHER_IMAGE: &str = "0123456789abcdeffedcba987654321000112233445566778899aabbccddeeff";
const BOOT_PROGRAM: &str = "5350fe01000000010100045350fd0b8245466c61736843003401\
    535013000021ffff00280b2000112233445566778899aabbccddeeff0123456789abcdeffedcba9876543210\
    0c04000087d053500c00004dffff000053500300004fffff0000535017000051ffff0000";

/// The cases and answers of the twelve rows, in their text form.
pub fn sheet() -> Vec<(String, String)> {
    [programs(), runs(), checks(), newest()].concat()
}

fn row(case: String, answer: &str) -> (String, String) {
    (case, answer.into())
}

/// Row 1.
fn programs() -> Vec<(String, String)> {
    vec![
        row(
            format!("translate {E} 0 106"),
            &format!("program {BOOT_PROGRAM}"),
        ),
        row(format!("translate {E} 0 105"), "refused 96 0"),
    ]
}

/// Rows 2, 3 and 11.
fn runs() -> Vec<(String, String)> {
    let (slot, other) = (slot(IMAGE), slot(OTHER_IMAGE));
    let started = "535413000021000053540c00004d000053540300004f00005354170000510000";
    let failed = "535413000021000053540c00004d000053540300004f0100";
    let installed = "5354130000210000";
    vec![
        row(
            run("0", "1", &slot),
            &format!("end 2 81 4 0 1 {slot} {started}"),
        ),
        row(
            run("0", "1", &other),
            &format!("end 1 79 3 0 1 {other} {failed}"),
        ),
        row(run("1", "1", &slot), "refused 82 0"),
        row(
            run("1", "0", &slot),
            &format!("end 0 0 1 0 1 {slot} {installed}"),
        ),
    ]
}

fn run(install: &str, number: &str, slot: &str) -> String {
    let zeros = "00".repeat(16);
    format!("run {E} {install} 1 {zeros}:{zeros}:{number}:0 {slot} - 2048:170")
}

fn slot(digest: &str) -> String {
    format!("8245466c61736843003401:78848:1:34768:{digest}")
}

/// Rows 4 to 10.
fn checks() -> Vec<(String, String)> {
    let rows = [
        ("-".into(), "refused 65 0"),
        ("a2".into(), "refused 65 1"),
        ("a1".into(), "refused 66 0"),
        (format!("{E}00"), "refused 65 83"),
        (changed(8, "02"), "refused 67 8"),
        (changed(8, "18"), "refused 65 8"),
        (changed(78, "01"), "refused 72 78"),
        (changed(81, "0d"), "refused 69 81"),
        (changed(81, "15"), "refused 71 81"),
    ];
    let check = |(envelope, answer)| row(format!("check {envelope}"), answer);
    rows.into_iter().map(check).collect()
}

/// Row 12.
fn newest() -> Vec<(String, String)> {
    vec![row(format!("newer {E} {E}"), "(0, 6, 83)")]
}

/// E with another byte in one place.
fn changed(at: usize, byte: &str) -> String {
    let mut envelope = E.to_string();
    envelope.replace_range(2 * at..2 * at + 2, byte);
    envelope
}
