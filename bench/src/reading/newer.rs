use super::check::check;
use super::Span;

/// Which of two envelopes is newer (0 the first, 1 the second), and where its
/// manifest stands in it.
pub fn newer(first: &[u8], second: &[u8]) -> (usize, usize, usize) {
    let (which, span) = match (check(first), check(second)) {
        (Ok(a), Ok(b)) if b.number > a.number => (1, b.span),
        (Ok(a), _) => (0, a.span),
        (Err(_), Ok(b)) => (1, b.span),
        (Err(_), Err(_)) => (0, Span::default()),
    };
    (which, span.from, span.to)
}
