//! What the library writes, held against plain Rust.

use checks::cut::{assert_cut, naive};
use mound::{calls, Refusal};

/// What slices are filled with before a cut; no script has such a byte.
const FILL: u8 = 0xaa;

/// Up to this many bytes a script is cut in the slowest way too.
const SHORT: usize = 1500;

/// What is left of a script.
pub fn cut(script: &[u8], number: u32) -> Result<Vec<u8>, Refusal> {
    let cut = cut_into(script.len(), script, number);
    if script.len() <= SHORT {
        let expected = naive(script, number).ok_or(Refusal::NotShown);
        assert_eq!(cut, expected, "{number} of {}", String::from_utf8_lossy(script));
    }
    cut
}

/// What is left of a script that shows the number: it is what the request claims, and cut again it
/// stays as it is.
pub fn cut_as_claimed(script: &[u8], number: u32) -> Vec<u8> {
    let kept = cut(script, number).expect("the number is shown");
    assert_cut(script, number, &kept);
    assert_eq!(cut(&kept, number).as_ref(), Ok(&kept), "cut again");
    kept
}

/// What is written to the start of a slice of this length, by the library and by plain Rust; the
/// rest of it stays as it was, all of it where the call is refused.
pub fn cut_into(length: usize, script: &[u8], number: u32) -> Result<Vec<u8>, Refusal> {
    let [mut by_library, mut by_plain] = [(); 2].map(|()| vec![FILL; length]);
    let answer = calls::cut(script, number, &mut by_library);
    let written = plain::cut(script, number, &mut by_plain);
    let shown = || format!("{number} of {}", String::from_utf8_lossy(script));
    let expected = match written {
        Ok(length) => (length as u64) << 32,
        Err(refusal) => refusal.number().into(),
    };
    assert_eq!(answer, expected, "{}", shown());
    assert!(by_library == by_plain, "{}", shown());
    let (kept, rest) = by_library.split_at(written.unwrap_or(0));
    assert!(rest.iter().all(|&byte| byte == FILL), "{}", shown());
    written.map(|_| kept.to_vec())
}
