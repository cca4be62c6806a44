/// Whether a note is 1 to 64 bytes, each from 32 to 126.
pub(crate) fn good_note(body: &[u8]) -> bool {
    (1..=64).contains(&body.len()) && body.iter().all(|byte| (32..=126).contains(byte))
}
