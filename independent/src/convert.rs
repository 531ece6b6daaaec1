//! Request [7], "Moving offices across, and back": a stored index of one form turned into another, without the edge list.

use crate::calls::Held;
use crate::form::{Form, FORM_1, FORM_2};
use crate::refusal::{refuse, Refusal};
use crate::stored::{encode, Counts};

/// Turns a form 1 index into form 2, which is written to `out`, and returns its total length. Refusals: those of opening, then
/// 9. Marks below n are 0 afterwards, after refusals 15 and 9 too; refusals 10 to 13 alter nothing.
pub fn convert_up(index: &[u8], marks: &mut [u8], out: &mut [u8]) -> Result<u32, Refusal> {
    convert(&FORM_1, &FORM_2, index, marks, &mut [], out)
}

/// Turns a form 2 index into form 1, as above. Refusals: those of opening, then 19 if n, k or c is beyond form 1, then 9. The
/// words needed are 0 wherever marks below n are.
pub fn convert_down(index: &[u8], marks: &mut [u8], words: &mut [u32], out: &mut [u8]) -> Result<u32, Refusal> {
    convert(&FORM_2, &FORM_1, index, marks, words, out)
}

/// Refusals beyond those of opening: 19 if n, k or c is beyond the other form, 4 and 22 by that form, then 9.
pub(crate) fn convert(
    from: &Form,
    to: &Form,
    index: &[u8],
    marks: &mut [u8],
    words: &mut [u32],
    out: &mut [u8],
) -> Result<u32, Refusal> {
    let held = Held::of(&[*from], index, marks, words)?;
    let index = held.sound_or_refused(index, marks, words)?;
    let Counts { n, k, c, d } = held.counts;
    if n > to.most_vertices || k > to.most_vertices || c > to.most_child_entries {
        return refuse(19, 0);
    }
    if d > to.most_labellings {
        return refuse(4, 0);
    }
    if let Some(name) = to.kept_out_by(&index.groups) {
        return refuse(22, name);
    }
    let bytes = encode(to, &index);
    if out.len() < bytes.len() {
        return refuse(9, bytes.len());
    }
    out[..bytes.len()].copy_from_slice(&bytes);
    Ok(bytes.len() as u32)
}
