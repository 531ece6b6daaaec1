//! The stored forms as values: the number of each, the width of its numbers, its bounds, and what follows from these.

use crate::stored::Counts;

/// A stored form.
#[derive(Clone, Copy, Debug, PartialEq, Eq)]
pub struct Form {
    /// The number that opens a stored index of this form.
    pub number: u32,
    /// The bytes of one number in a section.
    pub width: usize,
    pub most_vertices: usize,
    pub most_edges: usize,
    pub most_child_entries: usize,
    pub most_labellings: usize,
    /// Whether it holds plain hierarchies alone. Its labels are then without the m numbers.
    pub hierarchy: bool,
    /// Whether a call that checks an index of this form is lent words.
    pub lends_words: bool,
}

/// Document 01.
pub const FORM_1: Form = Form {
    number: 1,
    width: 2,
    most_vertices: 4_096,
    most_edges: 16_384,
    most_child_entries: 16_384,
    most_labellings: 5,
    hierarchy: false,
    lends_words: false,
};

/// Request [6], "A bigger region".
pub const FORM_2: Form = Form {
    number: 2,
    width: 4,
    most_vertices: 200_000,
    most_edges: 1_000_000,
    most_child_entries: 1_000_000,
    most_labellings: 5,
    hierarchy: false,
    lends_words: true,
};

/// Request [13], "What feeds this rule?": form 2 but for its number.
pub const FORM_3: Form = Form { number: 3, ..FORM_2 };

/// Request [14], "A profile for plain hierarchies": form 2 with one labelling, and without the m numbers.
pub const FORM_4: Form = Form {
    number: 4,
    most_labellings: 1,
    hierarchy: true,
    ..FORM_2
};

/// The forms that build, open, ask, list and the call for all pairs take.
pub const ORDINARY: [Form; 2] = [FORM_1, FORM_2];

/// The form that the calls on a turned index take.
pub const TURNED: [Form; 1] = [FORM_3];

/// The form that the calls on a plain hierarchy take.
pub const HIERARCHY: [Form; 1] = [FORM_4];

/// The form that the C host takes.
pub const HOST: [Form; 1] = [FORM_1];

/// All forms that there are.
pub const FORMS: [Form; 4] = [FORM_1, FORM_2, FORM_3, FORM_4];

impl Form {
    /// The form of this number among those that a call takes.
    pub fn among(taken: &[Form], number: u32) -> Option<Form> {
        taken.iter().copied().find(|form| form.number == number)
    }

    /// The total length of a stored index, in bytes.
    pub fn total_length(&self, counts: &Counts) -> usize {
        let Counts { n, k, c, d } = *counts;
        match self.number {
            1 => 50 + 2 * n + 6 * k + 2 * c + 8 * d * k,
            4 => 52 + 4 * n + 24 * k + 4 * c,
            _ => 52 + 4 * n + 12 * k + 4 * c + 16 * d * k,
        }
    }

    /// The numbers that a labelling has for each place: s, m and e, or s and e.
    pub fn by_place(&self) -> usize {
        if self.hierarchy {
            2
        } else {
            3
        }
    }

    /// The words that a call is lent with a stored index of this form.
    pub fn words_needed(&self, counts: &Counts) -> usize {
        match self.lends_words {
            true => 16 * counts.n + 4 * counts.c + 64,
            false => 0,
        }
    }
}
