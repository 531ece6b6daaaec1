//! The smallest images, each altered in one place: all of these in a row, told by their number.

use independent::chance::Fields;
use independent::every::every_image;
use independent::{Form, FORMS};

/// Each bit of a byte turned, and all of them cleared and set.
const BYTE_WAYS: usize = 10;

/// What a field is set to beside the numbers up to n + 1.
const GREAT: [u32; 4] = [0xff, 0xffff, 0x1_0000, u32::MAX];

/// Most bytes that are put behind an image.
const LENGTHENED: usize = 8;

struct Small {
    form: Form,
    n: usize,
    bytes: Vec<u8>,
    fields: usize,
    /// How many alterations those before it have.
    before: usize,
}

impl Small {
    fn values(&self) -> usize {
        self.n + 2 + GREAT.len()
    }

    /// Each byte in each way, each field with each value, cut at each byte, lengthened by each number of bytes.
    fn parts(&self) -> [usize; 4] {
        [BYTE_WAYS * self.bytes.len(), self.values() * self.fields, self.bytes.len(), LENGTHENED]
    }

    fn altered(&self, mut number: usize) -> Vec<u8> {
        let mut bytes = self.bytes.clone();
        let part = self.parts().into_iter().position(|size| {
            let here = number < size;
            number -= if here { 0 } else { size };
            here
        });
        match part {
            Some(0) => {
                let byte = &mut bytes[number / BYTE_WAYS];
                match number % BYTE_WAYS {
                    8 => *byte = 0,
                    9 => *byte = u8::MAX,
                    bit => *byte ^= 1 << bit,
                }
            }
            Some(1) => {
                let value = number % self.values();
                let value = value.checked_sub(self.n + 2).map_or(value, |great| GREAT[great] as usize);
                Fields::of(&mut bytes).set(number / self.values(), value);
            }
            Some(2) => bytes.truncate(number),
            _ => bytes.extend((0..=number).map(|i| 7 * i as u8)),
        }
        bytes
    }
}

/// Every image of up to 3 vertices under one order and under two, in each form.
pub struct Altered {
    images: Vec<Small>,
    pub count: usize,
}

impl Altered {
    pub fn all() -> Altered {
        let (mut images, mut count) = (Vec::new(), 0);
        for form in FORMS {
            for (n, d) in (0..=3).flat_map(|n| [(n, 1), (n, 2)]) {
                for mut bytes in every_image(&form, n, d).into_iter().filter(|_| d <= form.most_labellings) {
                    let small = Small { form, n, fields: Fields::of(&mut bytes).count, bytes, before: count };
                    count += small.parts().iter().sum::<usize>();
                    images.push(small);
                }
            }
        }
        Altered { images, count }
    }

    /// The altered image of this number: its form, the bytes before, and the bytes now.
    pub fn at(&self, number: usize) -> (Form, &[u8], Vec<u8>) {
        let small = &self.images[self.images.partition_point(|small| small.before <= number) - 1];
        (small.form, &small.bytes, small.altered(number - small.before))
    }
}
