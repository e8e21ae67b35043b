//! The numbers in a product's headers, where they stand and what they say.

use std::ops::Range;

use twin::builder::Number;

/// Where a number stands in a header: its sign, and its digits with a point among them or not.
#[derive(Clone, Debug)]
pub struct NumberField {
    pub sign: usize,
    pub digits: Vec<usize>,
}

impl NumberField {
    /// The number that stands in the product.
    pub fn read(&self, product: &[u8]) -> i128 {
        let digit = |&place: &usize| i128::from(product[place] - b'0');
        let magnitude = self.digits.iter().map(digit).fold(0, |value, digit| 10 * value + digit);
        if product[self.sign] == b'-' {
            -magnitude
        } else {
            magnitude
        }
    }

    /// Writes a number; false where it has more digits than the field.
    pub fn write(&self, product: &mut [u8], number: Number) -> bool {
        let text = number.written(self.digits.len()).into_bytes();
        if text.len() != 1 + self.digits.len() {
            return false;
        }
        product[self.sign] = text[0];
        for (&place, &digit) in self.digits.iter().zip(&text[1..]) {
            product[place] = digit;
        }
        true
    }
}

/// The numbers in a part of the headers: after a `=` a sign, digits and perhaps a point.
pub fn number_fields(product: &[u8], part: Range<usize>) -> Vec<NumberField> {
    let is_sign = |byte: u8| byte == b'+' || byte == b'-';
    let signs = part.filter(|&place| product[place - 1] == b'=' && is_sign(product[place]));
    let field = |sign: usize| {
        let behind = (sign + 1..).take_while(|&at| matches!(product[at], b'0'..=b'9' | b'.'));
        NumberField { sign, digits: behind.filter(|&at| product[at] != b'.').collect() }
    };
    signs.map(field).collect()
}

/// The first bytes behind the SPH lines and behind the headers, by what the header says.
pub fn header_ends(product: &[u8]) -> (usize, usize) {
    let [sph_size, descriptors] =
        [1104, 1132].map(|line| number_fields(product, line..line + 28)[0].read(product) as usize);
    (1247 + sph_size - 280 * descriptors, 1247 + sph_size)
}
