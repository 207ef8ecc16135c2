//! Lines of a sheet, written field by field.

/// A value in a sheet's spelling.
pub trait Field {
    fn put(&self, out: &mut Vec<u8>);
}

impl Field for u64 {
    fn put(&self, out: &mut Vec<u8>) {
        let mut digits = [0; 20];
        let mut at = digits.len();
        let mut left = *self;
        loop {
            at -= 1;
            digits[at] = b'0' + (left % 10) as u8;
            left /= 10;
            if left == 0 {
                break;
            }
        }
        out.extend_from_slice(&digits[at..]);
    }
}

impl Field for u32 {
    fn put(&self, out: &mut Vec<u8>) {
        u64::from(*self).put(out);
    }
}

impl Field for usize {
    fn put(&self, out: &mut Vec<u8>) {
        (*self as u64).put(out);
    }
}

impl Field for bool {
    fn put(&self, out: &mut Vec<u8>) {
        out.push(b'0' + *self as u8);
    }
}

impl Field for i64 {
    fn put(&self, out: &mut Vec<u8>) {
        if *self < 0 {
            out.push(b'-');
        }
        self.unsigned_abs().put(out);
    }
}

/// Bytes that are spelled already.
impl Field for [u8] {
    fn put(&self, out: &mut Vec<u8>) {
        out.extend_from_slice(self);
    }
}

impl Field for str {
    fn put(&self, out: &mut Vec<u8>) {
        out.extend_from_slice(self.as_bytes());
    }
}

impl<T: Field + ?Sized> Field for &T {
    fn put(&self, out: &mut Vec<u8>) {
        (**self).put(out);
    }
}

impl<T: Field> Field for Option<T> {
    fn put(&self, out: &mut Vec<u8>) {
        match self {
            Some(value) => value.put(out),
            None => out.push(b'-'),
        }
    }
}

/// Sixteen hexadecimal digits.
pub struct Bits(pub u64);

impl Field for Bits {
    fn put(&self, out: &mut Vec<u8>) {
        for shift in (0..16).rev() {
            out.push(b"0123456789abcdef"[(self.0 >> (4 * shift)) as usize & 15]);
        }
    }
}

/// One line: a keyword and its fields.
#[macro_export]
macro_rules! line {
    ($out:expr, $word:expr $(, $field:expr)*) => {{
        let out: &mut Vec<u8> = $out;
        out.extend_from_slice($word.as_bytes());
        $(
            out.push(b'\t');
            $crate::lines::Field::put(&$field, out);
        )*
        out.push(b'\n');
    }};
}
