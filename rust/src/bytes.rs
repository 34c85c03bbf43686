//! Little-endian numbers, taken from the front of a slice and put at the end of a list.

pub trait Little: Copy {
    /// Takes one number off the front; leaves the slice alone if it is too short.
    fn take(bytes: &mut &[u8]) -> Option<Self>;
    fn put(self, out: &mut Vec<u8>);
}

macro_rules! little {
    ($($number:ty),*) => {$(
        impl Little for $number {
            fn take(bytes: &mut &[u8]) -> Option<Self> {
                let (head, rest) = bytes.split_first_chunk()?;
                *bytes = rest;
                Some(<$number>::from_le_bytes(*head))
            }
            fn put(self, out: &mut Vec<u8>) {
                out.extend_from_slice(&self.to_le_bytes());
            }
        }
    )*};
}

little!(u8, u16, u32, u64);

pub fn take<T: Little>(bytes: &mut &[u8]) -> Option<T> {
    T::take(bytes)
}

pub fn take_list<T: Little>(bytes: &mut &[u8], length: usize) -> Option<Vec<T>> {
    (0..length).map(|_| T::take(bytes)).collect()
}

pub fn take_array<T: Little, const N: usize>(bytes: &mut &[u8]) -> Option<[T; N]> {
    take_list(bytes, N)?.try_into().ok()
}

pub fn put_list<T: Little>(list: &[T], out: &mut Vec<u8>) {
    for &number in list {
        number.put(out);
    }
}
