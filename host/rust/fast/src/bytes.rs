//! Little-endian numbers in byte slices.

/// The bytes from a place on, as many as a number has.
#[inline]
fn field<const WIDTH: usize>(bytes: &[u8], place: usize) -> [u8; WIDTH] {
    let mut field = [0; WIDTH];
    field.copy_from_slice(&bytes[place..place + WIDTH]);
    field
}

#[inline]
pub fn u16_at(bytes: &[u8], place: usize) -> u16 {
    u16::from_le_bytes(field(bytes, place))
}

#[inline]
pub fn u32_at(bytes: &[u8], place: usize) -> u32 {
    u32::from_le_bytes(field(bytes, place))
}

#[inline]
pub fn i32_at(bytes: &[u8], place: usize) -> i32 {
    i32::from_le_bytes(field(bytes, place))
}

#[inline]
pub fn i64_at(bytes: &[u8], place: usize) -> i64 {
    i64::from_le_bytes(field(bytes, place))
}

#[inline]
pub fn eight_at(bytes: &[u8], place: usize) -> [u8; 8] {
    field(bytes, place)
}

/// Writes the bytes of a field at its place.
#[inline]
pub fn put(bytes: &mut [u8], place: usize, field: &[u8]) {
    bytes[place..place + field.len()].copy_from_slice(field);
}

/// The numbers that four bytes each stand for.
#[inline]
pub fn numbers(bytes: &[u8]) -> impl Iterator<Item = i32> + '_ {
    let (fours, _) = bytes.as_chunks();
    fours.iter().map(|&four| i32::from_le_bytes(four))
}

/// Decodes numbers, as many as there is room for.
#[inline]
pub fn decode(bytes: &[u8], into: &mut [i32]) {
    for (place, number) in into.iter_mut().zip(numbers(bytes)) {
        *place = number;
    }
}

#[inline]
pub fn decode_unsigned(bytes: &[u8], into: &mut [u32]) {
    for (place, number) in into.iter_mut().zip(numbers(bytes)) {
        *place = number as u32;
    }
}

/// Encodes numbers, as many as there is room for.
#[inline]
pub fn encode(numbers: &[i32], into: &mut [u8]) {
    let (fours, _) = into.as_chunks_mut();
    for (four, number) in fours.iter_mut().zip(numbers) {
        *four = number.to_le_bytes();
    }
}
