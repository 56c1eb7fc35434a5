//! Whole buffers.

/// Records one behind the other, then zero to the end.
pub fn write<const N: usize>(buffer: &mut [u8], records: impl Iterator<Item = [u8; N]>) {
    let mut bytes: Vec<u8> = records.flatten().collect();
    bytes.resize(buffer.len(), 0);
    buffer.copy_from_slice(&bytes);
}

/// Zero from the beginning.
pub fn clear(buffer: &mut [u8]) {
    write(buffer, std::iter::empty::<[u8; 1]>());
}
