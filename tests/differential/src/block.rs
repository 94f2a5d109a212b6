//! Blocks of 128 bits as 16 bytes, byte 0 the least significant for the cipher (document 01, first section; the paper, figure 4).

/// A block of 16 bytes.
pub type Block = [u8; 16];

/// Bitwise exclusive or of two blocks.
pub fn xor(x: &Block, y: &Block) -> Block {
    std::array::from_fn(|i| x[i] ^ y[i])
}

/// The four 32-bit words of a block, word 0 the least significant.
fn words(x: &Block) -> [u32; 4] {
    std::array::from_fn(|i| u32::from_le_bytes([x[4 * i], x[4 * i + 1], x[4 * i + 2], x[4 * i + 3]]))
}

/// The block of four 32-bit words.
fn from_words(x: [u32; 4]) -> Block {
    std::array::from_fn(|i| x[i / 4].to_le_bytes()[i % 4])
}

/// The paper's boxed plus with index 32 (section 2): four additions modulo 2^32, no carry from one word to the next.
pub fn plus(x: &Block, y: &Block) -> Block {
    let (x, y) = (words(x), words(y));
    from_words(std::array::from_fn(|i| x[i].wrapping_add(y[i])))
}

/// The one `d` for which `plus(&d, y)` is `x`.
pub fn minus(x: &Block, y: &Block) -> Block {
    let (x, y) = (words(x), words(y));
    from_words(std::array::from_fn(|i| x[i].wrapping_sub(y[i])))
}

/// Eight cells as a block, the lowest cell least significant: the mapping of the paper's figure 2.
pub fn from_cells(cells: &[u16]) -> Block {
    std::array::from_fn(|i| cells[i / 2].to_le_bytes()[i % 2])
}

/// A block as eight cells; key and IV words are made this way, low byte first (document 01, "Start and trace").
pub fn cells(x: &Block) -> [u16; 8] {
    std::array::from_fn(|i| u16::from_le_bytes([x[2 * i], x[2 * i + 1]]))
}

/// Up to 16 bytes from the left, zeros behind them.
pub fn padded(bytes: &[u8]) -> Block {
    let mut block = [0; 16];
    block[..bytes.len()].copy_from_slice(bytes);
    block
}
