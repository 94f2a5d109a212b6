//! The AES encryption round without round key (FIPS 197, sections 5.1.1 to 5.1.3; the paper, figures 3 and 4) and its inverse
//! (sections 5.3.1 to 5.3.3). Byte 4c + r of a block is row r, column c of the state array.

use crate::block::Block;

/// Product in F_2[x] modulo x^8 + x^4 + x^3 + x + 1 (FIPS 197, section 4.2).
const fn multiply(x: u8, y: u8) -> u8 {
    let mut product = 0;
    let mut power = x;
    let mut bit = 0;
    while bit < 8 {
        if y >> bit & 1 == 1 {
            product ^= power;
        }
        power = (power << 1) ^ if power & 0x80 != 0 { 0x1b } else { 0 };
        bit += 1;
    }
    product
}

/// The inverse in the field, 0 for 0: x^254, which is the product of x^2, x^4 .. x^128.
const fn inverse(x: u8) -> u8 {
    let mut square = multiply(x, x);
    let mut product = square;
    let mut i = 0;
    while i < 6 {
        square = multiply(square, square);
        product = multiply(product, square);
        i += 1;
    }
    product
}

/// The S-box by its rule (FIPS 197, section 5.1.1): inverse, then the affine map of equation 5.1.
const S_BOX: [u8; 256] = {
    let mut table = [0; 256];
    let mut x = 0;
    while x < 256 {
        let y = inverse(x as u8);
        table[x] = y ^ y.rotate_left(1) ^ y.rotate_left(2) ^ y.rotate_left(3) ^ y.rotate_left(4) ^ 0x63;
        x += 1;
    }
    table
};

/// The inverse S-box (FIPS 197, section 5.3.2).
const S_BOX_BACK: [u8; 256] = {
    let mut table = [0; 256];
    let mut x = 0;
    while x < 256 {
        table[S_BOX[x] as usize] = x as u8;
        x += 1;
    }
    table
};

/// The products of all bytes with one factor.
const fn multiples(factor: u8) -> [u8; 256] {
    let mut table = [0; 256];
    let mut x = 0;
    while x < 256 {
        table[x] = multiply(x as u8, factor);
        x += 1;
    }
    table
}

/// Products with the four factors of a column matrix, first row; each further row is the one above moved right by one.
type Matrix = [[u8; 256]; 4];
/// MixColumns (FIPS 197, equation 5.6).
static MIX: Matrix = [multiples(2), multiples(3), multiples(1), multiples(1)];
/// InvMixColumns (FIPS 197, equation 5.10).
static MIX_BACK: Matrix = [multiples(14), multiples(11), multiples(13), multiples(9)];

/// Multiplies each column by the matrix.
fn mix(x: &Block, matrix: &Matrix) -> Block {
    let mut mixed = [0; 16];
    for column in 0..4 {
        for row in 0..4 {
            for k in 0..4 {
                mixed[4 * column + row] ^= matrix[(k + 4 - row) % 4][x[4 * column + k] as usize];
            }
        }
    }
    mixed
}

/// SubBytes, ShiftRows (row r moves left by r columns), MixColumns.
pub fn round(x: &Block) -> Block {
    let shifted = std::array::from_fn(|i| {
        let (row, column) = (i % 4, i / 4);
        S_BOX[x[4 * ((column + row) % 4) + row] as usize]
    });
    mix(&shifted, &MIX)
}

/// Undoes [`round`]: InvMixColumns, InvShiftRows, InvSubBytes.
pub fn round_back(x: &Block) -> Block {
    let unmixed = mix(x, &MIX_BACK);
    std::array::from_fn(|i| {
        let (row, column) = (i % 4, i / 4);
        S_BOX_BACK[unmixed[4 * ((column + 4 - row) % 4) + row] as usize]
    })
}
