//! LFSR-A and LFSR-B: the paper, section 2, equations 1 to 4, and algorithm 3. The clock backwards is solved from the transition
//! that appendix A sets out.

/// The 16 cells of one register; cell 0 is the first to leave.
pub type Register = [u16; 16];

/// A polynomial over F_2, given by its exponents; the coefficient of x^i is bit i.
const fn polynomial(exponents: &[u32]) -> u32 {
    let mut bits = 0;
    let mut i = 0;
    while i < exponents.len() {
        bits |= 1 << exponents[i];
        i += 1;
    }
    bits
}

/// Equation 1.
const G_A: u32 = polynomial(&[16, 15, 12, 11, 8, 3, 2, 1, 0]);
/// Equation 2.
const G_B: u32 = polynomial(&[16, 15, 14, 11, 8, 6, 5, 1, 0]);

/// Times x modulo `g`.
const fn times_x(v: u16, g: u32) -> u16 {
    (v << 1) ^ ((g as u16) & (v >> 15).wrapping_neg())
}

/// Times the inverse of x modulo `g`: adding `g` to an odd polynomial makes it divisible by x.
const fn over_x(v: u16, g: u32) -> u16 {
    (v >> 1) ^ (((g >> 1) as u16) & (v & 1).wrapping_neg())
}

/// Times alpha, a root of the polynomial of equation 1.
pub const fn alpha(v: u16) -> u16 {
    times_x(v, G_A)
}

/// Times the inverse of alpha.
pub const fn alpha_inverse(v: u16) -> u16 {
    over_x(v, G_A)
}

/// Times beta, a root of the polynomial of equation 2.
pub const fn beta(v: u16) -> u16 {
    times_x(v, G_B)
}

/// Times the inverse of beta.
pub const fn beta_inverse(v: u16) -> u16 {
    over_x(v, G_B)
}

/// One pass of the loop of algorithm 3: equations 3 and 4, both from the old cells.
pub fn clock(a: &mut Register, b: &mut Register) {
    let new_a = b[0] ^ alpha(a[0]) ^ a[1] ^ alpha_inverse(a[8]);
    let new_b = a[0] ^ beta(b[0]) ^ b[3] ^ beta_inverse(b[8]);
    a.copy_within(1.., 0);
    b.copy_within(1.., 0);
    a[15] = new_a;
    b[15] = new_b;
}

/// `SOLUTION[j]` is the cell c for which c + alpha(beta(c)) has bit j alone.
///
/// Pairs (image, cell) are kept under addition while the images are reduced to the 16 single bits, so each cell stays the one whose
/// image stands beside it. Were the map not one-to-one, no pivot would be found and the constant would not compile.
const SOLUTION: [u16; 16] = {
    let mut image = [0u16; 16];
    let mut cell = [0u16; 16];
    let mut i = 0;
    while i < 16 {
        cell[i] = 1 << i;
        image[i] = cell[i] ^ alpha(beta(cell[i]));
        i += 1;
    }
    let mut bit = 0;
    while bit < 16 {
        let mut pivot = bit;
        while image[pivot] >> bit & 1 == 0 {
            pivot += 1;
        }
        (image[bit], image[pivot]) = (image[pivot], image[bit]);
        (cell[bit], cell[pivot]) = (cell[pivot], cell[bit]);
        let mut other = 0;
        while other < 16 {
            if other != bit && image[other] >> bit & 1 == 1 {
                image[other] ^= image[bit];
                cell[other] ^= cell[bit];
            }
            other += 1;
        }
        bit += 1;
    }
    cell
};

/// The cell c for which c + alpha(beta(c)) is `image`.
fn solve(image: u16) -> u16 {
    (0..16).fold(0, |cell, bit| cell ^ (SOLUTION[bit] & (image >> bit & 1).wrapping_neg()))
}

/// Undoes [`clock`].
///
/// Cells 1 to 15 of before are cells 0 to 14 of after. Without the terms that are known from these, the two new cells are
/// u = b0 + alpha a0 and v = a0 + beta b0. Hence a0 = v + beta b0, and b0 + alpha(beta(b0)) = u + alpha v.
pub fn clock_back(a: &mut Register, b: &mut Register) {
    let u = a[15] ^ a[0] ^ alpha_inverse(a[7]);
    let v = b[15] ^ b[2] ^ beta_inverse(b[7]);
    let b0 = solve(u ^ alpha(v));
    let a0 = v ^ beta(b0);
    a.copy_within(..15, 1);
    b.copy_within(..15, 1);
    a[0] = a0;
    b[0] = b0;
}
