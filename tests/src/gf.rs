//! GF(256) over x^8 + x^4 + x^3 + x^2 + 1 (ECMA-268, 17.4), the second implementation: by polynomials, with tables made from that.

/// The product of two polynomials over GF(2), reduced from the highest power down.
pub fn slow_product(a: u8, b: u8) -> u8 {
    let mut wide: u16 = 0;
    for i in 0..8 {
        if b >> i & 1 == 1 {
            wide ^= (a as u16) << i;
        }
    }
    for i in (8..15).rev() {
        if wide >> i & 1 == 1 {
            wide ^= 0x11D << (i - 8);
        }
    }
    wide as u8
}

/// a to the power n by document 01's definition, recursion on halves of the exponent.
pub fn slow_power(a: u8, n: u64) -> u8 {
    if n == 0 {
        return 1;
    }
    let half = slow_power(a, n / 2);
    slow_product(slow_product(half, half), if n % 2 == 1 { a } else { 1 })
}

pub struct Field {
    log: [usize; 256],
    exp: [u8; 510],
}

impl Field {
    pub fn new() -> Field {
        let mut f = Field {
            log: [0; 256],
            exp: [0; 510],
        };
        let mut x = 1u8;
        for i in 0..255 {
            f.exp[i] = x;
            f.exp[i + 255] = x;
            f.log[x as usize] = i;
            x = slow_product(x, 2);
        }
        f
    }

    pub fn mul(&self, a: u8, b: u8) -> u8 {
        if a == 0 || b == 0 {
            return 0;
        }
        self.exp[self.log[a as usize] + self.log[b as usize]]
    }

    /// alpha^k, for any k.
    pub fn alpha(&self, k: usize) -> u8 {
        self.exp[k % 255]
    }

    pub fn inverse(&self, a: u8) -> u8 {
        assert!(a != 0);
        self.exp[255 - self.log[a as usize]]
    }

    /// a^n, with a^0 = 1 for every a.
    pub fn power(&self, a: u8, n: u64) -> u8 {
        if n == 0 {
            return 1;
        }
        if a == 0 {
            return 0;
        }
        self.exp[(self.log[a as usize] as u64 * (n % 255) % 255) as usize]
    }
}
