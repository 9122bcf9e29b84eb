//! Reed-Solomon codes with roots alpha^0 .. alpha^(p-1), the second implementation: encoder by shift register, decoder by Berlekamp-Massey, Chien and Forney,
//! begun at the marked places where there are any. A word is a polynomial, first byte highest. Lists of coefficients of polynomials other than words run from the
//! lowest power up. Marks are bytes beside the word's, 1 or 0.
use crate::gf::Field;
use crate::random::Random;

pub struct Code {
    pub field: Field,
    /// How many roots, which is also how many parity bytes.
    pub roots: usize,
    /// How many wrong bytes the rule puts right.
    pub radius: usize,
    pub length: usize,
    generator: Vec<u8>,
}

/// What the rule of document 01, or with marks that of document 02, makes of a word.
#[derive(Debug, PartialEq, Eq, Clone, Copy)]
pub enum Fate {
    Unchanged,
    Changed,
    PastHelp,
}

impl Code {
    pub fn new(length: usize, roots: usize, radius: usize) -> Code {
        let field = Field::new();
        let mut generator = vec![1u8];
        for i in 0..roots {
            generator = times_linear(&field, &generator, field.alpha(i));
        }
        Code {
            field,
            roots,
            radius,
            length,
            generator,
        }
    }

    pub fn row() -> Code {
        Code::new(182, 10, 5)
    }

    /// Rows by the rule of the light repair (document 02, request 13).
    pub fn light_row() -> Code {
        Code::new(182, 10, 2)
    }

    pub fn column() -> Code {
        Code::new(208, 16, 8)
    }

    pub fn parity(&self, data: &[u8]) -> Vec<u8> {
        let p = self.roots;
        let mut register = vec![0u8; p];
        for &b in data {
            let feedback = b ^ register[p - 1];
            for i in (0..p).rev() {
                let below = if i == 0 { 0 } else { register[i - 1] };
                register[i] = below ^ self.field.mul(feedback, self.generator[i]);
            }
        }
        register.reverse();
        register
    }

    pub fn encoded(&self, data: &[u8]) -> Vec<u8> {
        let mut word = data.to_vec();
        word.extend(self.parity(data));
        word
    }

    pub fn random_code_word(&self, random: &mut Random) -> Vec<u8> {
        self.encoded(&random.bytes(self.length - self.roots))
    }

    pub fn syndromes(&self, word: &[u8]) -> Vec<u8> {
        let sum = |i| {
            let x = self.field.alpha(i);
            word.iter().fold(0, |v, &b| self.field.mul(v, x) ^ b)
        };
        (0..self.roots).map(sum).collect()
    }

    pub fn is_code(&self, word: &[u8]) -> bool {
        self.syndromes(word).iter().all(|&s| s == 0)
    }

    /// The one code word within the radius, if there is one. Soundness is tested here by the rule itself, not by the decoder.
    pub fn nearest(&self, word: &[u8]) -> Option<Vec<u8>> {
        let near = self.decoded(word, &[])?;
        let changed = distance(&near, word);
        if self.is_code(&near) && changed <= self.radius {
            Some(near)
        } else {
            None
        }
    }

    /// The one code word that differs from the word in e unmarked bytes with 2e + f at most the number of roots, f all the marks, if there is one (document 02,
    /// request 2). The rule itself is the test here too.
    pub fn nearest_erased(&self, word: &[u8], erasures: &[u8]) -> Option<Vec<u8>> {
        let marked: Vec<usize> = (0..word.len()).filter(|&at| erasures[at] == 1).collect();
        if marked.len() > self.roots {
            return None;
        }
        let near = self.decoded(word, &marked)?;
        let wrong = (0..word.len()).filter(|&at| erasures[at] == 0 && near[at] != word[at]).count();
        if self.is_code(&near) && 2 * wrong + marked.len() <= self.roots {
            Some(near)
        } else {
            None
        }
    }

    pub fn repair(&self, word: &mut [u8]) -> Fate {
        if self.is_code(word) {
            return Fate::Unchanged;
        }
        become_code_word(word, self.nearest(word))
    }

    /// A code word stays, but with more marks than roots it is past help as any other.
    pub fn repair_erased(&self, word: &mut [u8], erasures: &[u8]) -> Fate {
        let marked = erasures.iter().filter(|&&mark| mark == 1).count();
        if marked <= self.roots && self.is_code(word) {
            return Fate::Unchanged;
        }
        become_code_word(word, self.nearest_erased(word, erasures))
    }

    /// The word with other bytes at the marked places and at as few others as the syndromes ask for.
    fn decoded(&self, word: &[u8], marked: &[usize]) -> Option<Vec<u8>> {
        let s = self.syndromes(word);
        let locator = self.berlekamp_massey(&s, self.erasure_locator(marked));
        let places = locator.len() - 1;
        // 2e + f, where e of the places are not marked
        if 2 * places - marked.len() > self.roots {
            return None;
        }
        let evaluator = self.evaluator(&s, &locator);
        let mut mended = word.to_vec();
        let mut found = 0;
        for at in 0..word.len() {
            let power = word.len() - 1 - at;
            let inverse = self.field.alpha(255 - power % 255);
            if self.value(&locator, inverse) == 0 {
                mended[at] ^= self.forney(&locator, &evaluator, power)?;
                found += 1;
            }
        }
        if found == places {
            Some(mended)
        } else {
            None
        }
    }

    /// The product of 1 + Xx over the locators X of the marked places, which is that of x + X read backwards.
    fn erasure_locator(&self, marked: &[usize]) -> Vec<u8> {
        let f = &self.field;
        let mut product = marked.iter().fold(vec![1], |product, at| times_linear(f, &product, f.alpha(self.length - 1 - at)));
        product.reverse();
        product
    }

    /// The shortest register that makes the syndromes and has the marked places among its roots: Massey 1969, begun at their locator as in Blahut 1983. The first
    /// coefficient is 1.
    fn berlekamp_massey(&self, s: &[u8], erased: Vec<u8>) -> Vec<u8> {
        let f = &self.field;
        let marked = erased.len() - 1;
        let (mut now, mut before) = (erased.clone(), erased);
        let (mut length, mut gap, mut last) = (marked, 1, 1u8);
        for n in marked..s.len() {
            let tail = (1..now.len()).filter(|&i| i <= n);
            let off = tail.fold(s[n], |d, i| d ^ f.mul(now[i], s[n - i]));
            if off == 0 {
                gap += 1;
                continue;
            }
            let old = now.clone();
            let factor = f.mul(off, f.inverse(last));
            now.resize(now.len().max(before.len() + gap), 0);
            for (i, &b) in before.iter().enumerate() {
                now[i + gap] ^= f.mul(factor, b);
            }
            if 2 * length <= n + marked {
                length = n + 1 + marked - length;
                before = old;
                last = off;
                gap = 1;
            } else {
                gap += 1;
            }
        }
        // A register longer than its polynomial's degree cannot come from `length` errors at places of the word; the caller's count of roots then differs.
        now.resize(length + 1, 0);
        now
    }

    fn evaluator(&self, s: &[u8], locator: &[u8]) -> Vec<u8> {
        let mut product = vec![0u8; s.len()];
        for (i, &a) in locator.iter().enumerate() {
            for (j, &b) in s.iter().enumerate() {
                if i + j < s.len() {
                    product[i + j] ^= self.field.mul(a, b);
                }
            }
        }
        product
    }

    fn value(&self, polynomial: &[u8], x: u8) -> u8 {
        let f = &self.field;
        polynomial.iter().rev().fold(0, |v, &c| f.mul(v, x) ^ c)
    }

    /// Forney's formula for the first root alpha^0: the value at the place whose locator is alpha^power.
    fn forney(&self, locator: &[u8], evaluator: &[u8], power: usize) -> Option<u8> {
        let f = &self.field;
        let inverse = f.alpha(255 - power % 255);
        let mut slope = 0;
        for i in (1..locator.len()).step_by(2) {
            slope ^= f.mul(locator[i], f.power(inverse, i as u64 - 1));
        }
        if slope == 0 {
            return None;
        }
        let top = f.mul(f.alpha(power), self.value(evaluator, inverse));
        Some(f.mul(top, f.inverse(slope)))
    }

    /// A code word of the least weight, roots + 1, that is not 0 at exactly `places`: solved by elimination from the syndromes.
    pub fn lightest(&self, places: &[usize], first: u8) -> Vec<u8> {
        assert!(places.len() == self.roots + 1 && first != 0);
        let f = &self.field;
        let n = self.roots;
        let locator = |k: usize| f.alpha(self.length - 1 - places[k]);
        let mut rows: Vec<Vec<u8>> = (0..n)
            .map(|i| {
                let mut row: Vec<u8> = (1..=n).map(|k| f.power(locator(k), i as u64)).collect();
                row.push(f.mul(first, f.power(locator(0), i as u64)));
                row
            })
            .collect();
        solve(f, &mut rows);
        let mut word = vec![0u8; self.length];
        word[places[0]] = first;
        for k in 1..=n {
            word[places[k]] = rows[k - 1][n];
        }
        assert!(self.is_code(&word) && places.iter().all(|&p| word[p] != 0));
        word
    }

    /// The word with these syndromes that is 0 but for its parity: solved by elimination.
    pub fn with_syndromes(&self, due: &[u8]) -> Vec<u8> {
        let (f, n) = (&self.field, self.roots);
        let equation = |i: usize| (0..n).map(|k| f.alpha(i * (n - 1 - k))).chain([due[i]]).collect();
        let mut rows: Vec<Vec<u8>> = (0..n).map(equation).collect();
        solve(f, &mut rows);
        let mut word = vec![0; self.length - n];
        word.extend(rows.iter().map(|row| row[n]));
        assert!(self.syndromes(&word) == due);
        word
    }
}

/// Gauss and Jordan, on rows with the right side last.
fn solve(f: &Field, rows: &mut [Vec<u8>]) {
    let n = rows.len();
    for c in 0..n {
        let pivot = (c..n).find(|&r| rows[r][c] != 0).expect("a regular system");
        rows.swap(c, pivot);
        let scale = f.inverse(rows[c][c]);
        let top: Vec<u8> = rows[c].iter().map(|&v| f.mul(v, scale)).collect();
        rows[c] = top.clone();
        for r in (0..n).filter(|&r| r != c) {
            let factor = rows[r][c];
            for (v, &t) in rows[r].iter_mut().zip(&top) {
                *v ^= f.mul(factor, t);
            }
        }
    }
}

/// The word becomes the code word near it, or stays.
fn become_code_word(word: &mut [u8], near: Option<Vec<u8>>) -> Fate {
    match near {
        Some(near) => {
            word.copy_from_slice(&near);
            Fate::Changed
        }
        None => Fate::PastHelp,
    }
}

fn times_linear(f: &Field, polynomial: &[u8], root: u8) -> Vec<u8> {
    let mut product = vec![0u8; polynomial.len() + 1];
    for (i, &c) in polynomial.iter().enumerate() {
        product[i + 1] ^= c;
        product[i] ^= f.mul(c, root);
    }
    product
}

pub fn distance(a: &[u8], b: &[u8]) -> usize {
    assert_eq!(a.len(), b.len());
    a.iter().zip(b).filter(|(x, y)| x != y).count()
}
