//! Annex G and the SYNC Codes of table 4, from data/tables.tsv. They are common to both implementations; everything else is not.

#[derive(Clone, Copy, Debug, PartialEq, Eq)]
pub struct Entry {
    pub word: u16,
    pub next: u8,
}

pub struct Tables {
    /// By byte and State - 1.
    pub main: Vec<[Entry; 4]>,
    pub sub: Vec<[Entry; 4]>,
    /// First halves by class (States 1 and 2, States 3 and 4), number, Primary and Secondary.
    pub sync: [[[u16; 2]; 8]; 2],
}

/// Every second half of a SYNC Code.
pub const SYNC_END: u16 = 0x0011;

impl Tables {
    pub fn new() -> Tables {
        let mut t = Tables {
            main: Vec::new(),
            sub: Vec::new(),
            sync: [[[0; 2]; 8]; 2],
        };
        for line in include_str!("../../data/tables.tsv").lines().filter(|l| !l.starts_with('#')) {
            let cells: Vec<&str> = line.split('\t').collect();
            match cells[0] {
                "4" => t.add_sync_line(&cells),
                _ => t.add_word_line(&cells),
            }
        }
        assert!(t.main.len() == 256 && t.sub.len() == 88);
        t
    }

    fn add_word_line(&mut self, cells: &[&str]) {
        let entry = |k: usize| Entry {
            word: u16::from_str_radix(cells[2 + 2 * k], 2).unwrap(),
            next: cells[3 + 2 * k].parse().unwrap(),
        };
        let row = [entry(0), entry(1), entry(2), entry(3)];
        let table = match cells[0] {
            "G.1" => &mut self.main,
            _ => &mut self.sub,
        };
        assert_eq!(cells[1].parse::<usize>().unwrap(), table.len());
        table.push(row);
    }

    fn add_sync_line(&mut self, cells: &[&str]) {
        let number: usize = cells[1][2..].parse().unwrap();
        let class = usize::from(cells[2] == "3-4");
        for k in 0..2 {
            let halves: Vec<u16> = cells[3 + k].split(' ').map(|h| u16::from_str_radix(h, 2).unwrap()).collect();
            assert_eq!(halves[1], SYNC_END);
            self.sync[class][number][k] = halves[0];
        }
    }

    pub fn main_word(&self, byte: u8, state: u8) -> Entry {
        self.main[byte as usize][state as usize - 1]
    }

    pub fn sub_word(&self, byte: u8, state: u8) -> Entry {
        self.sub[byte as usize][state as usize - 1]
    }

    /// Primary and Secondary of a number in the class of a State.
    pub fn codes(&self, state: u8, number: usize) -> [u16; 2] {
        self.sync[usize::from(state > 2)][number]
    }
}

/// The numbers of a sector's 26 SYNC Codes.
pub fn sync_numbers() -> [usize; 26] {
    let first = [0, 1, 2, 3, 4, 1, 2, 3, 4, 1, 2, 3, 4];
    let second = [5, 5, 5, 5, 5, 6, 6, 6, 6, 7, 7, 7, 7];
    std::array::from_fn(|f| if f % 2 == 0 { first[f / 2] } else { second[f / 2] })
}

/// The ZEROs across the join of two half words that each have a ONE.
pub fn join_zeros(before: u16, after: u16) -> u32 {
    before.trailing_zeros() + after.leading_zeros()
}

pub fn joins(before: u16, after: u16) -> bool {
    (2..=10).contains(&join_zeros(before, after))
}
