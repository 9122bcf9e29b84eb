//! A block's bytes and marks as the sector reader gives them, before any repair. The second try of `recover` and `pool` begin with it.
use chamanzil::{
    pool, read_sector, repair_block, BlockRead, Refusal, Repaired, SectorRead, BLOCK, BLOCK_STREAM,
    SECTOR_READ, SECTOR_STREAM, STREAM,
};

pub struct Reading {
    bytes: Box<[u8; BLOCK]>,
    erasures: Box<[u8; BLOCK]>,
    unknown: u32,
    sync: u32,
}

/// The sectors of a block, each with the two bytes after it.
fn sectors(stream: &[u8; STREAM]) -> Vec<SectorRead> {
    let starts = (0..BLOCK_STREAM).step_by(SECTOR_STREAM);
    let parts = starts.map(|at| stream[at..at + SECTOR_READ].try_into());
    parts
        .map(|part| read_sector(part.expect("a sector has 4,838 bytes")))
        .collect()
}

/// A part of each sector, one after the other.
#[allow(clippy::unnecessary_box_returns)]
fn joined(sectors: &[SectorRead], part: fn(&SectorRead) -> &[u8]) -> Box<[u8; BLOCK]> {
    let bytes: Vec<u8> = sectors.iter().flat_map(part).copied().collect();
    let block = bytes.into_boxed_slice().try_into();
    block.expect("sixteen sectors are a block")
}

impl Reading {
    pub fn of(stream: &[u8; STREAM]) -> Self {
        let sectors = sectors(stream);
        Reading {
            bytes: joined(&sectors, |sector| &sector.bytes[..]),
            erasures: joined(&sectors, |sector| &sector.erasures[..]),
            unknown: sectors.iter().map(|sector| sector.unknown).sum(),
            sync: sectors.iter().map(|sector| sector.sync).sum(),
        }
    }

    /// The same bytes, none of them marked.
    pub fn without_marks(mut self) -> Self {
        self.erasures.fill(0);
        self
    }

    /// This reading and another of the same block in one. The sectors' counts are of both.
    pub fn pooled(mut self, second: &Reading) -> Result<Self, Refusal> {
        let (bytes, erasures) = (&mut self.bytes, &mut self.erasures);
        pool(bytes, erasures, &second.bytes, &second.erasures)?;
        self.unknown += second.unknown;
        self.sync += second.sync;
        Ok(self)
    }

    /// What the repairer hands out of it, as the whole-block reader would.
    pub fn repaired(mut self) -> Result<BlockRead, Refusal> {
        let Repaired {
            main,
            first,
            rows,
            columns,
        } = repair_block(&mut self.bytes, &self.erasures)?;
        Ok(BlockRead {
            main,
            first,
            rows,
            columns,
            unknown: self.unknown,
            sync: self.sync,
            erasures: self.erasures,
        })
    }
}
