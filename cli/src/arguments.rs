//! What can be typed: the commands, their arguments and their help.
use std::path::PathBuf;

use clap::{Parser, Subcommand, ValueEnum};
use clap_complete::Shell;

/// The 80 mm DVD channel (ECMA-268): images of sectors to streams of code bits and back, over a proved library.
#[derive(Parser)]
#[command(
    name = "chamanzil",
    version,
    after_help = "`-` is standard input or output everywhere. Exit status: 0 done, 1 refused (its number and why are on standard error), 2 wrong arguments."
)]
pub struct Arguments {
    #[command(subcommand)]
    pub command: Command,
}

#[derive(Subcommand)]
pub enum Command {
    Format(Format),
    Recover(Recover),
    Pool(Pool),
    Capture(Capture),
    Sheet(Sheet),
    Map(Map),
    Check(Check),
    Completions(Completions),
}

/// An image of sectors to the stream of a run of blocks
///
/// The image is any whole number of sectors of 2,048 bytes. The last block is filled up with zero sectors; how many is said, and so are the blocks and sectors of
/// the run, its DSV after the closing code, and its peak: the greatest absolute DSV at the end of a Sync Frame.
#[derive(clap::Args)]
#[command(after_help = "Example:\n  chamanzil format disc.img -o disc.stream --first 030000")]
pub struct Format {
    /// The image
    pub image: PathBuf,
    /// Where the stream goes
    #[arg(short, long, value_name = "STREAM")]
    pub output: PathBuf,
    /// Number of the first sector, six hexadecimal digits
    #[arg(long, value_name = "NUMBER", value_parser = first_number)]
    pub first: u32,
    /// Sector Information byte, two hexadecimal digits
    #[arg(long, value_name = "BYTE", default_value = "00", value_parser = information)]
    pub info: u8,
}

/// A stream back to the image, with repair
///
/// Words that are in no table are marked, and the rows are repaired by their marks. A block that is refused with 4, 5 or 6 is read once more without marks, since an
/// unknown word is read as 0 and can be right; where that passes it is handed out, and a line says so. A block that is refused both ways ends it, with the number of
/// the reading with marks, and nothing is handed out. The sheet has the line of the reading that is handed out, be it with marks or without. The summary's last line
/// has the sums of the bench sheet's counts over all blocks, and at its end `unmarked N` where N blocks are read without marks.
#[derive(clap::Args)]
#[command(after_help = "Example:\n  chamanzil recover disc.stream -o disc.img --length 65536")]
pub struct Recover {
    /// The stream of a run
    pub stream: PathBuf,
    #[command(flatten)]
    pub handout: Handout,
    /// Make no second try without marks
    #[arg(long)]
    pub strict: bool,
}

/// Two streams of one run, from two drives, back to the image, with repair
///
/// Words that are in no table are marked, and the two readings of each block are pooled before the repair: a byte stands that is unmarked in both and the same, or
/// unmarked in one only; any other place is marked. A row comes back whole in which every place is right and unmarked in at least one stream, and in which the two
/// together have at most ten unmarked wrong bytes; a block is handed out while at most eight of its 208 rows are not like that, also where each stream alone is
/// refused. A clean stream pooled with a very bad one can be refused where the clean one alone is read: use `recover` on each first. There is no second try without
/// marks. In the sheet and the summary `unknown` and `sync` are of both streams together, and `marked N` at the end counts the marks after pooling.
#[derive(clap::Args)]
#[command(after_help = "Example:\n  chamanzil pool first.stream second.stream -o disc.img")]
pub struct Pool {
    /// The stream of a run
    pub first: PathBuf,
    /// The stream of the same run from another drive
    pub second: PathBuf,
    #[command(flatten)]
    pub handout: Handout,
}

// What `recover` and `pool` hand out. (A doc comment here would stand in their help for their own.)
#[derive(clap::Args)]
pub struct Handout {
    /// Where the image goes
    #[arg(short, long, value_name = "IMAGE")]
    pub output: PathBuf,
    /// Bytes of the image, without the zero sectors that filled the last block up
    #[arg(long, value_name = "N")]
    pub length: Option<u64>,
    /// Where the bench sheet's line of each block goes
    #[arg(long, value_name = "FILE")]
    pub sheet: Option<PathBuf>,
    /// Put 32,768 zero bytes where a block is refused, and go on; the exit status is 1 all the same
    #[arg(long)]
    pub keep_going: bool,
}

/// The frames of a capture that begins anywhere, and the bits that are in none
///
/// Captures from a drive begin in mid frame, and a slipped clock adds or drops bits. A Sync Frame is taken where a SYNC Code starts it and one stands exactly 1,488
/// bits later, be it the same or not; otherwise the look moves on by one bit. After a taken frame it goes on at the second SYNC Code. The bytes of the frames go out
/// in order, 91 each, 0 for a word that is in no table. Bits in no frame are stretches, each as long as it can be; the SYNC Code that closes the last frame is in one
/// too. The last line has the counts, as `frames 832 stretches 1`.
///
/// A capture is whole bytes, at most 1,099,511,627,776 of them. It is held in memory, with its bytes and stretches: that is 1.5 times its length where little is
/// lost, and 1.7 times at most.
#[derive(clap::Args)]
#[command(
    after_help = "Example:\n  chamanzil capture drive.capture -o drive.bytes --stretches drive.tsv --map drive.png"
)]
pub struct Capture {
    /// The capture
    pub file: PathBuf,
    /// Where the frames' bytes go
    #[arg(short, long, value_name = "BYTES")]
    pub output: PathBuf,
    /// Where a line of each stretch goes: its start and its length in bits, with a tab between them
    #[arg(long, value_name = "TSV")]
    pub stretches: Option<PathBuf>,
    /// Where a picture of the stretches over the capture's length goes
    #[arg(long, value_name = "PNG")]
    pub map: Option<PathBuf>,
}

/// The bench sheet's line of each block
///
/// Each block is read with the marks of its unknown words, and not a second time without: a block that `recover` reads without marks is refused here.
#[derive(clap::Args)]
#[command(after_help = "Example:\n  chamanzil sheet disc.stream")]
pub struct Sheet {
    /// The stream of a run
    pub stream: PathBuf,
}

/// A picture of one block: what became of each byte
///
/// 208 rows by 182 places in recording order: read right, corrected by its row, by its column, or wrong still, with a black middle where the byte is marked, since
/// its word is in no table; rows and columns past help at the side. The rows are repaired by their marks. A block that is refused with 4, 5 or 6 is drawn too, with
/// exit status 1.
#[derive(clap::Args)]
#[command(after_help = "Example:\n  chamanzil map disc.stream --block 1 -o map.html")]
pub struct Map {
    /// The stream of a run
    pub stream: PathBuf,
    /// Which block, from 0
    #[arg(long, value_name = "K", default_value_t = 0)]
    pub block: u64,
    /// Where the picture goes: NAME.png or NAME.html
    #[arg(short, long, value_name = "FILE")]
    pub output: PathBuf,
    /// A picture, or a page that tells row, place, byte, Code Word and marks under the pointer; where it is not given, by the name's ending
    #[arg(long = "as", value_name = "KIND")]
    pub kind: Option<Kind>,
}

#[derive(Clone, Copy, PartialEq, Eq, ValueEnum)]
pub enum Kind {
    Png,
    Html,
}

/// Lengths, zero runs and SYNC Codes of a run, before it goes to the recorder
#[derive(clap::Args)]
#[command(after_help = "Example:\n  chamanzil check disc.stream")]
pub struct Check {
    /// The stream of a run
    pub stream: PathBuf,
}

/// Completions for a shell, on standard output
#[derive(clap::Args)]
#[command(after_help = "Example:\n  chamanzil completions bash")]
pub struct Completions {
    /// The shell
    pub shell: Shell,
}

/// A number of so many hexadecimal digits, no more and no fewer: 30000 for 030000 is a slip that would not show.
fn hexadecimal(text: &str, digits: usize) -> Result<u32, String> {
    let fits = text.len() == digits && text.bytes().all(|c| c.is_ascii_hexdigit());
    if !fits {
        return Err(format!("{digits} hexadecimal digits are due"));
    }
    u32::from_str_radix(text, 16).map_err(|e| e.to_string())
}

fn first_number(text: &str) -> Result<u32, String> {
    hexadecimal(text, 6)
}

fn information(text: &str) -> Result<u8, String> {
    u8::try_from(hexadecimal(text, 2)?).map_err(|e| e.to_string())
}
