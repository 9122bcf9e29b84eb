//! Compares the proved library with a second implementation, written from documents 01 and 02 and ECMA-268. `tests/run` builds and runs it.
mod block;
mod blocks_test;
mod capture;
mod capture_test;
mod codes_test;
mod course_test;
mod damage;
mod erasures_test;
mod gf;
mod library;
mod light_test;
mod nine_rows_test;
mod papers;
mod pool;
mod pool_test;
mod pooled_test;
mod random;
mod reach_test;
mod readers_test;
mod reading;
mod report;
mod rs;
mod run;
mod runs_test;
mod session_test;
mod slips_test;
mod tables;
mod tidy;
mod trial_data;
mod vectors_test;
mod writer_test;
mod writing;

use capture::CaptureReader;
use random::Random;
use reading::Reader;
use report::Report;
use std::path::Path;
use std::process::ExitCode;
use tables::Tables;

fn round(report: &mut Report, seed: u64) {
    vectors_test::all(report);
    session_test::vectors(report);
    let mut random = Random::new(seed);
    codes_test::field(report, &mut random);
    codes_test::parities(report, &mut random, 2_000);
    codes_test::repairs(report, &mut random, 5_000);
    codes_test::erasures(report, &mut random, 1_000);
    light_test::all(report, &mut random, 14_500);
    let (tables, reader) = (Tables::new(), Reader::new());
    blocks_test::maker(report, &mut random, 1_000);
    blocks_test::maker_refusals(report, &mut random);
    reach_test::all(report, &mut random);
    blocks_test::words(report, &mut random, &reader);
    blocks_test::streams(report, &mut random, &tables, 20);
    writer_test::blocks(report, &mut random, &tables, 200);
    writer_test::sectors(report, &mut random, &tables, 2_000);
    writer_test::edges(report, &mut random, &tables);
    writer_test::peaks_of_sectors(report, &mut random, &tables);
    writer_test::closings(report, &tables);
    writer_test::ends(report, &mut random, &tables);
    writer_test::refusals(report, &mut random, &tables, 20_000);
    session_test::random_sessions(report, &mut random, &tables, 10_000);
    readers_test::all(report, &mut random, &tables, &reader);
    nine_rows_test::all(report, &mut random, &tables, &reader, 60);
    erasures_test::all(report, &mut random, &tables, &reader);
    runs_test::all(report, &mut random, &tables, &reader);
    pool_test::all(report, &mut random);
    pooled_test::all(report, &mut random, &tables, &reader);
    let captures = CaptureReader::new(&tables, &reader);
    capture_test::all(report, &mut random, &tables, &captures);
    slips_test::all(report, &mut random, &tables, &captures);
}

/// `--trial-data FOLDER` writes cases for crate `trials`, `--drawing` writes docs/course/reach.svg. `--long [SEED]` runs until stopped or until something differs, with a new seed each round.
fn main() -> ExitCode {
    let words: Vec<String> = std::env::args().skip(1).collect();
    if words.first().is_some_and(|w| w == "--trial-data") {
        trial_data::write(Path::new(&words[1])).expect("the folder of the trials' data");
        return ExitCode::SUCCESS;
    }
    if words.first().is_some_and(|w| w == "--drawing") {
        std::fs::write(papers::root().join("docs/course/reach.svg"), reach_test::drawing()).expect("the course's drawing");
        return ExitCode::SUCCESS;
    }
    let is_long = words.first().is_some_and(|w| w == "--long");
    let mut seed = words.get(1).map_or(1, |w| w.parse().expect("a seed is a number"));
    let mut report = Report::new();
    papers::all(&mut report);
    course_test::light_repair(&mut report);
    course_test::reach(&mut report);
    tidy::all(&mut report);
    loop {
        println!("seed {seed}");
        round(&mut report, seed);
        if !is_long || !report.is_clean() {
            break;
        }
        seed += 1;
    }
    if report.is_clean() {
        println!("tests: ok");
        ExitCode::SUCCESS
    } else {
        println!("tests: FAILED, seed {seed}");
        ExitCode::FAILURE
    }
}
