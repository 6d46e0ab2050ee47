//! Reads the records of a file by the crate `csv` alone, into one reused record, and writes their number;
//! or, with a number of times, reads all of them and writes them so many times:
//!     records FILE [TIMES]

use csv::{ByteRecord, Error, Reader, ReaderBuilder, WriterBuilder};
use std::fs;
use std::io;

fn reader(bytes: &[u8]) -> Reader<&[u8]> {
    ReaderBuilder::new().has_headers(false).flexible(true).from_reader(bytes)
}

fn count(bytes: &[u8]) -> Result<u64, Error> {
    let mut reader = reader(bytes);
    let mut record = ByteRecord::new();
    let mut count = 0;
    while reader.read_byte_record(&mut record)? {
        count += 1;
    }
    Ok(count)
}

fn write(bytes: &[u8], times: u64) -> Result<(), Error> {
    let records = reader(bytes).into_byte_records().collect::<Result<Vec<_>, _>>()?;
    let mut writer = WriterBuilder::new().flexible(true).from_writer(io::stdout());
    for _ in 0..times {
        for record in &records {
            writer.write_byte_record(record)?;
        }
    }
    writer.flush()?;
    Ok(())
}

fn main() -> Result<(), Error> {
    let words: Vec<String> = std::env::args().collect();
    let bytes = fs::read(&words[1])?;
    match words.get(2) {
        None => println!("{}", count(&bytes)?),
        Some(times) => write(&bytes, times.parse().expect("a number of times"))?,
    }
    Ok(())
}
