//! Commands that read.
use crate::Outcome;
use crate::arguments::Arguments;
use crate::failure::{About, Failure};
use oletami::{Archive, Refusal, TileCoord, TileId};
use std::ffi::OsStr;
use std::fmt::Display;
use std::fs;
use std::io::{self, BufRead, BufReader, BufWriter, Write};
use std::path::Path;

fn open(file: &OsStr) -> Result<Archive, Failure> {
    Archive::open(file).about(file.display())
}

/// The word for a tile, or what is refused as one.
fn parsed<T: std::str::FromStr<Err = Refusal>>(word: &OsStr) -> Result<T, Failure> {
    word.to_string_lossy().parse().about(word.display())
}

pub fn print(text: impl Display) -> Result<Outcome, Failure> {
    write!(io::stdout(), "{text}").map_err(Failure::output)?;
    Ok(Outcome::Done)
}

pub fn id(arguments: Arguments) -> Result<Outcome, Failure> {
    let [word] = arguments.words(["Z/X/Y"])?;
    print(format_args!("{}\n", TileId::from(parsed::<TileCoord>(word)?)))
}

pub fn coord(arguments: Arguments) -> Result<Outcome, Failure> {
    let [word] = arguments.words(["ID"])?;
    print(format_args!("{}\n", TileCoord::from(parsed::<TileId>(word)?)))
}

pub fn show(arguments: Arguments) -> Result<Outcome, Failure> {
    let [file] = arguments.words(["FILE"])?;
    let h = open(file)?.header().about(file.display())?;
    let coded = |code: u8, name: &str| format!("{code} {name}");
    let fields: [(&str, &dyn Display); 25] = [
        ("version", &h.version),
        ("root_offset", &h.root_offset),
        ("root_length", &h.root_length),
        ("metadata_offset", &h.metadata_offset),
        ("metadata_length", &h.metadata_length),
        ("leaf_offset", &h.leaf_offset),
        ("leaf_length", &h.leaf_length),
        ("data_offset", &h.data_offset),
        ("data_length", &h.data_length),
        ("n_addressed_tiles", &h.n_addressed_tiles),
        ("n_tile_entries", &h.n_tile_entries),
        ("n_tile_contents", &h.n_tile_contents),
        ("clustered", &h.clustered),
        (
            "internal_compression",
            &coded(h.internal_compression.code(), h.internal_compression.name()),
        ),
        (
            "tile_compression",
            &coded(h.tile_compression.code(), h.tile_compression.name()),
        ),
        ("tile_type", &coded(h.tile_type.code(), h.tile_type.name())),
        ("min_zoom", &h.min_zoom),
        ("max_zoom", &h.max_zoom),
        ("min_longitude", &h.min_longitude),
        ("min_latitude", &h.min_latitude),
        ("max_longitude", &h.max_longitude),
        ("max_latitude", &h.max_latitude),
        ("center_zoom", &h.center_zoom),
        ("center_longitude", &h.center_longitude),
        ("center_latitude", &h.center_latitude),
    ];
    let lines: String = fields.iter().map(|(name, value)| format!("{name} {value}\n")).collect();
    print(lines)
}

pub fn tile(arguments: Arguments) -> Result<Outcome, Failure> {
    let [file, word] = arguments.words(["FILE", "Z/X/Y"])?;
    let coord: TileCoord = parsed(word)?;
    let archive = open(file)?;
    let Some(contents) = archive.tile(coord).about(file.display())? else {
        eprintln!("pmt: {}: {coord} absent", file.display());
        return Ok(Outcome::Absent);
    };
    match arguments.option("-o") {
        Some(out) => fs::write(out, contents).about(Path::new(out).display())?,
        None => io::stdout().write_all(contents).map_err(Failure::output)?,
    }
    Ok(Outcome::Done)
}

/// `Z/X/Y` or an id: anything with a slash is meant as the first.
fn wanted(line: &str) -> Result<TileCoord, Refusal> {
    if line.contains('/') {
        line.parse()
    } else {
        line.parse::<TileId>().map(TileCoord::from)
    }
}

/// Answers line by line, and as soon as no line is waiting. Ends as the worst line does: refused, absent, found.
pub fn lookup(arguments: Arguments) -> Result<Outcome, Failure> {
    let [file] = arguments.words(["FILE"])?;
    let archive = open(file)?;
    let mut input = BufReader::new(io::stdin().lock());
    let mut output = BufWriter::new(io::stdout().lock());
    let (mut absent, mut refused, mut first) = (false, 0u64, None);
    let mut line = Vec::new();
    loop {
        line.clear();
        if input.read_until(b'\n', &mut line).about("standard input")? == 0 {
            break;
        }
        let text = String::from_utf8_lossy(&line);
        let text = text.trim();
        let coord = wanted(text);
        let name = coord.map_or_else(|_| text.to_owned(), |coord| coord.to_string());
        match coord.and_then(|coord| archive.lookup(coord)) {
            Ok(Some(at)) => writeln!(output, "{name} {} {}", at.start, at.length),
            Ok(None) => {
                absent = true;
                writeln!(output, "{name} absent")
            }
            Err(refusal) => {
                refused += 1;
                let written = writeln!(output, "{name} refused {} {}", refusal.number(), refusal.reason());
                first.get_or_insert((name, refusal));
                written
            }
        }
        .map_err(Failure::output)?;
        if input.buffer().is_empty() {
            output.flush().map_err(Failure::output)?;
        }
    }
    output.flush().map_err(Failure::output)?;
    match first {
        Some((name, refusal)) => Err(Failure::Said(format!(
            "{}: {name} {refusal}, the first of {refused} refused",
            file.display()
        ))),
        None if absent => Ok(Outcome::Absent),
        None => Ok(Outcome::Done),
    }
}

pub fn entries(arguments: Arguments) -> Result<Outcome, Failure> {
    let [file] = arguments.words(["FILE"])?;
    let archive = open(file)?;
    let mut output = BufWriter::new(io::stdout().lock());
    for entry in archive.entries().about(file.display())? {
        let e = entry.about(file.display())?;
        writeln!(output, "{} {} {} {}", e.tile_id, e.run_length, e.length, e.offset).map_err(Failure::output)?;
    }
    output.flush().map_err(Failure::output)?;
    Ok(Outcome::Done)
}
