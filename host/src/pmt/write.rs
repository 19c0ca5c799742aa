//! Commands that write an archive.
use crate::Outcome;
use crate::arguments::Arguments;
use crate::failure::{About, Failure};
use crate::progress::Progress;
use oletami::{Map, Publication, Row, Stores, TileCoord, TileId, TileType, Writer};
use std::ffi::OsStr;
use std::fs;
use std::io::{BufRead, BufReader};
use std::path::{Path, PathBuf};

/// What pack and build take.
pub const OPTIONS: &[&str] = &[
    "--metadata",
    "--tile-type",
    "--tile-compression",
    "--min-zoom",
    "--max-zoom",
    "--bounds",
    "--center",
];

/// What build takes besides.
pub const INPUTS: &[&str] = &["--entries", "--data"];

fn metadata(arguments: &Arguments) -> Result<Vec<u8>, Failure> {
    match arguments.option("--metadata") {
        Some(file) => fs::read(file).about(file.display()),
        None => Ok(b"{}".to_vec()),
    }
}

fn publish(publication: &Publication, out: &OsStr, mut progress: Progress) -> Result<Outcome, Failure> {
    let mut tell = |done, of| progress.tell("writing byte", done, of);
    publication.publish_with(out, &mut tell).about(out.display())?;
    Ok(Outcome::Done)
}

/// A tile's file, and the id that its path says.
type Found = (TileId, PathBuf);

/// What a folder holds, by name; names that start with a dot are not looked at.
fn listed(folder: &Path) -> Result<Vec<PathBuf>, Failure> {
    let mut paths = Vec::new();
    for item in fs::read_dir(folder).about(folder.display())? {
        let item = item.about(folder.display())?;
        if !item.file_name().as_encoded_bytes().starts_with(b".") {
            paths.push(item.path());
        }
    }
    Ok(paths)
}

fn name(path: &Path) -> &str {
    path.file_name().and_then(OsStr::to_str).unwrap_or_default()
}

/// Every tile under DIR, by id. A file that is no tile stops us, since a tile must not be left out unseen; only beside the
/// zooms' folders other files may lie.
fn tiles(folder: &Path) -> Result<Vec<Found>, Failure> {
    let mut tiles = Vec::new();
    for zoom in listed(folder)?.into_iter().filter(|path| path.is_dir()) {
        for column in listed(&zoom)? {
            for file in listed(&column)? {
                let row = name(&file).split('.').next().unwrap_or_default();
                let coord = format!("{}/{}/{row}", name(&zoom), name(&column));
                let coord: TileCoord = coord.parse().about(file.display())?;
                tiles.push((coord.into(), file));
            }
        }
    }
    tiles.sort();
    match tiles.windows(2).find(|two| two[0].0 == two[1].0) {
        Some(two) => {
            let (first, second) = (two[0].1.display(), two[1].1.display());
            Err(Failure::misuse(format!("{second}: the same tile as {first}")))
        }
        None if tiles.is_empty() => Err(Failure::misuse(format!("{}: no tiles z/x/y.ext", folder.display()))),
        None => Ok(tiles),
    }
}

/// The type that a file's extension stands for.
fn type_of(path: &Path) -> Result<TileType, Failure> {
    let extension = path.extension().and_then(OsStr::to_str).map(str::to_ascii_lowercase);
    match extension.as_deref() {
        Some("mvt" | "pbf") => Ok(TileType::Mvt),
        Some("png") => Ok(TileType::Png),
        Some("jpg" | "jpeg") => Ok(TileType::Jpeg),
        Some("webp") => Ok(TileType::Webp),
        Some("avif") => Ok(TileType::Avif),
        Some("mlt") => Ok(TileType::Mlt),
        _ => Err(Failure::misuse(format!(
            "{}: no tile type has this extension; --tile-type says it",
            path.display()
        ))),
    }
}

/// The type that all tiles have.
fn common_type(tiles: &[Found]) -> Result<TileType, Failure> {
    let (_, first) = &tiles[0];
    let common = type_of(first)?;
    for (_, file) in tiles {
        if type_of(file)? != common {
            return Err(Failure::misuse(format!(
                "{}: not of the type of {}; --tile-type says one for all",
                file.display(),
                first.display()
            )));
        }
    }
    Ok(common)
}

pub fn pack(arguments: Arguments) -> Result<Outcome, Failure> {
    let [folder, out] = arguments.words(["DIR", "OUT"])?;
    let tiles = tiles(Path::new(folder))?;
    let settings = arguments.settings(|| common_type(&tiles))?;
    let mut writer = Writer::new(settings).metadata(metadata(&arguments)?);
    let mut progress = Progress::new();
    for (at, (id, file)) in tiles.iter().enumerate() {
        progress.tell("reading tile", at as u64 + 1, tiles.len() as u64);
        let contents = fs::read(file).about(file.display())?;
        writer.add_tile(*id, &contents).about(file.display())?;
    }
    publish(&writer.publication().about(out.display())?, out, progress)
}

/// `id run length offset`
fn row(line: &str) -> Option<Row> {
    let mut words = line.split_ascii_whitespace();
    let row = (
        words.next()?.parse().ok()?,
        words.next()?.parse().ok()?,
        words.next()?.parse().ok()?,
        words.next()?.parse().ok()?,
    );
    words.next().is_none().then_some(row)
}

fn rows(file: &Path) -> Result<Stores, Failure> {
    let mut stores = Stores::new(0);
    let lines = BufReader::new(fs::File::open(file).about(file.display())?).lines();
    for (at, line) in lines.enumerate() {
        let line = line.about(file.display())?;
        let wrong = || {
            Failure::misuse(format!(
                "{}: line {}: not 'id run length offset'",
                file.display(),
                at + 1
            ))
        };
        stores.push(row(&line).ok_or_else(wrong)?);
    }
    Ok(stores)
}

pub fn build(arguments: Arguments) -> Result<Outcome, Failure> {
    let [out] = arguments.words(["OUT"])?;
    let (entries, data) = (arguments.required("--entries")?, arguments.required("--data")?);
    let settings = arguments.settings(|| Ok(TileType::Unknown))?;
    let stores = rows(entries)?;
    let data = Map::open(data).about(data.display())?;
    let metadata = metadata(&arguments)?;
    let publication = Publication::new(&settings, &stores, &data, &metadata).about(entries.display())?;
    publish(&publication, out, Progress::new())
}
