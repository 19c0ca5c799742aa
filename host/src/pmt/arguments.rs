//! The words after a command.
use crate::failure::{About, Failure};
use oletami::{Error, MAX_ZOOM, Settings, TileType};
use std::ffi::{OsStr, OsString};
use std::path::Path;
use std::str::FromStr;

/// Words by place, and options with a value each.
pub struct Arguments {
    words: Vec<OsString>,
    options: Vec<(&'static str, OsString)>,
}

impl Arguments {
    pub fn parse(given: Vec<OsString>, known: &[&'static str]) -> Result<Self, Failure> {
        let mut parsed = Self {
            words: Vec::new(),
            options: Vec::new(),
        };
        let mut given = given.into_iter();
        while let Some(word) = given.next() {
            if word == "--" {
                parsed.words.extend(given);
                break;
            }
            if !word.as_encoded_bytes().starts_with(b"-") || word == "-" {
                parsed.words.push(word);
                continue;
            }
            let Some(&name) = known.iter().find(|name| word == **name) else {
                return Err(Failure::misuse(format!("no option '{}' here", word.display())));
            };
            if parsed.option(name).is_some() {
                return Err(Failure::misuse(format!("{name} is given twice")));
            }
            let Some(value) = given.next() else {
                return Err(Failure::misuse(format!("{name} has no value")));
            };
            parsed.options.push((name, value));
        }
        Ok(parsed)
    }

    /// As many words as there are names for.
    pub fn words<const N: usize>(&self, names: [&str; N]) -> Result<[&OsStr; N], Failure> {
        let wrong = || Failure::misuse(format!("expected: {}", names.join(" ")));
        let words: Vec<&OsStr> = self.words.iter().map(OsString::as_os_str).collect();
        words.try_into().map_err(|_| wrong())
    }

    pub fn option(&self, name: &str) -> Option<&OsStr> {
        let option = self.options.iter().find(|(given, _)| *given == name);
        option.map(|(_, value)| value.as_os_str())
    }

    pub fn required(&self, name: &str) -> Result<&Path, Failure> {
        let missing = || Failure::misuse(format!("{name} FILE is missing"));
        self.option(name).map(Path::new).ok_or_else(missing)
    }

    fn text(&self, name: &str) -> Result<Option<&str>, Failure> {
        let unreadable = || Failure::misuse(format!("{name}: not text"));
        self.option(name)
            .map(|value| value.to_str().ok_or_else(unreadable))
            .transpose()
    }

    /// An option whose text the library's types read.
    fn parsed<T: FromStr<Err: Into<Error>>>(&self, name: &str) -> Result<Option<T>, Failure> {
        let text = self.text(name)?;
        text.map(|text| text.parse().about(format_args!("{name} {text}")))
            .transpose()
    }

    /// So many numbers with commas between them, each within its limit on both sides of 0.
    fn numbers<const N: usize>(&self, name: &str, limits: [f64; N]) -> Result<Option<[f64; N]>, Failure> {
        let Some(text) = self.text(name)? else {
            return Ok(None);
        };
        let parts: Option<Vec<f64>> = text.split(',').map(|part| part.trim().parse().ok()).collect();
        let numbers: Option<[f64; N]> = parts.and_then(|parts| parts.try_into().ok());
        // not a number is within no limit
        let good = |numbers: &[f64; N]| numbers.iter().zip(limits).all(|(n, limit)| n.abs() <= limit);
        let wrong = || Failure::misuse(format!("{name} {text}: {N} numbers up to {limits:?} are expected"));
        numbers.filter(good).map(Some).ok_or_else(wrong)
    }

    fn zoom(&self, name: &str) -> Result<Option<u8>, Failure> {
        let Some(text) = self.text(name)? else {
            return Ok(None);
        };
        match text.parse() {
            Ok(zoom) if zoom <= MAX_ZOOM => Ok(Some(zoom)),
            _ => Err(Failure::misuse(format!("{name} {text}: a zoom is 0 to {MAX_ZOOM}"))),
        }
    }

    /// What the options say of the tiles.
    pub fn settings(&self, tile_type: impl FnOnce() -> Result<TileType, Failure>) -> Result<Settings, Failure> {
        let tile_type = match self.parsed("--tile-type")? {
            Some(given) => given,
            None => tile_type()?,
        };
        let mut settings = Settings::new(tile_type);
        if let Some(compression) = self.parsed("--tile-compression")? {
            settings.tile_compression = compression;
        }
        settings.min_zoom = self.zoom("--min-zoom")?;
        settings.max_zoom = self.zoom("--max-zoom")?;
        if let Some(bounds) = self.numbers("--bounds", [180.0, 90.0, 180.0, 90.0])? {
            settings.bounds = bounds;
        }
        if let Some([longitude, latitude, zoom]) = self.numbers("--center", [180.0, 90.0, MAX_ZOOM.into()])? {
            if zoom < 0.0 || zoom.fract() != 0.0 {
                return Err(Failure::misuse(format!("--center: a zoom is 0 to {MAX_ZOOM}")));
            }
            settings.center = [longitude, latitude];
            settings.center_zoom = zoom as u8;
        }
        Ok(settings)
    }
}
