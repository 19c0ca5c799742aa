//! `pmt`: PMTiles archives from the command line.
//!
//! Exit status: 0 found or done, 1 absent, 2 refused or misused.
mod arguments;
mod failure;
mod progress;
mod read;
mod write;

use arguments::Arguments;
use failure::Failure;
use std::ffi::OsString;
use std::process::ExitCode;

const USAGE: &str = "\
pmt show FILE                    the header, a field a line
pmt tile FILE Z/X/Y [-o OUT]     a tile's contents, to standard output or into OUT
pmt lookup FILE                  for each Z/X/Y or id on standard input: where the contents lie
pmt id Z/X/Y                     a tile's id
pmt coord ID                     an id's tile
pmt entries FILE                 the entries, as lines 'id run length offset'
pmt pack DIR OUT                 an archive of the tiles DIR/z/x/y.ext
pmt build --entries FILE --data FILE OUT
                                 an archive of such entries and the data that they point into
pack and build take:
  --metadata FILE                the archive's metadata; {} if not given
  --tile-type NAME|CODE          unknown, mvt, png, jpeg, webp, avif, mlt; pack goes by the tiles' extension
  --tile-compression NAME|CODE   unknown, none, gzip, brotli, zstd; none if not given
  --min-zoom N, --max-zoom N     the smallest and largest zoom of the tiles if not given
  --bounds W,S,E,N               the whole world if not given
  --center LON,LAT,ZOOM          0,0,0 if not given
Exit status: 0 found or done, 1 absent, 2 refused or misused.
";

/// How a command ends where nothing was refused.
#[derive(Clone, Copy, PartialEq, Eq)]
pub enum Outcome {
    Done,
    Absent,
}

fn run(mut words: impl Iterator<Item = OsString>) -> Result<Outcome, Failure> {
    let command = words.next().unwrap_or_default();
    let rest = words.collect();
    match command.to_str() {
        Some("show") => read::show(Arguments::parse(rest, &[])?),
        Some("tile") => read::tile(Arguments::parse(rest, &["-o"])?),
        Some("lookup") => read::lookup(Arguments::parse(rest, &[])?),
        Some("id") => read::id(Arguments::parse(rest, &[])?),
        Some("coord") => read::coord(Arguments::parse(rest, &[])?),
        Some("entries") => read::entries(Arguments::parse(rest, &[])?),
        Some("pack") => write::pack(Arguments::parse(rest, write::OPTIONS)?),
        Some("build") => write::build(Arguments::parse(rest, &[write::INPUTS, write::OPTIONS].concat())?),
        Some("help" | "--help" | "-h") => read::print(USAGE),
        Some("") => Err(Failure::misuse("no command given; 'pmt help' lists them")),
        _ => Err(Failure::misuse(format!(
            "no command '{}'; 'pmt help' lists them",
            command.display()
        ))),
    }
}

fn main() -> ExitCode {
    match run(std::env::args_os().skip(1)) {
        Ok(Outcome::Done) => ExitCode::SUCCESS,
        Ok(Outcome::Absent) => ExitCode::from(1),
        Err(failure) => {
            failure.report();
            ExitCode::from(2)
        }
    }
}
