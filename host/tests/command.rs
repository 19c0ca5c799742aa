//! The command `pmt`, run.
#[path = "../src/scratch.rs"]
mod scratch;

use oletami::{Archive, Refusal, TileCoord, TileId};
use scratch::Scratch;
use std::ffi::OsStr;
use std::fs;
use std::io::Write;
use std::path::{Path, PathBuf};
use std::process::{Command, Stdio};

/// Status, standard output and standard error.
type Answer = (i32, Vec<u8>, String);

fn pmt_reading<S: AsRef<OsStr>>(words: impl IntoIterator<Item = S>, input: &str) -> Answer {
    let mut child = Command::new(env!("CARGO_BIN_EXE_pmt"))
        .args(words)
        .stdin(Stdio::piped())
        .stdout(Stdio::piped())
        .stderr(Stdio::piped())
        .spawn()
        .unwrap();
    child.stdin.take().unwrap().write_all(input.as_bytes()).unwrap();
    let output = child.wait_with_output().unwrap();
    let message = String::from_utf8(output.stderr).unwrap();
    (output.status.code().unwrap(), output.stdout, message)
}

fn pmt<S: AsRef<OsStr>>(words: impl IntoIterator<Item = S>) -> Answer {
    pmt_reading(words, "")
}

/// Standard output of a command that must succeed.
fn said<S: AsRef<OsStr>>(words: impl IntoIterator<Item = S>) -> String {
    let (status, output, message) = pmt(words);
    assert_eq!((status, message.as_str()), (0, ""));
    String::from_utf8(output).unwrap()
}

/// The one line of a command that must fail with 2.
fn refusal<S: AsRef<OsStr>>(words: impl IntoIterator<Item = S>) -> String {
    let (status, output, message) = pmt(words);
    assert_eq!((status, output.as_slice()), (2, &b""[..]), "{message}");
    assert_eq!(message.matches('\n').count(), 1, "{message}");
    message.strip_prefix("pmt: ").unwrap().trim_end().to_owned()
}

fn samples() -> PathBuf {
    Path::new(env!("CARGO_MANIFEST_DIR")).join("../samples")
}

fn text(path: &Path) -> &str {
    path.to_str().unwrap()
}

/// The samples as an archive.
fn packed(scratch: &Scratch) -> PathBuf {
    let (tiles, metadata, out) = (
        samples().join("tiles"),
        samples().join("metadata.json"),
        scratch.path("a.pmtiles"),
    );
    let words = ["pack", text(&tiles), text(&out), "--metadata", text(&metadata)];
    assert_eq!(said(words), "");
    out
}

#[test]
fn ids_and_coordinates() {
    assert_eq!(said(["id", "12/3423/1763"]), "19078479\n");
    assert_eq!(said(["coord", "19078479"]), "12/3423/1763\n");
    assert_eq!(
        refusal(["id", "2/4/0"]),
        "2/4/0: refused 6 InvalidCoordinate (no such tile: zoom is 0 to 31, x and y below 2^zoom)"
    );
    assert!(refusal(["coord", "6148914691236517205"]).starts_with("6148914691236517205: refused 7 InvalidTileId"));
}

#[test]
fn a_packed_folder_answers_as_the_folder() {
    let scratch = Scratch::new("command-pack");
    let out = packed(&scratch);
    let archive = Archive::open(&out).unwrap();
    assert_eq!(
        archive.metadata().unwrap(),
        fs::read(samples().join("metadata.json")).unwrap()
    );
    let mut absent = 0;
    for id in 0..85 {
        let coord = TileCoord::from(TileId::new(id).unwrap());
        let (status, output, message) = pmt(["tile", text(&out), &coord.to_string()]);
        match fs::read(samples().join(format!("tiles/{coord}.png"))) {
            Ok(contents) => assert!((status, output) == (0, contents), "{coord}"),
            Err(_) => {
                absent += 1;
                assert_eq!((status, output), (1, Vec::new()), "{coord}");
                assert_eq!(message, format!("pmt: {}: {coord} absent\n", text(&out)));
            }
        }
    }
    assert_eq!(absent, 8);
    let h = archive.header().unwrap();
    assert_eq!(h.n_addressed_tiles, 77);
    assert!(h.n_tile_entries < 60, "equal neighbours are joined");
}

#[test]
fn a_tile_into_a_file() {
    let scratch = Scratch::new("command-tile");
    let (archive, out) = (packed(&scratch), scratch.path("0.png"));
    assert_eq!(said(["tile", text(&archive), "0/0/0", "-o", text(&out)]), "");
    assert!(fs::read(&out).unwrap() == fs::read(samples().join("tiles/0/0/0.png")).unwrap());
    let (status, _, _) = pmt(["tile", text(&archive), "4/0/0", "-o", text(&out)]);
    assert_eq!(status, 1);
    assert!(fs::metadata(&out).unwrap().len() > 0, "an absent tile writes nothing");
}

#[test]
fn the_header_a_field_a_line() {
    let scratch = Scratch::new("command-show");
    let shown = said(["show", text(&packed(&scratch))]);
    let h = Archive::open(scratch.path("a.pmtiles")).unwrap().header().unwrap();
    let expected = format!(
        "version 3\nroot_offset 127\nroot_length {}\nmetadata_offset 16384\nmetadata_length {}\nleaf_offset 0\n\
         leaf_length 0\ndata_offset {}\ndata_length {}\nn_addressed_tiles 77\nn_tile_entries {}\nn_tile_contents 0\n\
         clustered true\ninternal_compression 1 none\ntile_compression 1 none\ntile_type 2 png\nmin_zoom 0\n\
         max_zoom 3\nmin_longitude -180\nmin_latitude -85.051129\nmax_longitude 180\nmax_latitude 85.051129\n\
         center_zoom 0\ncenter_longitude 0\ncenter_latitude 0\n",
        h.root_length, h.metadata_length, h.data_offset, h.data_length, h.n_tile_entries
    );
    assert_eq!(shown, expected);
}

#[test]
fn one_answer_a_line() {
    let scratch = Scratch::new("command-lookup");
    let out = packed(&scratch);
    let archive = Archive::open(&out).unwrap();
    let found = |coord: &str| {
        let at = archive.lookup(coord.parse::<TileCoord>().unwrap()).unwrap().unwrap();
        format!("{coord} {} {}\n", at.start, at.length)
    };
    let lookup = |input: &str| {
        let (status, output, message) = pmt_reading(["lookup", text(&out)], input);
        (status, String::from_utf8(output).unwrap(), message)
    };
    let both = found("0/0/0") + &found("2/3/0");
    assert_eq!(lookup("0/0/0\n20"), (0, both.clone(), String::new()));
    let (status, output, message) = lookup("0/0/0\n20\n3/0/0\n");
    assert_eq!((status, output, message.as_str()), (1, both + "3/0/0 absent\n", ""));
    let (status, output, message) = lookup("2/4/0\n3/0/0\nriver\n\n6148914691236517205\n");
    let lines = "2/4/0 refused 6 InvalidCoordinate\n3/0/0 absent\nriver refused 7 InvalidTileId\n \
                 refused 7 InvalidTileId\n6148914691236517205 refused 7 InvalidTileId\n";
    assert_eq!((status, output.as_str()), (2, lines));
    assert!(
        message.starts_with(&format!("pmt: {}: 2/4/0 refused 6 InvalidCoordinate", text(&out))),
        "{message}"
    );
    assert!(message.ends_with("the first of 4 refused\n"), "{message}");
}

/// Entries and data make the same archive again.
#[test]
fn entries_and_data_build_the_archive() {
    let scratch = Scratch::new("command-build");
    let out = packed(&scratch);
    let archive = Archive::open(&out).unwrap();
    let h = archive.header().unwrap();
    let (entries, data, again) = (scratch.path("entries"), scratch.path("data"), scratch.path("b.pmtiles"));
    fs::write(&entries, said(["entries", text(&out)])).unwrap();
    fs::write(
        &data,
        &archive.bytes()[h.data_offset as usize..][..h.data_length as usize],
    )
    .unwrap();
    let metadata = samples().join("metadata.json");
    let mut words = vec!["build", "--entries", text(&entries), "--data", text(&data)];
    words.extend(["--metadata", text(&metadata), "--tile-type", "png", text(&again)]);
    assert_eq!(said(&words), "");
    assert!(fs::read(&again).unwrap() == archive.bytes());

    fs::write(&data, b"too short").unwrap();
    let line = format!(
        "{}: refused 17 RangeOutside (contents lie outside their section)",
        text(&entries)
    );
    assert_eq!(refusal(&words), line);
    fs::write(&entries, "0 1 5 0\n1 1 5\n").unwrap();
    assert_eq!(
        refusal(&words),
        format!("{}: line 2: not 'id run length offset'", text(&entries))
    );
    assert!(
        fs::read(&again).unwrap() == archive.bytes(),
        "a refusal leaves what stood there"
    );
}

#[test]
fn options_reach_the_header() {
    let scratch = Scratch::new("command-options");
    let (tiles, out) = (samples().join("tiles"), scratch.path("a.pmtiles"));
    let mut words = vec![
        "pack",
        text(&tiles),
        text(&out),
        "--tile-type",
        "4",
        "--tile-compression",
        "zstd",
    ];
    words.extend([
        "--min-zoom",
        "1",
        "--max-zoom",
        "9",
        "--bounds",
        "-1.5,-2.5,3.5,4.5",
        "--center",
        "0.5,-0.25,7",
    ]);
    assert_eq!(said(&words), "");
    let shown = said(["show", text(&out)]);
    let expected = "tile_compression 4 zstd\ntile_type 4 webp\nmin_zoom 1\nmax_zoom 9\nmin_longitude -1.5\n\
                    min_latitude -2.5\nmax_longitude 3.5\nmax_latitude 4.5\ncenter_zoom 7\ncenter_longitude 0.5\n\
                    center_latitude -0.25\n";
    assert!(shown.ends_with(expected), "{shown}");
    let wrong = [
        (["--tile-type", "7"], "refused 5 InvalidTileType"),
        (["--tile-type", "gif"], "refused 5 InvalidTileType"),
        (["--tile-compression", "5"], "refused 4 InvalidCompression"),
        (["--min-zoom", "32"], "a zoom is 0 to 31"),
        (["--bounds", "0,0,0"], "4 numbers"),
        (["--bounds", "0,0,0,nan"], "4 numbers"),
        (["--bounds", "0,0,181,0"], "4 numbers"),
        (["--center", "0,0,1.5"], "a zoom is 0 to 31"),
        (["--centre", "0,0,1"], "no option '--centre' here"),
    ];
    for (option, line) in wrong {
        let said = refusal(["pack", text(&tiles), text(&out)].iter().chain(&option));
        assert!(said.contains(line), "{said}");
    }
    assert_eq!(
        refusal([&words[..], &["--min-zoom", "2"]].concat()),
        "--min-zoom is given twice"
    );
}

#[test]
fn folders_that_are_not_packed() {
    let scratch = Scratch::new("command-folders");
    let (folder, out) = (scratch.path("tiles"), scratch.path("a.pmtiles"));
    let put = |name: &str, contents: &str| {
        let path = folder.join(name);
        fs::create_dir_all(path.parent().unwrap()).unwrap();
        fs::write(path, contents).unwrap();
    };
    let pack = || refusal(["pack", text(&folder), text(&out)]);
    assert!(pack().ends_with("No such file or directory (os error 2)"));
    put("notes.txt", "not a tile, and beside the zooms");
    assert!(pack().ends_with("tiles: no tiles z/x/y.ext"));
    put("1/0/0.png", "a");
    put("1/0/.hidden", "not looked at");
    assert_eq!(said(["pack", text(&folder), text(&out)]), "");
    put("1/0/00.png", "a");
    assert!(pack().contains("the same tile as"));
    fs::remove_file(folder.join("1/0/00.png")).unwrap();
    put("1/0/2.png", "a");
    assert!(pack().contains("1/0/2.png: refused 6 InvalidCoordinate"));
    fs::remove_file(folder.join("1/0/2.png")).unwrap();
    put("1/0/1.png", "");
    assert!(pack().contains("1/0/1.png: refused 12 EmptyEntry"));
    fs::remove_file(folder.join("1/0/1.png")).unwrap();
    put("1/1/1.jpg", "a");
    assert!(pack().contains("1/1/1.jpg: not of the type of"));
    fs::rename(folder.join("1/1/1.jpg"), folder.join("1/1/1.gz")).unwrap();
    assert!(pack().contains("1/1/1.gz: no tile type has this extension"));
    assert_eq!(said(["pack", text(&folder), text(&out), "--tile-type", "png"]), "");
    assert!(!scratch.path("a.pmtiles.partial").exists());
}

#[test]
fn files_that_are_refused() {
    let scratch = Scratch::new("command-refused");
    let file = scratch.path("a.pmtiles");
    for (contents, refused) in [
        (&b""[..], Refusal::InvalidHeader),
        (&[0; 20_000][..], Refusal::InvalidMagicNumber),
    ] {
        fs::write(&file, contents).unwrap();
        let line = format!("{}: {refused}", text(&file));
        assert_eq!(refusal(["show", text(&file)]), line);
        assert_eq!(refusal(["tile", text(&file), "0/0/0"]), line);
        assert_eq!(refusal(["entries", text(&file)]), line);
        let (status, output, message) = pmt_reading(["lookup", text(&file)], "0/0/0\n");
        let answer = format!("0/0/0 refused {} {}\n", refused.number(), refused.reason());
        assert_eq!((status, String::from_utf8(output).unwrap()), (2, answer));
        assert!(message.contains(&refused.to_string()), "{message}");
    }
    assert!(refusal(["show", text(&scratch.path("none"))]).contains("none: No such file"));
}

#[test]
fn misuse() {
    assert!(said(["help"]).contains("pmt pack DIR OUT"));
    assert_eq!(refusal([] as [&str; 0]), "no command given; 'pmt help' lists them");
    assert_eq!(refusal(["serve"]), "no command 'serve'; 'pmt help' lists them");
    assert_eq!(refusal(["tile", "a.pmtiles"]), "expected: FILE Z/X/Y");
    assert_eq!(refusal(["show", "a", "b"]), "expected: FILE");
    assert_eq!(refusal(["build", "out"]), "--entries FILE is missing");
    assert_eq!(refusal(["tile", "a", "0/0/0", "-o"]), "-o has no value");
}
