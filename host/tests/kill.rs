//! `pmt pack`, killed at random moments: under the name stands the old archive or the whole new one, and beside it nothing
//! that answers wrongly.
#[path = "../src/scratch.rs"]
mod scratch;

use linked::Random;
use oletami::{Archive, Refusal, TileCoord, TileId};
use scratch::Scratch;
use std::fs;
use std::path::Path;
use std::process::{Child, Command};
use std::time::{Duration, Instant, SystemTime};

const KILLS: u64 = 300;

/// Zooms 0 to 4, each tile with contents of its own.
fn draw(folder: &Path, seed: u64) {
    let mut random = Random::new(seed);
    for id in 0..341 {
        let coord = TileCoord::from(TileId::new(id).unwrap());
        let path = folder.join(format!("{coord}.png"));
        fs::create_dir_all(path.parent().unwrap()).unwrap();
        let contents: Vec<u8> = (0..1024).flat_map(|_| random.number().to_le_bytes()).collect();
        fs::write(path, contents).unwrap();
    }
}

fn pack(folder: &Path, out: &Path) -> Child {
    Command::new(env!("CARGO_BIN_EXE_pmt"))
        .arg("pack")
        .args([folder, out])
        .spawn()
        .unwrap()
}

fn packed(folder: &Path, out: &Path) -> Vec<u8> {
    assert!(pack(folder, out).wait().unwrap().success());
    fs::read(out).unwrap()
}

#[test]
fn killed_at_random_moments() {
    let scratch = Scratch::new("kill");
    let (old_tiles, new_tiles) = (scratch.path("old"), scratch.path("new"));
    draw(&old_tiles, 1);
    draw(&new_tiles, 2);
    let (kept, out, beside) = (
        scratch.path("kept"),
        scratch.path("a.pmtiles"),
        scratch.path("a.pmtiles.partial"),
    );
    let old = packed(&old_tiles, &kept);
    let new = packed(&new_tiles, &out);
    assert!(old != new);
    let time = |_| {
        let start = Instant::now();
        packed(&new_tiles, &out);
        start.elapsed().as_nanos() as u64
    };
    let longest = (0..5).map(time).max().unwrap();

    let seed = SystemTime::UNIX_EPOCH.elapsed().unwrap().as_nanos() as u64;
    let mut random = Random::new(seed);
    let (mut replaced, mut refused, mut finished_beside) = (0, 0, 0);
    for kill in 0..KILLS {
        let at = format!("kill {kill} of seed {seed}");
        fs::copy(&kept, &out).unwrap();
        let mut child = pack(&new_tiles, &out);
        // now and then past the end
        std::thread::sleep(Duration::from_nanos(random.below(longest * 5 / 4)));
        child.kill().unwrap();
        child.wait().unwrap();

        let stands = fs::read(&out).unwrap();
        assert!(
            stands == old || stands == new,
            "{at}: neither the old archive nor the new one"
        );
        replaced += u64::from(stands == new);
        if !beside.exists() {
            continue;
        }
        let remnant = Archive::open(&beside).unwrap();
        let refusals = [0, 7, 340].map(|id| remnant.lookup(TileId::new(id).unwrap()).err());
        if remnant.bytes() == new {
            // between its last store and its new name
            finished_beside += 1;
            assert_eq!(refusals, [None; 3], "{at}");
        } else {
            refused += 1;
            let empty = remnant.bytes().is_empty();
            let expected = if empty {
                Refusal::InvalidHeader
            } else {
                Refusal::InvalidMagicNumber
            };
            assert_eq!(refusals, [Some(expected); 3], "{at}");
        }
    }
    println!(
        "{KILLS} kills: {replaced} too late, {refused} remnants refused, {finished_beside} whole under the other name"
    );
    assert!(refused > 0, "no kill of {KILLS} fell into the writing");
    assert!(replaced < KILLS, "every kill came too late");

    fs::copy(&kept, &out).unwrap();
    assert!(packed(&new_tiles, &out) == new, "a remnant is written over");
    assert!(!beside.exists());
}
