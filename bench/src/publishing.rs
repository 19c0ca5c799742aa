//! Publication of an archive in one call, and in calls of a mebibyte each, against memset and memcpy of the same bytes. The
//! destination is not cleared in between.
use crate::Series;
use linked::{Random, publish};

const MIB: usize = 1 << 20;

pub fn run() {
    let calls = [("in one call", u64::MAX), ("1 MiB in a call", MIB as u64)];
    let mut series: [Series; 2] = Default::default();
    for mib in [1, 16, 256] {
        let mut random = Random::new(1);
        let tiles: Vec<u8> = (0..mib * MIB / 8).flat_map(|_| random.number().to_le_bytes()).collect();
        let (root, metadata, leaves) = (vec![1; 6000], vec![2; 1000], vec![3; MIB]);
        let mut dest = vec![9; 16384 + metadata.len() + tiles.len() + leaves.len()];
        let mut other = dest.clone();
        let mut header = [0; 127];
        let mut position = [0];
        for ((name, budget), series) in calls.into_iter().zip(&mut series) {
            series.compare(
                &format!("publish {mib} MiB, {name}"),
                1,
                dest.len(),
                || {
                    let mut at = 0;
                    loop {
                        let status = publish(
                            &[1, 1, 0, 14, 0],
                            &[0.0; 6],
                            &[1, 1],
                            &root,
                            &metadata,
                            &tiles,
                            &leaves,
                            &mut dest,
                            at,
                            budget,
                            &mut position,
                        );
                        assert_eq!(status, 0, "the core refused");
                        if position[0] == at {
                            return at;
                        }
                        at = position[0];
                    }
                },
                || {
                    other[..16384].fill(0);
                    let mut at = 16384;
                    for part in [&metadata, &tiles, &leaves] {
                        other[at..at + part.len()].copy_from_slice(part);
                        at += part.len();
                    }
                    other[127..127 + root.len()].copy_from_slice(&root);
                    other[..127].copy_from_slice(&header);
                    (at + 127 + root.len()) as u64
                },
            );
        }
        // the header is the core's own; the rest must be what was copied
        header.copy_from_slice(&dest[..127]);
        other[..127].copy_from_slice(&header);
        assert!(dest == other, "what was published differs");
    }
}
