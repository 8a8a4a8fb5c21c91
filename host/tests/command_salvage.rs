//! What is whole of a damaged archive is found and written.

mod common;

use common::command::{SEVEN, archive, folder, lists, run_line, run_with};
use common::{Rng, kept_lists};
use sorbrudder::archive::{Format, ListsWriter, Piece, Salvage};
use std::time::Instant;

/// Lists with the bytes that each has in a container.
type Parts = Vec<(i16, Vec<u32>)>;

fn parts() -> Parts {
    let lists = kept_lists().into_iter().step_by(50).enumerate();
    lists
        .map(|(place, list)| (4 + (place % 3) as i16, list))
        .collect()
}

fn written(parts: &Parts) -> Vec<u8> {
    let mut writer = ListsWriter::new(Vec::new(), Format::Container).expect("bytes");
    for (version, words) in parts {
        writer.write(*version, words).expect("bytes");
    }
    writer.finish().expect("bytes").0
}

/// The lists that are whole, the places that are lost, and how many lists there were.
fn salvaged(bytes: &[u8]) -> (Parts, Vec<(u64, u64)>, Option<u64>) {
    let mut pieces = Salvage::new(bytes).expect("bytes");
    let (mut whole, mut lost) = (Parts::new(), Vec::new());
    while let Some(piece) = pieces.next_piece().expect("bytes") {
        match piece {
            Piece::List(list) => {
                assert_eq!(list.number, whole.len() as u64);
                whole.push((list.version, list.words.to_vec()));
            }
            Piece::Lost { start, end } => {
                assert!(start < end, "{start} {end}");
                lost.push((start, end));
            }
        }
    }
    assert!(pieces.next_piece().expect("bytes").is_none());
    (whole, lost, pieces.count())
}

/// The places of the lists in a container.
fn places(parts: &Parts) -> Vec<(usize, usize)> {
    let mut start = 16;
    let place = |(_, words): &(i16, Vec<u32>)| {
        let end = start + 4 * (words.len() + 3);
        (std::mem::replace(&mut start, end), end)
    };
    parts.iter().map(place).collect()
}

/// Seven lists of which the last is no tree, with a bit of the second turned over; and so many words of its head.
fn turned(folder: &std::path::Path) {
    let mut bytes = archive(Format::Container, &SEVEN);
    bytes[208 + 8] ^= 1;
    std::fs::write(folder.join("turned"), &bytes).expect("a file");
    let mut bytes = archive(Format::Container, &SEVEN);
    bytes[9] ^= 1;
    std::fs::write(folder.join("headless"), &bytes).expect("a file");
}

#[test]
fn lists_behind_damage_are_judged() {
    let folder = folder("salvage_judged");
    turned(&folder);
    for jobs in ["1", "3"] {
        let ran = run_line(&folder, &format!("check turned -j {jobs}"));
        // The sixth that is whole, of number 5 in what `salvage` writes.
        assert!(
            ran.out.starts_with("turned list 5 (byte 768, "),
            "{}",
            ran.out
        );
        assert_eq!(ran.out.lines().count(), 1, "{}", ran.out);
        for told in [
            "6 of 7 lists are whole, and 112 bytes at 1 places are lost; `sorbrudder salvage` writes what is whole\n",
            "sorbrudder: turned: read of it: 5 trees, 1 no trees, 0 too deep, 0 refused\n",
        ] {
            assert!(ran.err.contains(told), "{}", ran.err);
        }
        assert_eq!(ran.status, Some(4));
        let ran = run_line(&folder, &format!("check turned --json -j {jobs}"));
        let results = ran.out.matches(r#""result":"tree""#).count();
        assert_eq!(results, 5, "{}", ran.out);
        // Where its head is damaged too.
        let ran = run_line(&folder, &format!("check headless -j {jobs}"));
        assert!(
            ran.out.starts_with("headless list 6 (byte 768, "),
            "{}",
            ran.out
        );
        assert!(
            ran.err.contains("read of it: 6 trees, 1 no trees"),
            "{}",
            ran.err
        );
        assert_eq!(ran.status, Some(4));
        // And what another version makes of them is told.
        let whole = run_line(&folder, &format!("diff headless --to 6 -j {jobs}"));
        assert_eq!(whole.out.lines().count(), 5, "{}", whole.out);
        let ran = run_line(&folder, &format!("diff turned --to 6 -j {jobs}"));
        assert_eq!(ran.out.lines().count(), 4, "{}", ran.out);
        assert!(
            ran.err.contains("read of it: 2 read alike, 2 otherwise"),
            "{}",
            ran.err
        );
        assert_eq!(ran.status, Some(4));
    }
}

#[test]
fn what_is_whole_of_a_damaged_archive_is_written_down_and_told_of_by_lift() {
    let folder = folder("salvage_told");
    turned(&folder);
    let whole = "6 of 7 lists are whole, and 112 bytes at 1 places are lost; `sorbrudder salvage` writes what is whole";
    for jobs in ["1", "3"] {
        let ran = run_line(&folder, &format!("cat turned -j {jobs}"));
        assert_eq!(ran.out.lines().count(), 6, "{}", ran.out);
        assert!(ran.err.contains(whole), "{}", ran.err);
        assert_eq!(ran.status, Some(4));
        let ran = run_line(&folder, &format!("lift turned -o out --to 6 -j {jobs}"));
        assert!(ran.err.contains(whole), "{}", ran.err);
        assert_eq!(ran.status, Some(4));
        assert!(!folder.join("out").exists());
        let ran = run_line(
            &folder,
            &format!("lift headless --in-place --to 6 -j {jobs}"),
        );
        assert!(ran.err.contains("7 of 7 lists are whole"), "{}", ran.err);
        assert_eq!(ran.status, Some(4));
    }
    let ran = run_line(&folder, "salvage turned -o saved");
    assert_eq!(ran.status, Some(1));
    let (cat, saved) = (
        run_line(&folder, "cat turned"),
        run_line(&folder, "cat saved"),
    );
    assert_eq!(cat.out, saved.out);
}

#[test]
fn a_whole_archive_is_whole() {
    let parts = parts();
    let bytes = written(&parts);
    let count = Some(parts.len() as u64);
    assert_eq!(salvaged(&bytes), (parts, Vec::new(), count));
    let none = written(&Parts::new());
    assert_eq!(salvaged(&none), (Parts::new(), Vec::new(), Some(0)));
}

#[test]
fn a_bit_that_is_turned_over_loses_one_list() {
    let parts: Parts = parts().into_iter().take(12).collect();
    let bytes = written(&parts);
    let places = places(&parts);
    let count = Some(parts.len() as u64);
    for bit in 0..8 * bytes.len() {
        let byte = bit / 8;
        let mut turned = bytes.clone();
        turned[byte] ^= 1 << (bit % 8);
        let (whole, lost, found) = salvaged(&turned);
        match places
            .iter()
            .position(|(start, end)| (*start..*end).contains(&byte))
        {
            Some(list) => {
                let mut rest = parts.clone();
                rest.remove(list);
                let (start, end) = places[list];
                assert_eq!(whole, rest, "bit {bit} in list {list}");
                assert_eq!(lost, [(start as u64, end as u64)], "bit {bit}");
                assert_eq!(found, count, "bit {bit}");
            }
            // In the head or at the end no list is lost. A head whose first word is turned into a version is a plain file's.
            None => assert!(whole == parts && lost.len() == 1, "bit {bit}: {lost:?}"),
        }
    }
}

#[test]
fn what_is_cut_out_put_in_or_zeroed_loses_what_it_touches() {
    let parts = parts();
    let bytes = written(&parts);
    let places = places(&parts);
    let mut rng = Rng(3);
    for round in 0..200 {
        let start = 16 + rng.below(bytes.len() - 16 - 24);
        let end = (start + 1 + rng.below(700)).min(bytes.len() - 24);
        let mut damaged = bytes.clone();
        match round % 4 {
            0 => drop(damaged.drain(start..end)),
            1 => drop(damaged.splice(start..start, vec![0xAA; end - start])),
            2 => damaged[start..end].fill(0),
            _ => damaged[start..end]
                .iter_mut()
                .for_each(|byte| *byte = rng.bits() as u8),
        }
        let touched = |place: &(usize, usize)| match round % 4 {
            1 => place.0 < start && start < place.1,
            _ => place.0 < end && start < place.1,
        };
        let kept = parts
            .iter()
            .zip(&places)
            .filter(|(_, place)| !touched(place));
        let kept: Parts = kept.map(|(part, _)| part.clone()).collect();
        let (whole, lost, count) = salvaged(&damaged);
        // A list that the change left as it was is whole too.
        assert!(whole.len() >= kept.len(), "round {round}");
        assert!(
            whole == kept || whole.iter().all(|list| parts.contains(list)),
            "round {round}"
        );
        assert!(
            kept.iter().all(|list| whole.contains(list)),
            "round {round}"
        );
        assert!(!lost.is_empty() || whole == parts, "round {round}");
        assert_eq!(count, Some(parts.len() as u64), "round {round}");
    }
    // Cut short, all before the cut is whole.
    for _ in 0..100 {
        let cut = 16 + rng.below(bytes.len() - 16);
        let (whole, _, count) = salvaged(&bytes[..cut]);
        let kept = places.iter().filter(|(_, end)| *end <= cut).count();
        assert_eq!(
            (whole, count),
            (parts[..kept].to_vec(), None),
            "cut at {cut}"
        );
    }
}

#[test]
fn a_file_that_is_made_to_look_like_long_lists_takes_no_longer_than_its_length_allows() {
    let mut bytes = b"\x89SBR".to_vec();
    for _ in 0..1 << 18 {
        bytes.extend([0, 0, 0, 0, 0, 0, 1, 0]);
    }
    let since = Instant::now();
    let (whole, lost, _) = salvaged(&bytes);
    assert_eq!((whole.len(), lost.len()), (0, 1));
    assert!(since.elapsed().as_secs() < 30, "{:?}", since.elapsed());
}

#[test]
fn salvage_writes_what_is_whole_and_tells_what_is_lost() {
    let folder = folder("salvage");
    let whole = archive(Format::Container, &SEVEN);
    let mut turned = whole.clone();
    turned[220] ^= 1;
    std::fs::write(folder.join("turned"), &turned).expect("a file");
    let checked = run_line(&folder, "check turned");
    assert_eq!(checked.status, Some(4), "{checked:?}");
    let told = "turned: damaged at byte 208 (list 1): a list's checksum is wrong; 6 of 7 lists are whole, \
                and 112 bytes at 1 places are lost; `sorbrudder salvage` writes what is whole\n";
    assert!(checked.err.contains(told), "{}", checked.err);
    let saved = run_line(&folder, "salvage turned -o saved");
    assert_eq!(saved.status, Some(1), "{saved:?}");
    assert_eq!(saved.out, "turned: bytes 208 to 320 are lost\n");
    assert_eq!(
        saved.err,
        "6 of 7 lists are whole, and 112 bytes at 1 places are lost\n"
    );
    let mut rest = SEVEN.to_vec();
    rest.remove(1);
    let bytes = std::fs::read(folder.join("saved")).expect("a file");
    assert_eq!(bytes, archive(Format::Container, &rest));
    assert_eq!(run_line(&folder, "salvage saved -o again").status, Some(0));
    let json = run_line(&folder, "salvage turned -o saved --json");
    assert_eq!(
        json.out,
        "{\"file\":\"turned\",\"result\":\"lost\",\"start\":208,\"end\":320}\n"
    );
    let (streamed, out) = run_with(&folder, &["salvage", "-", "-o", "-"], &turned);
    assert_eq!((streamed.status, out), (Some(1), bytes));
}

#[test]
fn of_a_plain_file_what_is_before_the_damage_is_whole() {
    let folder = folder("salvage_plain");
    let whole = archive(Format::Words, &SEVEN);
    std::fs::write(folder.join("cut"), &whole[..whole.len() - 6]).expect("a file");
    let saved = run_line(&folder, "salvage cut -o saved");
    assert_eq!(saved.status, Some(1), "{saved:?}");
    let bytes = std::fs::read(folder.join("saved")).expect("a file");
    let expected = archive(Format::Words, &SEVEN[..6]);
    assert_eq!(bytes, expected);
    let start = expected.len();
    let lost = format!("cut: bytes {start} to {} are lost\n", whole.len() - 6);
    assert_eq!(saved.out, lost);
    assert_eq!(lists(&bytes).len(), 6);
}

#[test]
fn where_nothing_is_whole_nothing_is_written() {
    let folder = folder("salvage_nothing");
    for (name, bytes) in [
        ("text", &b"these are no lists"[..]),
        ("empty", b""),
        ("zeros", &[0; 3]),
        ("plain", &archive(Format::Words, &SEVEN)[..10]),
        ("head", &archive(Format::Container, &SEVEN)[..100]),
    ] {
        std::fs::write(folder.join(name), bytes).expect("a file");
        let ran = run_line(&folder, &format!("salvage {name} -o out"));
        assert_ne!(ran.status, Some(1), "{name}: {ran:?}");
        let is_there = folder.join("out").exists();
        assert_eq!((ran.status, is_there), (Some(4), false), "{name}: {ran:?}");
    }
    for line in [
        "salvage text",
        "salvage text -o ./text",
        "salvage text empty -o out",
    ] {
        assert_eq!(run_line(&folder, line).status, Some(2), "{line}");
    }
}
