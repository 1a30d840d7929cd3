//! `raw` over keys: encoders, decoders, the reader. The answers are written by hand from document 01.
mod common;
use common::*;
use virebony::raw;

/// The keys of subspace 7, path [62][00], timestamp 5.
fn keys() -> ([u8; 33], [u8; 33]) {
    let (mut spt, mut tsp) = ([0; 33], [0; 33]);
    let path_part = [0x62, 0, 1, 0, 2, 0, 1, 0, 0];
    spt[15] = 7;
    spt[16..25].copy_from_slice(&path_part);
    spt[32] = 5;
    tsp[7] = 5;
    tsp[23] = 7;
    tsp[24..].copy_from_slice(&path_part);
    (spt, tsp)
}

#[test]
fn encoders_write_the_key_and_nothing_behind() {
    let (spt, tsp) = keys();
    let mut out = [0xee; raw::KEY_MOST];
    let written = raw::Encoded { refusal: 0, length: 33 };
    assert_eq!(raw::encode_spt_entry_key(subspace(7), path("62/00"), 5, &mut out), written);
    assert_eq!(out[..33], spt);
    assert_eq!(raw::encode_tsp_entry_key(subspace(7), path("62/00"), 5, &mut out), written);
    assert_eq!(out[..33], tsp);
    assert_eq!(out[33..], [0xee; raw::KEY_MOST - 33]);
}

#[test]
fn the_longest_key() {
    let mut zeros = raw::Path { bytes: [0; 128], ends: [16; 8], count: 8 };
    zeros.ends.iter_mut().enumerate().for_each(|(i, end)| *end = 16 * (i + 1));
    let mut out = [0; raw::KEY_MOST];
    assert_eq!(raw::encode_spt_entry_key(subspace(7), zeros, 5, &mut out).length, raw::KEY_MOST);
    assert_eq!(raw::decode_spt_entry_key(&out).path, zeros);
    assert_eq!(raw::encode_tsp_entry_key(subspace(7), zeros, 5, &mut out).length, raw::KEY_MOST);
    assert_eq!(raw::decode_tsp_entry_key(&out).path, zeros);
}

#[test]
fn encoders_refuse_and_write_nothing() {
    let mut out = [0xee; raw::KEY_MOST];
    for bad in illegal() {
        assert_eq!(raw::encode_spt_entry_key(subspace(7), bad, 5, &mut out[1..]), raw::Encoded { refusal: 2, length: 0 });
        assert_eq!(raw::encode_tsp_entry_key(subspace(7), bad, 5, &mut []), raw::Encoded { refusal: 2, length: 0 });
        assert_eq!(raw::encode_spt_entry_key(subspace(7), bad, 5, &mut out), raw::Encoded { refusal: 4, length: 0 });
        assert_eq!(raw::encode_tsp_entry_key(subspace(7), bad, 5, &mut out), raw::Encoded { refusal: 4, length: 0 });
    }
    assert_eq!(out, [0xee; raw::KEY_MOST]);
}

#[test]
fn decoders_and_readers_take_a_key_back() {
    let (mut spt, tsp) = keys();
    let triple = raw::Decoded { refusal: 0, subspace: subspace(7), path: answered("62/00"), timestamp: 5 };
    assert_eq!([raw::decode_spt_entry_key(&spt), raw::read_spt_entry_key(&spt)], [triple; 2]);
    assert_eq!([raw::decode_tsp_entry_key(&tsp), raw::read_tsp_entry_key(&tsp)], [triple; 2]);
    let refused = raw::Decoded { refusal: 5, subspace: subspace(0), path: answered(""), timestamp: 0 };
    for cut in 0..33 {
        assert_eq!([raw::decode_spt_entry_key(&spt[..cut]), raw::read_spt_entry_key(&spt[..cut])], [refused; 2]);
        assert_eq!([raw::decode_tsp_entry_key(&tsp[..cut]), raw::read_tsp_entry_key(&tsp[..cut])], [refused; 2]);
    }
    spt[20] = 3; // 00 03 is no escape
    assert_eq!([raw::decode_spt_entry_key(&spt), raw::read_spt_entry_key(&spt)], [refused; 2]);
}

#[test]
fn a_reader_steps_through_a_path() {
    let (spt, _) = keys();
    let mut stepped = raw::Stepped { refusal: 0, component: 1, length: 1, bytes: [0; 64], position: 19, left: 14 };
    stepped.bytes[0] = 0x62;
    assert_eq!(raw::read_component_at(&spt, 16), stepped);
    stepped = raw::Stepped { bytes: [0; 64], position: 23, left: 10, ..stepped };
    assert_eq!(raw::read_component_at(&spt, 19), stepped);
    let end = raw::Stepped { component: 0, length: 0, position: 25, left: 8, ..stepped };
    assert_eq!(raw::read_component_at(&spt, 23), end);
    assert_eq!(raw::read_component_at(&spt, usize::MAX), raw::Stepped { refusal: 5, position: usize::MAX, left: 0, ..end });
    assert_eq!(raw::read_component_at(&[], 0), raw::Stepped { refusal: 5, position: 0, left: 0, ..end });
}

#[test]
fn a_reader_takes_a_whole_path() {
    let (spt, tsp) = keys();
    assert_eq!(raw::read_path_at(&spt, 16), raw::PathRead { refusal: 0, path: answered("62/00"), next: 25 });
    assert_eq!(raw::read_path_at(&tsp, 24), raw::PathRead { refusal: 0, path: answered("62/00"), next: 33 });
    let refused = raw::PathRead { refusal: 5, path: answered(""), next: 0 };
    assert_eq!([raw::read_path_at(&spt, 34), raw::read_path_at(&spt, usize::MAX), raw::read_path_at(&[], 0)], [refused; 3]);
}
