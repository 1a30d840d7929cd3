//! `raw` over values: paths, entries, areas, ranges. The answers are written by hand from document 01.
mod common;
use common::*;
use virebony::raw;

#[test]
fn illegal_paths_are_refused_everywhere() {
    for bad in illegal() {
        let (refused, good) = (raw::Answer { refusal: 4, yes: 0 }, path(""));
        assert_eq!(raw::path_is_legal(bad), 0);
        let compared = raw::Compared { refusal: 4, less: 0, greater: 0 };
        assert_eq!([raw::path_cmp(bad, good), raw::path_cmp(good, bad)], [compared; 2]);
        assert_eq!([raw::path_eq(bad, good), raw::path_eq(good, bad)], [refused; 2]);
        assert_eq!([raw::path_is_prefix_of(bad, good), raw::path_is_prefix_of(good, bad)], [refused; 2]);
        assert_eq!(raw::path_greater_but_not_prefixed(bad), raw::Above { refusal: 4, found: 0, path: answered("") });

        let (a, mut b) = (entry(1, "61", 5, 3, 9), entry(1, "61", 5, 3, 9));
        b.path = bad;
        assert_eq!([raw::entry_compare(a, b), raw::entry_compare(b, a)], [raw::EntriesCompared { refusal: 4, newer: 0, older: 0 }; 2]);
        assert_eq!([raw::entry_prunes(a, b), raw::entry_prunes(b, a)], [refused; 2]);
        assert_eq!([raw::entry_is_pruned_by(a, b), raw::entry_is_pruned_by(b, a)], [refused; 2]);

        let bad_area = raw::Area { path: bad, ..everything() };
        assert_eq!(raw::area_includes_triplet(bad_area, subspace(0), good, 0), refused);
        assert_eq!(raw::area_includes_triplet(everything(), subspace(0), bad, 0), refused);
        assert_eq!(raw::area_to_range(bad_area), raw::AreaRange { refusal: 4, range: raw::Range::default() });
        assert_eq!(raw::range_includes_triplet(range(good, good, 1), subspace(0), bad, 0), refused);
        assert_eq!(raw::range_includes_triplet(range(bad, good, 1), subspace(0), good, 0), refused);
        assert_eq!(raw::range_includes_triplet(range(good, bad, 0), subspace(0), good, 0), refused);
        // The end of an open range is not looked at.
        assert_eq!(raw::range_includes_triplet(range(good, bad, 2), subspace(0), path("ff"), u64::MAX).yes, 1);
    }
}

#[test]
fn bounds_of_a_path() {
    let legal = |ends: &[usize]| {
        let mut p = path("");
        p.ends[..ends.len()].copy_from_slice(ends);
        p.count = ends.len();
        raw::path_is_legal(p)
    };
    assert_eq!([legal(&[]), legal(&[64]), legal(&[65])], [1, 1, 0]);
    assert_eq!([legal(&[64, 128]), legal(&[64, 128, 128]), legal(&[64, 128, 129])], [1, 1, 0]);
    assert_eq!([legal(&[0; 8]), legal(&[16, 32, 48, 64, 80, 96, 112, 128])], [1, 1]);
    assert_eq!([legal(&[1, 0]), legal(&[usize::MAX])], [0, 0]);
}

#[test]
fn order_equality_and_prefix() {
    let ascending = ["", ".", "00", "01", "61", "61/62", "6162"];
    for (i, p) in ascending.map(path).into_iter().enumerate() {
        for (j, q) in ascending.map(path).into_iter().enumerate() {
            assert_eq!(raw::path_cmp(p, q), raw::Compared { refusal: 0, less: u8::from(i < j), greater: u8::from(i > j) });
            assert_eq!(raw::path_eq(p, q), raw::Answer { refusal: 0, yes: u8::from(i == j) });
            let prefix = i == 0 || i == j || (i == 4 && j == 5);
            assert_eq!(raw::path_is_prefix_of(p, q), raw::Answer { refusal: 0, yes: u8::from(prefix) });
        }
    }
}

#[test]
fn least_path_above() {
    let above = |text| raw::path_greater_but_not_prefixed(path(text));
    assert_eq!(above("61"), raw::Above { refusal: 0, found: 1, path: answered("6100") });
    assert_eq!(above(""), raw::Above { refusal: 0, found: 0, path: answered("") });
}

#[test]
fn newer_by_timestamp_then_digest_then_length() {
    let newer = |a, b| {
        let (there, back) = (raw::entry_compare(a, b), raw::entry_compare(b, a));
        assert_eq!((there.refusal, there.newer, there.older), (0, back.older, back.newer)); // each says of the other what the other says of it
        there.newer
    };
    let (mut a, mut b) = (entry(1, "61", 5, 3, 9), entry(1, "61/62", 5, 3, 9));
    assert_eq!([newer(a, b), newer(b, a)], [0, 0]); // a tie
    a.payload_length = 4;
    assert_eq!([newer(a, b), newer(b, a)], [1, 0]);
    b.payload_digest[31] = 10;
    assert_eq!([newer(a, b), newer(b, a)], [0, 1]);
    b.payload_digest[0] = 8;
    assert_eq!([newer(a, b), newer(b, a)], [1, 0]);
    b.timestamp = u64::MAX;
    assert_eq!([newer(a, b), newer(b, a)], [0, 1]);
}

#[test]
fn prunes_below_its_path() {
    let (a, mut b) = (entry(1, "61", 5, 4, 9), entry(1, "61/62", 5, 3, 9));
    assert_eq!([raw::entry_prunes(a, b).yes, raw::entry_prunes(b, a).yes], [1, 0]);
    assert_eq!([raw::entry_is_pruned_by(b, a).yes, raw::entry_is_pruned_by(a, b).yes], [1, 0]);
    b.path = path("6162");
    assert_eq!(raw::entry_prunes(a, b).yes, 0);
    b.path = path("61");
    assert_eq!(raw::entry_prunes(a, b).yes, 1);
    b.namespace_id[15] = 1;
    assert_eq!(raw::entry_prunes(a, b).yes, 0);
}

#[test]
fn areas_include() {
    let mut a = area(0, 7, "61", times(5, 10, 0));
    let in_a = |a, low, text, timestamp| raw::area_includes_triplet(a, subspace(low), path(text), timestamp).yes;
    assert_eq!([in_a(a, 7, "61/62", 9), in_a(a, 7, "61/62", 10), in_a(a, 7, "61/62", 4)], [1, 0, 0]);
    assert_eq!([in_a(a, 8, "61/62", 9), in_a(a, 7, "6162", 9)], [0, 0]);
    a.any_subspace = 255;
    assert_eq!(in_a(a, 8, "61/62", 9), 1);
    a.times = times(0, 0, 2);
    assert_eq!(in_a(a, 8, "61", u64::MAX), 1);
}

#[test]
fn areas_as_ranges() {
    let open = raw::area_to_range(area(255, 9, "61", times(0, 77, 2))).range;
    assert_eq!(open.subspaces, raw::Subspaces { open: 1, ..Default::default() });
    assert_eq!(open.paths, raw::Paths { start: answered("61"), end: answered("6100"), open: 0 });
    assert_eq!(open.times, times(0, 0, 1));
    let closed = raw::area_to_range(area(0, u64::MAX, "", times(5, 10, 0))).range;
    assert_eq!(closed.subspaces, raw::Subspaces { start: subspace(u64::MAX), end: raw::Subspace { high: 1, low: 0 }, open: 0 });
    assert_eq!(closed.paths, raw::Paths { start: answered(""), end: answered(""), open: 1 });
    assert_eq!(closed.times, times(5, 10, 0));
}

#[test]
fn ranges_include() {
    let mut r = range(path("61"), path("62"), 0);
    let in_r = |r, low, text| raw::range_includes_triplet(r, subspace(low), path(text), 0).yes;
    assert_eq!([in_r(r, 0, "61/ff"), in_r(r, 0, "62"), in_r(r, 0, "60")], [1, 0, 0]);
    r.subspaces = raw::Subspaces { start: subspace(1), end: subspace(3), open: 0 };
    assert_eq!([in_r(r, 0, "61"), in_r(r, 1, "61"), in_r(r, 2, "61"), in_r(r, 3, "61")], [0, 1, 1, 0]);
    r.times = times(1, 0, 1);
    assert_eq!(in_r(r, 1, "61"), 0);
}
