//! From the line language's values to the Rust's and back. A path that `Path::from_slices` refuses is `refused 4`.
use crate::answer::{Answer, Shown};
use crate::params::*;
use either::Either;
use ufotofu::Producer;
use ufotofu_codec::block_on;
use model::{Area, Ignore, Range3d};
use willow_data_model::{grouping as g, *};

/// Refusal 4, or another outcome that ends a call early.
pub type Out<T> = Result<T, Answer>;

pub fn comps<const MCL: usize, const MCC: usize, const MPL: usize>(p: &Path<MCL, MCC, MPL>) -> model::Path {
    p.components().map(|c| c.to_vec()).collect()
}
pub fn path<const MCL: usize, const MCC: usize, const MPL: usize>(
    p: &model::Path,
) -> Out<Path<MCL, MCC, MPL>> {
    Path::from_slices(p).map_err(|_| Answer::Refused(4))
}
fn end<T>(end: Option<T>) -> g::RangeEnd<T>
where
    T: Ord,
{
    end.map_or(g::RangeEnd::Open, g::RangeEnd::Closed)
}
fn times(r: &model::Range<u64>) -> g::Range<u64> {
    g::Range::new(r.start, end(r.end))
}
pub fn area<const MCL: usize, const MCC: usize, const MPL: usize>(
    a: &Area,
) -> Out<g::Area<MCL, MCC, MPL, Sub>> {
    let s = a.subspace.map_or(g::AreaSubspace::Any, |s| g::AreaSubspace::Id(Sub(s)));
    Ok(g::Area::new(s, path(&a.path)?, times(&a.times)))
}
pub fn range<const MCL: usize, const MCC: usize, const MPL: usize>(
    r: &Range3d,
) -> Out<g::Range3d<MCL, MCC, MPL, Sub>> {
    let ss = g::Range::new(Sub(r.subspaces.start), end(r.subspaces.end.map(Sub)));
    let ps = g::Range::new(path(&r.paths.start)?, end(r.paths.end.as_ref().map(path).transpose()?));
    Ok(g::Range3d::new(ss, ps, times(&r.times)))
}
pub fn unrange<const MCL: usize, const MCC: usize, const MPL: usize>(
    r: &g::Range3d<MCL, MCC, MPL, Sub>,
) -> Range3d {
    let (s, p, t) = (r.subspaces(), r.paths(), r.times());
    Range3d {
        subspaces: model::Range { start: s.start.0, end: s.get_end().map(|s| s.0) },
        paths: model::Range { start: comps(&p.start), end: p.get_end().map(comps) },
        times: model::Range { start: t.start, end: t.get_end().copied() },
    }
}
pub fn entry<const MCL: usize, const MCC: usize, const MPL: usize>(
    e: &model::Entry,
) -> Out<Entry<MCL, MCC, MPL, Ns, Sub, Dig>> {
    let (n, s, d) = (Ns(e.namespace), Sub(e.subspace), Dig(e.payload_digest));
    Ok(Entry::new(n, s, path(&e.path)?, e.timestamp, e.payload_length, d))
}
pub fn unentry<const MCL: usize, const MCC: usize, const MPL: usize>(
    e: &AuthorisedEntry<MCL, MCC, MPL, Ns, Sub, Dig, Tok>,
    available: u64,
) -> Shown {
    let (token, e) = (e.token().0, e.entry());
    let entry = model::Entry {
        namespace: e.namespace_id().0,
        subspace: e.subspace_id().0,
        path: comps(e.path()),
        timestamp: e.timestamp(),
        payload_length: e.payload_length(),
        payload_digest: e.payload_digest().0,
    };
    Shown { entry, token, available, origin: None }
}
pub fn origin(o: model::EntryOrigin) -> EntryOrigin {
    match o {
        model::EntryOrigin::Local => EntryOrigin::Local,
        model::EntryOrigin::Remote(session) => EntryOrigin::Remote(session),
    }
}
pub fn ignore(i: Ignore) -> QueryIgnoreParams {
    QueryIgnoreParams { ignore_incomplete_payloads: i.incomplete, ignore_empty_payloads: i.empty }
}
pub fn drain<const MCL: usize, const MCC: usize, const MPL: usize>(
    mut p: impl Producer<Item = LengthyAuthorisedEntry<MCL, MCC, MPL, Ns, Sub, Dig, Tok>>,
) -> Vec<Shown> {
    let mut out = Vec::new();
    while let Ok(Either::Left(e)) = block_on(p.produce()) {
        out.push(unentry(e.entry(), e.available()));
    }
    out
}
