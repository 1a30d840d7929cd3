//! From the model's values to those of the port's door, and back. What a call must not look at is spelled with junk: a
//! path's bytes and ends behind its last, the end of an open range, the subspace of an area of any. A yes is any byte but 0.
use crate::rng::Rng;
use model::*;
use virebony::raw;

/// With junk from a seed; without, zeros, as the door answers.
pub struct Spell(Option<Rng>);

impl Spell {
    pub fn plain() -> Spell {
        Spell(None)
    }
    /// Seed 0 is plain.
    pub fn salted(seed: u64) -> Spell {
        Spell(Some(seed).filter(|s| *s != 0).map(Rng))
    }
    pub fn number(&mut self) -> u64 {
        let Some(r) = &mut self.0 else { return 0 };
        let any = r.next();
        r.of(&[0, 1, 7, 64, 128, 129, u64::MAX, any, any, any % 200])
    }
    pub fn bytes<const N: usize>(&mut self) -> [u8; N] {
        let mut b = [0; N];
        if let Some(r) = &mut self.0 {
            b.fill_with(|| r.next() as u8);
        }
        b
    }
    pub fn yes(&mut self, yes: bool) -> u8 {
        match &mut self.0 {
            _ if !yes => 0,
            None => 1,
            Some(r) => 1 + r.below(255) as u8,
        }
    }
    fn junk_path(&mut self) -> raw::Path {
        let bytes = self.bytes();
        raw::Path { bytes, ends: [0; 8].map(|_: usize| self.number() as usize), count: self.number() as usize }
    }
    /// A value of this path; if it is illegal, one as the components say or with another fault that no list of components has.
    pub fn path(&mut self, p: &Path) -> raw::Path {
        let mut v = self.junk_path();
        let mut at = 0;
        for (i, c) in p.iter().enumerate().take(8) {
            for b in c {
                if at < 128 {
                    v.bytes[at] = *b;
                }
                at += 1;
            }
            v.ends[i] = at;
        }
        v.count = p.len();
        if !FIELD.legal(p) {
            self.fault(&mut v);
        }
        let read = path_of_value(&v.bytes, &v.ends.map(|n| n as u64), v.count as u64);
        assert_eq!(read, Some(p.clone()).filter(|p| FIELD.legal(p)));
        v
    }
    fn fault(&mut self, v: &mut raw::Path) {
        let Some(r) = &mut self.0 else { return };
        match r.below(6) {
            // Ends that descend, and nothing else is wrong.
            0 | 1 => {
                v.count = 2 + r.at(7);
                (0..8).for_each(|i| v.ends[i] = 4 + 3 * i + r.at(3));
                let i = 1 + r.at(v.count - 1);
                v.ends[i] = r.at(v.ends[i - 1]);
            }
            2 => v.count = r.of(&[9, 10, 1 << 32, 1 << 63, usize::MAX]),
            3 => {
                v.count = 1 + r.at(8);
                v.ends = [1; 8];
                let any = r.next() as usize | 1 << 20;
                let far = r.of(&[129, 130, 1 << 32, usize::MAX, any]);
                let from = r.at(v.count);
                v.ends[from..].fill(far);
            }
            _ => {}
        }
    }
    pub fn entry(&mut self, e: &Entry) -> raw::Entry {
        raw::Entry {
            namespace_id: e.namespace,
            subspace_id: subspace(&e.subspace),
            path: self.path(&e.path),
            timestamp: e.timestamp,
            payload_length: e.payload_length,
            payload_digest: e.payload_digest,
        }
    }
    /// The session of a local one is not looked at.
    pub fn origin(&mut self, o: EntryOrigin) -> raw::Origin {
        match o {
            EntryOrigin::Local => raw::Origin { remote: 0, session: self.number() },
            EntryOrigin::Remote(session) => raw::Origin { remote: self.yes(true), session },
        }
    }
    pub fn times(&mut self, r: &Range<u64>) -> raw::Times {
        let junk = self.number();
        raw::Times { start: r.start, end: r.end.unwrap_or(junk), open: self.yes(r.end.is_none()) }
    }
    fn junk_subspace(&mut self) -> Subspace {
        self.bytes()
    }
    pub fn area(&mut self, a: &Area) -> raw::Area {
        let junk = self.junk_subspace();
        raw::Area {
            any_subspace: self.yes(a.subspace.is_none()),
            subspace: subspace(&a.subspace.unwrap_or(junk)),
            path: self.path(&a.path),
            times: self.times(&a.times),
        }
    }
    /// An area that is handed in beside a no: it is not looked at.
    pub fn absent_area(&mut self) -> raw::Area {
        raw::Area {
            any_subspace: self.number() as u8,
            subspace: subspace(&self.junk_subspace()),
            path: self.junk_path(),
            times: raw::Times { start: self.number(), end: self.number(), open: self.number() as u8 },
        }
    }
    pub fn range(&mut self, r: &Range3d) -> raw::Range {
        let junk = self.junk_subspace();
        let end = subspace(&r.subspaces.end.unwrap_or(junk));
        let open = self.yes(r.subspaces.end.is_none());
        let subspaces = raw::Subspaces { start: subspace(&r.subspaces.start), end, open };
        let start = self.path(&r.paths.start);
        let end = r.paths.end.as_ref().map(|p| self.path(p)).unwrap_or_else(|| self.junk_path());
        let paths = raw::Paths { start, end, open: self.yes(r.paths.end.is_none()) };
        raw::Range { subspaces, paths, times: self.times(&r.times) }
    }
    pub(super) fn query(&mut self, q: &Query) -> super::Asked {
        match q {
            Query::Area(a) => super::Asked::Area(self.area(a)),
            Query::Range(r) => super::Asked::Range(self.range(r)),
        }
    }
    pub fn ignore(&mut self, i: Ignore) -> raw::Ignore {
        raw::Ignore { incomplete_payloads: self.yes(i.incomplete), empty_payloads: self.yes(i.empty) }
    }
}

pub fn subspace(s: &Subspace) -> raw::Subspace {
    let half = |at: usize| u64::from_be_bytes(s[at..at + 8].try_into().unwrap());
    raw::Subspace { high: half(0), low: half(8) }
}
pub fn unsubspace(s: &raw::Subspace) -> Subspace {
    [s.high.to_be_bytes(), s.low.to_be_bytes()].concat().try_into().unwrap()
}
/// A path that the door answered; none if it is illegal.
pub fn unpath(v: &raw::Path) -> Option<Path> {
    path_of_value(&v.bytes, &v.ends.map(|n| n as u64), v.count as u64)
}
pub fn unentry(e: &raw::Entry) -> Option<Entry> {
    Some(Entry {
        namespace: e.namespace_id,
        subspace: unsubspace(&e.subspace_id),
        path: unpath(&e.path)?,
        timestamp: e.timestamp,
        payload_length: e.payload_length,
        payload_digest: e.payload_digest,
    })
}
/// An origin that the door answered; none if it is not one of those that it answers.
pub fn unorigin(o: &raw::Origin) -> Option<EntryOrigin> {
    match (o.remote, o.session) {
        (0, 0) => Some(EntryOrigin::Local),
        (1, session) => Some(EntryOrigin::Remote(session)),
        _ => None,
    }
}
pub fn unrange(r: &raw::Range) -> Option<Range3d> {
    let open = |flag: u8| flag != 0;
    Some(Range3d {
        subspaces: Range {
            start: unsubspace(&r.subspaces.start),
            end: (!open(r.subspaces.open)).then(|| unsubspace(&r.subspaces.end)),
        },
        paths: Range {
            start: unpath(&r.paths.start)?,
            end: if open(r.paths.open) { None } else { Some(unpath(&r.paths.end)?) },
        },
        times: Range { start: r.times.start, end: (!open(r.times.open)).then_some(r.times.end) },
    })
}
