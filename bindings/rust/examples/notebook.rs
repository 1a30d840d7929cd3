//! Opens a store, files five readings, one of them from another tablet, and the last of them again, keeps it and takes it back, records how much of two
//! photographs has arrived, lists what the store holds and where it came from, and what of it is all there, files two more while a listing is open, looks one up,
//! asks how much each recorder has, and drops an area.
use virebony::{
    Area, AreaSubspace, AuthorisedEntry, Entry, EntryIngestionSuccess, EntryOrigin, Listing, Path, QueryIgnoreParams, Range, Refusal, Store,
    SubspaceId,
};

const NAMESPACE: [u8; 16] = [1; 16];

fn path_of(text: &str) -> Result<Path, Refusal> {
    Path::from_slices(&text.split('/').collect::<Vec<_>>())
}

fn shown(path: &Path) -> String {
    path.components().map(|component| format!("/{}", String::from_utf8_lossy(component))).collect()
}

fn came(origin: EntryOrigin) -> String {
    match origin {
        EntryOrigin::Local => "local".into(),
        EntryOrigin::Remote(session) => format!("from session {session}"),
    }
}

/// Files a reading, and says what became of it.
fn file(store: &mut Store, recorder: u64, text: &str, timestamp: u64, origin: EntryOrigin) -> Result<(), Refusal> {
    let entry = Entry::new(NAMESPACE, SubspaceId { high: 0, low: recorder }, path_of(text)?, timestamp, 5000, [0; 32]);
    match store.ingest_entry(AuthorisedEntry::new(entry, [7; 64]), false, origin)? {
        EntryIngestionSuccess::Success { pruned } => println!("{text}: taken, {pruned} pruned"),
        EntryIngestionSuccess::Obsolete { newer, .. } => println!("{text}: obsolete since {}", newer.entry().timestamp()),
        EntryIngestionSuccess::Held => println!("{text}: held already"),
    }
    Ok(())
}

fn main() -> Result<(), Refusal> {
    let mut store = Store::open(NAMESPACE, 16)?;
    // The fourth prunes the first two; the last is the fifth again, which another tablet had too, and stays local.
    for (i, text) in ["ward/3/ann", "ward/3/bob", "ward/4", "ward/3", "ward/3/ann", "ward/3/ann"].into_iter().enumerate() {
        let origin = if i == 2 || i == 5 { EntryOrigin::Remote(31) } else { EntryOrigin::Local };
        file(&mut store, if text == "ward/4" { 8 } else { 9 }, text, 100 + i.min(4) as u64, origin)?;
    }
    let (state, kept) = store.as_parts();
    let mut store = Store::from_parts(state, kept.spt.into(), kept.spt_dir.into(), kept.tsp.into(), kept.tsp_dir.into())?;
    let recorder = SubspaceId { high: 0, low: 9 };
    store.record_available_length(&recorder, &path_of("ward/3")?, None, 1200)?;
    store.record_available_length(&recorder, &path_of("ward/3/ann")?, Some([0; 32]), 5000)?;
    if let Err(refusal) = store.record_available_length(&recorder, &path_of("ward")?, None, 5000) {
        println!("/ward: {refusal}");
    }
    for stored in store.query_area(&Area::new_full(), Default::default())? {
        let entry = stored.entry().entry();
        let (path, timestamp, length, origin) = (shown(entry.path()), entry.timestamp(), entry.payload_length(), came(stored.origin()));
        println!("{path} at {timestamp}, {} of {length} bytes there, {origin}", stored.available());
    }
    if let Some(stored) = store.entry(&SubspaceId { high: 0, low: 8 }, &path_of("ward/4")?, Default::default())? {
        println!("recorder 8's /ward/4: {}", came(stored.origin()));
    }
    let complete = QueryIgnoreParams { ignore_incomplete_payloads: true, ..Default::default() };
    for stored in store.query_area(&Area::new_full(), complete)? {
        println!("{} is all there", shown(stored.entry().entry().path()));
    }
    let mut listing = Listing::of_area(&Area::new_full(), QueryIgnoreParams::default());
    while let Some(stored) = listing.next(&store)? {
        let entry = stored.entry().entry();
        println!("meanwhile {} at {}", shown(entry.path()), entry.timestamp());
        if entry.timestamp() == 103 {
            file(&mut store, 9, "ward/2", 105, EntryOrigin::Local)?; // behind: this listing does not show it
            file(&mut store, 9, "ward/3/ann", 106, EntryOrigin::Local)?; // in the place of the one whose turn is next, and shown in its stead
        }
    }
    for item in store.tally() {
        println!("recorder {} has {}, the newest at {}", item.subspace_id.low, item.count, item.newest);
    }
    let bed = Area::new(AreaSubspace::Any, path_of("ward/3")?, Range::new_open(0));
    println!("{} forgotten", store.forget_area(&bed, None)?);
    println!("a limit of 0: {}", Store::open(NAMESPACE, 0).unwrap_err());
    Ok(())
}
