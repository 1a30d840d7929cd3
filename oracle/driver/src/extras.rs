//! ORACLE: calls of the customer's Rust that the port leaves out, answered as `Debug` prints the Rust's own outcome. They
//! are here so that docs/DIFFERENCES.md can quote what was run.
use crate::answer::Answer;
use crate::call::*;
use crate::convert::*;
use crate::oracle::*;
use crate::params::*;
use crate::show::*;
use model::Ignore;
use ufotofu_codec::block_on;
use willow_data_model::*;

impl<const MCL: usize, const MCC: usize, const MPL: usize> Oracle<MCL, MCC, MPL> {
    pub fn extra(&mut self, call: &Call) -> Out<Answer> {
        let st = &self.store;
        Ok(Answer::Said(match call {
            Call::Append(s, p, n) => {
                let p: Path<MCL, MCC, MPL> = path(p)?;
                let all = ignore(Ignore { incomplete: false, empty: false });
                let d = match block_on(st.entry(&Sub(*s), &p, all)).unwrap() {
                    Some(e) => e.entry().entry().payload_digest().0[0],
                    None => 0,
                };
                let bytes = vec![d; *n as usize];
                let mut from = ufotofu::producer::FromSlice::new(&bytes);
                format!("{:?}", block_on(st.append_payload(&Sub(*s), &p, None, None, &mut from)))
            }
            Call::ForgetPayload(s, p, d) => {
                format!("{:?}", block_on(st.forget_payload(&Sub(*s), &path(p)?, d.map(Dig))))
            }
            Call::ForgetAreaPayloads(a, p) => {
                let p = p.as_ref().map(area).transpose()?;
                format!("{:?}", block_on(st.forget_area_payloads(&area(a)?, p.as_ref())))
            }
            Call::Payloads => {
                let t = self.db.open_tree([2]).unwrap();
                let l = t.iter().flatten().map(|(k, v)| format!("\n{} {}", show_hex(&k), show_hex(&v)));
                format!("payloads {}{}", t.len(), l.collect::<String>())
            }
            Call::Clear => format!("{:?}", st.clear()),
            // The Rust's two ways to open, on the database as it now is.
            Call::Again(n) => format!("{:?}", St::<MCL, MCC, MPL>::new(&Ns(*n), self.db.clone()).map(|_| ())),
            Call::Existing => format!("{:?}", St::<MCL, MCC, MPL>::from_existing(self.db.clone()).map(|_| ())),
            // A token that says yes so many times, and then no.
            Call::Deny(times, e, k) => {
                YES.with(|y| y.set(*times));
                let made = AuthorisedEntry::new(entry::<MCL, MCC, MPL>(e)?, Tok(*k));
                match made {
                    Ok(a) => format!("{:?}", block_on(st.ingest_entry(a, false, EntryOrigin::Local))),
                    Err(e) => format!("{e:?}"),
                }
            }
            _ => unreachable!("answered in oracle.rs"),
        }))
    }
}
