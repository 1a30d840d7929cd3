//! The Rust with the model beside it, call by call. An ingestion that the model answers with held (02, U2), and one above a stored extension that ties
//! (02, U3), is made in the Rust all the same, and its trees are put right where it changes them otherwise, so that both go on with the same entries.
use crate::answer::Answer;
use crate::call::Call;
use crate::cuts::cut;
use crate::judge::Judge;
use crate::oracle::{Oracle, Way};
use crate::show::show;
use crate::step::steps;
use model::Bounds;

pub struct WithModel<const MCL: usize, const MCC: usize, const MPL: usize> {
    pub rust: Oracle<MCL, MCC, MPL>,
    judge: Judge,
}

/// What the two answer.
pub struct Answers {
    pub rust: Answer,
    pub model: Answer,
    pub way: Way,
}
impl Answers {
    /// Whether the two are alike: of a resend that the Rust does what it must is asserted already, and beside ties what its answer is with these put back
    /// is the model's.
    pub fn alike(&self) -> bool {
        match &self.way {
            Way::Plain => self.rust == cut(&self.model),
            Way::Held(_) => true,
            Way::Tied(then) => *then == self.model,
        }
    }
}

impl<const MCL: usize, const MCC: usize, const MPL: usize> WithModel<MCL, MCC, MPL> {
    /// Of namespace 0.
    pub fn open(limit: Option<u64>) -> Self {
        let bounds = Bounds { component: MCL, count: MCC, total: MPL };
        let judge = limit.map_or(Judge::unlimited(bounds), |limit| Judge::limited(limit, bounds));
        WithModel { rust: Oracle::compared(Default::default(), limit), judge }
    }
    pub fn exec(&mut self, call: &Call) -> Answers {
        let asked = self.judge.asked(call);
        let model = self.judge.exec(call);
        // A listing that begins, a step of one that is not open and 5 are the model's alone.
        if matches!(asked, Call::Walk(..) | Call::More(_)) || steps(&asked) && model == Answer::Refused(5) {
            return Answers { rust: cut(&model), model, way: Way::Plain };
        }
        let (rust, way) = self.rust.beside(&asked, &model).unwrap_or_else(|words| panic!("{words}"));
        Answers { rust, model, way }
    }
    /// The Rust's answer, with the origins that it lacks where all else is the model's (cuts.rs); of a resend `held`, then ` back` if its trees were put back, then the Rust's own answer; beside ties, if they alter the answer, `tied`,
    /// then what it is with these put back, then the Rust's own in brackets.
    pub fn told(&mut self, call: &Call) -> Answer {
        let a = self.exec(call);
        if let Way::Tied(then) = &a.way {
            assert!(*then == a.model, "beside ties the Rust, with these put back, says {then:?}, the model {:?}", a.model);
        }
        let alike = a.alike();
        match a.way {
            Way::Plain => if alike { a.model } else { a.rust },
            Way::Held(back) => Answer::Said(format!("held{} {}", if back { " back" } else { "" }, show(&a.rust))),
            Way::Tied(then) if then == a.rust => then,
            Way::Tied(then) => Answer::Said(format!("tied {} ({})", show(&then), show(&a.rust))),
        }
    }
}
