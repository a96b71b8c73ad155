//! Claims: who requests outright how much of a budget of the host. This adds up what is asked for, and
//! says nothing of what can stand: that is the library's to say.

use crate::event::{Budget, Event};
use hainscope::{variable_of, Condition};

/// Who claims something.
#[derive(Clone, Copy, Debug, PartialEq, Eq)]
pub enum Claimant {
    /// The host itself.
    Host,
    /// The plug-in of a request.
    PlugIn(u16),
}

/// A state of a variable: on or off.
#[derive(Clone, Copy, Debug, PartialEq, Eq)]
pub struct State {
    /// The variable.
    pub variable: u16,
    /// Whether it is on.
    pub on: bool,
}

/// What a state takes of a budget, which is more than nothing.
#[derive(Clone, Copy, Debug, PartialEq, Eq)]
pub struct Taking {
    /// The state.
    pub state: State,
    /// How much it takes.
    pub amount: i64,
}

/// A state that somebody requests outright.
#[derive(Clone, Copy, Debug, PartialEq, Eq)]
pub struct Wish {
    /// Who requests it.
    pub claimant: Claimant,
    /// What is requested.
    pub state: State,
}

/// A wish that takes something of a budget.
#[derive(Clone, Copy, Debug, PartialEq, Eq)]
pub struct Claim {
    /// Who claims it.
    pub claimant: Claimant,
    /// What is claimed, and how much it takes.
    pub taking: Taking,
    /// Who claims the same and matters more; such a claim adds nothing.
    pub shared_with: Option<Claimant>,
}

/// The claims on a budget.
#[derive(Clone, Debug, PartialEq, Eq)]
pub struct Claims {
    /// How much there is once nothing gives any more: the bound, and all that can be given.
    pub room: i64,
    /// The claims: the host's first, then those of the plug-ins, most important first.
    pub claims: Vec<Claim>,
    /// What takes something and is not requested outright.
    pub unclaimed: Vec<Taking>,
}

impl Claims {
    /// How much is claimed in all.
    pub fn total(&self) -> i64 {
        self.counted().map(|claim| claim.taking.amount).sum()
    }

    /// The claims that count: each state once.
    pub fn counted(&self) -> impl Iterator<Item = &Claim> {
        self.claims
            .iter()
            .filter(|claim| claim.shared_with.is_none())
    }

    /// The claims of some wishes on a budget.
    pub fn on(budget: &Budget, wishes: &[Wish]) -> Claims {
        let takings = takings(budget.terms);
        let mut claims: Vec<Claim> = Vec::new();
        for wish in wishes {
            let taken = |taking: &&Taking| taking.state == wish.state;
            let Some(taking) = takings.iter().find(taken) else {
                continue;
            };
            let same = |claim: &&Claim| claim.taking == *taking;
            claims.push(Claim {
                claimant: wish.claimant,
                taking: *taking,
                shared_with: claims.iter().find(same).map(|claim| claim.claimant),
            });
        }
        let is_claimed = |taking: &Taking| claims.iter().any(|claim| claim.taking == *taking);
        let unclaimed = takings.iter().copied().filter(|taking| !is_claimed(taking));
        let unclaimed = unclaimed.collect();
        Claims {
            room: i64::from(budget.bound) + given(budget.terms),
            claims,
            unclaimed,
        }
    }
}

/// What is requested outright by the host, and then by the plug-ins of some requests in their sequence:
/// each clause that names one literal only. Who requests the same twice requests it once.
pub fn wishes(event: &Event, requests: &[u16]) -> Vec<Wish> {
    let mut wishes: Vec<Wish> = Vec::new();
    let host = (Claimant::Host, 0);
    let plug_ins = requests
        .iter()
        .map(|request| (Claimant::PlugIn(*request), *request));
    for (claimant, role) in std::iter::once(host).chain(plug_ins) {
        let own = event.rows.iter().filter(|row| row.row.role == role);
        for state in own.filter_map(|row| outright(&row.row.condition)) {
            let wish = Wish { claimant, state };
            if !wishes.contains(&wish) {
                wishes.push(wish);
            }
        }
    }
    wishes
}

/// The one state that a row asks for, if it is a clause of one literal, said once or more often.
fn outright(condition: &Condition) -> Option<State> {
    let Condition::Clause(literals) = condition else {
        return None;
    };
    let (first, others) = literals.split_first()?;
    let (variable, on) = variable_of(*first);
    let only = others.iter().all(|literal| literal == first);
    only.then_some(State { variable, on })
}

/// What takes something of a budget: a variable of positive weight where it is on, one of negative
/// weight where it is off, since it then does not give what it could.
pub fn takings(terms: &[(u16, i32)]) -> Vec<Taking> {
    let taking = |(variable, weight): &(u16, i64)| Taking {
        state: State {
            variable: *variable,
            on: *weight > 0,
        },
        amount: weight.abs(),
    };
    weights(terms).iter().map(taking).collect()
}

/// All that the variables of negative weight give where they are on.
fn given(terms: &[(u16, i32)]) -> i64 {
    let takings = takings(terms);
    let gives = takings.iter().filter(|taking| !taking.state.on);
    gives.map(|taking| taking.amount).sum()
}

/// The weight of each variable, those of one that is named twice added up, without those of 0.
fn weights(terms: &[(u16, i32)]) -> Vec<(u16, i64)> {
    let mut weights: Vec<(u16, i64)> = Vec::new();
    for (variable, weight) in terms {
        let weight = i64::from(*weight);
        match weights.iter_mut().find(|(named, _)| named == variable) {
            Some((_, sum)) => *sum += weight,
            None => weights.push((*variable, weight)),
        }
    }
    weights.retain(|(_, weight)| *weight != 0);
    weights
}
