//! What is promised of all houses together, tested on their present state.

use crate::message::Message;
use crate::names::{HouseId, Name};
use crate::net::Net;
use std::collections::BTreeSet;

/// Which house has a reference that matters to which object.
pub type Matters = BTreeSet<(HouseId, Name)>;

/// Follows what is on its way as a net goes on.
#[derive(Clone, Debug, Default)]
pub struct Watch {
    /// Gives that may still be taken.
    coming: Vec<(HouseId, Name, u32)>,
    /// Censuses called complete.
    complete: BTreeSet<u32>,
    looked_at: usize,
}

impl Watch {
    /// All references that matter now. The net must be the one of the call before, or later.
    pub fn matters(&mut self, net: &Net) -> Matters {
        self.look_at_new(net);
        let mut matters = Matters::new();
        for house in &net.houses {
            for root in &house.roots {
                spread(net, house.me, *root, &mut matters);
            }
        }
        for (to, object, _) in &self.coming {
            spread(net, *to, *object, &mut matters);
        }
        matters
    }

    fn look_at_new(&mut self, net: &Net) {
        for message in &net.sent[self.looked_at..] {
            match message {
                Message::Give { object, to, stamp } => self.coming.push((*to, *object, *stamp)),
                Message::Complete { census } => drop(self.complete.insert(*census)),
                _ => {}
            }
        }
        self.looked_at = net.sent.len();
        self.coming.retain(|(to, object, stamp)| *stamp > net.house(*to).stamps_of(object.home()).seen);
    }

    /// What the promise says and the net does not keep, or would not keep after the next sweep.
    pub fn broken(&self, net: &Net, matters: &Matters) -> Option<String> {
        let missing = matters.iter().find_map(|(holder, object)| self.lost(net, *holder, *object));
        missing.or_else(|| disordered(net))
    }

    fn lost(&self, net: &Net, holder: HouseId, object: Name) -> Option<String> {
        let home = net.house(object.home());
        if !home.objects.contains_key(&object) {
            return Some(format!("{object} matters to house {holder} and is not present"));
        }
        if home.me == holder {
            return None;
        }
        let Some(line) = home.list.get(&(object, holder)) else {
            return Some(format!("{object} matters to house {holder}, which its home has no line for"));
        };
        let sweepable = self.complete.contains(&home.census) && line.census != home.census;
        sweepable.then(|| format!("{object} matters to house {holder}, and the line is about to be swept"))
    }
}

/// Adds the reference, and what the object's fields lead to.
fn spread(net: &Net, holder: HouseId, object: Name, matters: &mut Matters) {
    if !matters.insert((holder, object)) {
        return;
    }
    let home = object.home();
    for field in net.house(home).objects.get(&object).into_iter().flatten() {
        spread(net, home, *field, matters);
    }
}

fn disordered(net: &Net) -> Option<String> {
    let pairs = net.ids().flat_map(|here| net.ids().map(move |there| (here, there)));
    pairs.filter(|(here, there)| here != there).find_map(|(here, there)| {
        let (home, holder) = (net.house(here).stamps_of(there), net.house(there).stamps_of(here));
        let ordered = home.heard <= holder.seen && holder.seen <= home.given;
        (!ordered).then(|| {
            format!(
                "house {here} heard {} of {there}, which has seen {} of {} given",
                home.heard, holder.seen, home.given
            )
        })
    })
}
