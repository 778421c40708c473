//! What the API guidelines ask of types, and the compiler does not see by itself: errors can be sent to another thread and kept, public
//! types show themselves, and those that hold nothing lent can be sent and shared.

use ferrysprig::{aht, burst, edit, index, level, listing, profile, salvage};
use ferrysprig::{Field, Fields, Frame, FrameRef, Header, HeaderRef, HeaderSummary, Parser};
use ferrysprig::{Refusal, Role, Summary, Unfit};
use std::error::Error;
use std::fmt::Debug;
use std::panic::{RefUnwindSafe, UnwindSafe};

fn error<T: Error + Send + Sync + 'static>() {}
fn value<T: Debug + Clone + Eq + std::hash::Hash + Send + Sync + 'static>() {}
fn lent<T: Debug + Clone + Send + Sync + UnwindSafe + RefUnwindSafe>() {}

#[test]
fn errors_can_be_sent_and_kept() {
    error::<Refusal>();
    error::<aht::Refusal>();
    error::<burst::Refusal>();
    error::<edit::Refusal>();
    error::<index::Refusal>();
    error::<level::Refusal>();
    error::<listing::Refusal>();
    error::<profile::Refusal>();
    error::<salvage::Refusal>();
    error::<salvage::Trouble>();
}

#[test]
fn values_have_the_common_traits() {
    value::<Field>();
    value::<Frame>();
    value::<Header>();
    value::<HeaderSummary>();
    value::<Refusal>();
    value::<Role>();
    value::<Summary>();
    value::<Unfit>();
    value::<aht::Refusal>();
    value::<aht::Section>();
    value::<burst::Refusal>();
    value::<edit::Refusal>();
    value::<index::Entry>();
    value::<index::Index>();
    value::<index::Refusal>();
    value::<level::Change>();
    value::<level::Changed>();
    value::<level::Changes>();
    value::<level::Refusal>();
    value::<listing::Refusal>();
    value::<profile::Profile>();
    value::<profile::Refusal>();
    value::<profile::Rule>();
    value::<salvage::Entry>();
    value::<salvage::Refusal>();
    value::<salvage::Salvaged>();
}

#[test]
fn what_is_lent_can_be_shared() {
    lent::<Fields<'_>>();
    lent::<FrameRef<'_>>();
    lent::<HeaderRef<'_>>();
    lent::<Parser>();
    lent::<salvage::Lent<'_>>();
    lent::<salvage::Stopped<'_>>();
}

/// A walk that stopped refers to the lent rooms; its refusal does not, and `?` takes that.
#[test]
fn a_stopped_walk_is_its_refusal() {
    fn walk(list: &mut [usize]) -> Result<usize, Box<dyn Error + Send + Sync>> {
        let walked = salvage::salvage_into(&[0; 300], &mut [0; 9], list, &mut []);
        let left = walked.map_err(salvage::Refusal::from)?;
        Ok(left.end())
    }
    assert_eq!(walk(&mut [0; 3]).unwrap(), 300);
    let refusal = walk(&mut [0; 2]).unwrap_err();
    assert_eq!(
        refusal.to_string(),
        "refusal 36: no entry of the list is left"
    );
}
