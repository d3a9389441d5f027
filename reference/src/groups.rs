//! Groups: how a CC's replacement lots answer its canceled lots (01 Terminators; checks 20 to 22).

use crate::lots::{good_millions, Kind, Lot};
use crate::pool_detail::PoolDetail;
use crate::terminator::{position_one, PositionOne};

/// A run of canceled lots and the run of replacement lots after it.
#[derive(Clone, Debug, PartialEq, Eq)]
pub struct Group {
    pub canceled: Vec<Lot>,
    pub replacement: Vec<Lot>,
}

/// The groups of a CC, each run as long as it can be, or none where check 20 fails.
pub fn groups(lots: &[Lot]) -> Option<Vec<Group>> {
    let mut groups: Vec<Group> = Vec::new();
    for lot in lots {
        match (lot.position_one, groups.last_mut()) {
            (PositionOne::Canceled, Some(group)) if group.replacement.is_empty() => {
                group.canceled.push(*lot);
            }
            (PositionOne::Canceled, _) => {
                groups.push(Group { canceled: vec![*lot], replacement: Vec::new() })
            }
            (PositionOne::Replacement, Some(group)) => group.replacement.push(*lot),
            _ => return None,
        }
    }
    (!groups.is_empty() && groups.iter().all(in_form)).then_some(groups)
}

/// Both runs hold a lot, all lots are of one kind, and odd or bad ones are just one of each.
fn in_form(group: &Group) -> bool {
    let both = !group.canceled.is_empty() && !group.replacement.is_empty();
    let kind = group.canceled[0].kind;
    let one_kind = group.canceled.iter().chain(&group.replacement).all(|lot| lot.kind == kind);
    let one_of_each = group.canceled.len() == 1 && group.replacement.len() == 1;
    both && one_kind && (kind == Kind::Good || one_of_each)
}

/// In a good group both runs' millions sum alike (check 21); odd and bad lots have none to sum.
pub fn sums_agree(groups: &[Group]) -> bool {
    groups.iter().all(|group| good_millions(&group.canceled) == good_millions(&group.replacement))
}

/// The number of replacement pools, not lots (check 22).
pub fn replacement_count(details: &[PoolDetail]) -> usize {
    details.iter().filter(|pool| position_one(&pool.terminator) == PositionOne::Replacement).count()
}
