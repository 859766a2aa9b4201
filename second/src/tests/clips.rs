//! Trial clips, document 02's item 1, with marks worked out by hand from
//! document 01's definitions.

use super::*;
use crate::calls::clip;
use crate::draw::Draw;

/// The flags of a set of classes.
fn flags(members: &[usize]) -> [bool; 128] {
    std::array::from_fn(|class| members.contains(&class))
}

/// Every set of classes below n.
fn sets(n: usize) -> impl Iterator<Item = Vec<usize>> {
    (0..1usize << n).map(move |set| (0..n).filter(|class| set >> class & 1 == 1).collect())
}

/// A clip that must be accepted; the session comes back as given, so it is
/// never counted.
fn clipped(state: &State, members: &[usize]) -> State {
    let (session, mut table) = state.clone();
    let reply = clip(session, &mut table, &flags(members));
    assert_eq!(reply, (Ok(()), session), "{members:?}");
    (session, table)
}

/// A clip that must be refused and change nothing.
fn clip_refused(state: &State, members: &[usize], number: u8) {
    let (session, mut table) = state.clone();
    let reply = clip(session, &mut table, &flags(members));
    assert_eq!(reply, (refused(number), session), "{members:?}");
    assert_eq!(table, state.1, "{members:?}");
}

/// "No member of the set lies under a non-member": those noes in row order.
fn noes(n: u64, members: &[usize]) -> Vec<(u64, u64, bool)> {
    let member = |class: u64| members.contains(&(class as usize));
    let pairs = (0..n).flat_map(|a| (0..n).map(move |b| (a, b)));
    pairs
        .filter(|&(a, b)| member(a) && !member(b))
        .map(|(a, b)| (a, b, NO))
        .collect()
}

/// The table after these facts, told one by one; the first refusal if one
/// comes.
fn told_all(state: &State, facts: &[(u64, u64, bool)]) -> Result<State, Refusal> {
    let (session, mut table) = state.clone();
    for &(a, b, yes) in facts {
        tell(session, &mut table, a, b, yes).0?;
    }
    Ok((session, table))
}

/// Random tables of n classes: the facts among some random ones that were
/// accepted.
fn random_state(seed: u64, n: u64) -> State {
    let mut draw = Draw::scattered(seed);
    let (session, mut table) = fresh_state(n);
    for _ in 0..draw.below(2 * n) {
        let (a, b, yes) = (draw.below(n), draw.below(n), draw.once_in(2));
        let _ = tell(session, &mut table, a, b, yes);
    }
    (session, table)
}

/// n 3, yes (0, 1).
fn one_under_another() -> State {
    told(&fresh_state(3), &[(0, 1, YES)])
}

#[test]
fn worked_clips() {
    let state = one_under_another();
    assert_eq!(state.1, [1, 1, 0, 0, 1, 0, 0, 0, 1]);
    // No (0, 2) and no (1, 2).
    assert_eq!(clipped(&state, &[0, 1]).1, [1, 1, 2, 0, 1, 2, 0, 0, 1]);
    // 0 is under 1, so a clip that 0 played 1 played too.
    clip_refused(&state, &[0], 6);
    clip_refused(&state, &[0, 2], 6);
    // No (1, 0) and no (1, 2). (0, 2) stays open: the only c with (c, 0) yes
    // is 0, and there is no no fact (0, d). That 0 is under 1 would settle
    // (1, 2) from a no on (0, 2), but not the other way.
    assert_eq!(clipped(&state, &[1]).1, [1, 1, 0, 2, 1, 2, 0, 0, 1]);
    // No (2, 0) and no (2, 1).
    assert_eq!(clipped(&state, &[2]).1, [1, 1, 0, 0, 1, 0, 2, 2, 1]);
    // No (1, 0) and no (2, 0).
    assert_eq!(clipped(&state, &[1, 2]).1, [1, 1, 0, 2, 1, 0, 2, 0, 1]);
}

/// n 4, yes (0, 1), (2, 3). Members 0 and 1: the noes are (0, 2), (0, 3), (1,
/// 2), (1, 3). Members 1 and 3: (1, 0), (1, 2), (3, 0), (3, 2). They settle no
/// other pair: what is above a member is one, and what is below a non-member
/// is none.
#[test]
fn one_clip_after_another() {
    let state = told(&fresh_state(4), &[(0, 1, YES), (2, 3, YES)]);
    let one = clipped(&state, &[0, 1]);
    assert_eq!(one.1, [1, 1, 2, 2, 0, 1, 2, 2, 0, 0, 1, 1, 0, 0, 0, 1]);
    let two = clipped(&one, &[1, 3]);
    assert_eq!(two.1, [1, 1, 2, 2, 2, 1, 2, 2, 0, 0, 1, 1, 2, 0, 2, 1]);
    let other_way = clipped(&clipped(&state, &[1, 3]), &[0, 1]);
    assert_eq!(other_way, two);
    assert_eq!(clipped(&two, &[0, 1]), two);
}

/// On a fresh table a no settles its own pair alone, so the marks show which
/// noes were told: those from a member to a non-member and no others.
#[test]
fn the_noes_and_no_others() {
    for n in 1..=5 {
        for members in sets(n) {
            let (_, table) = clipped(&fresh_state(n as u64), &members);
            for (i, &mark) in table.iter().enumerate() {
                let (a, b) = (i / n, i % n);
                let expected = match (members.contains(&a), members.contains(&b)) {
                    (true, false) => 2,
                    _ => u8::from(a == b),
                };
                assert_eq!(mark, expected, "{members:?}: {a} {b}");
            }
        }
    }
}

/// "The same outcome as telling all those noes one by one, in any order": here
/// rising and falling, on random tables. Where a tell contradicts, the clip
/// does.
#[test]
fn noes_told_one_by_one() {
    let (mut accepted, mut contradicted) = (0, 0);
    for seed in 0..200 {
        let n = 1 + seed % 5;
        let state = random_state(seed, n);
        for members in sets(n as usize) {
            let rising = noes(n, &members);
            let falling: Vec<_> = rising.iter().rev().copied().collect();
            match told_all(&state, &rising) {
                Ok(told) => {
                    accepted += 1;
                    assert_eq!(told_all(&state, &falling).as_ref(), Ok(&told));
                    assert_eq!(clipped(&state, &members), told);
                }
                Err(refusal) => {
                    contradicted += 1;
                    assert_eq!(refusal, Refusal::new(6));
                    assert_eq!(told_all(&state, &falling), refused(6));
                    clip_refused(&state, &members, 6);
                }
            }
        }
    }
    assert!(accepted > 500 && contradicted > 500);
}

/// Nobody played it, or everybody did: there are no noes.
#[test]
fn clips_without_noes() {
    for state in [fresh_state(1), fresh_state(3), one_under_another(), p11()] {
        let all: Vec<usize> = (0..state.0.classes as usize).collect();
        assert_eq!(clipped(&state, &[]), state);
        assert_eq!(clipped(&state, &all), state);
    }
}

#[test]
fn nothing_changes_where_one_no_contradicts() {
    // Noes (0, 1), (2, 1). In rising order the first would be taken and the
    // second contradicts; then the other way round.
    let facts = [((2, 1, YES), (0, 1, NO)), ((0, 1, YES), (2, 1, NO))];
    for (fact, taken) in facts {
        let state = told(&fresh_state(3), &[fact]);
        assert_ne!(told(&state, &[taken]), state);
        clip_refused(&state, &[0, 2], 6);
    }
}

#[test]
fn clips_are_not_counted() {
    let state = answered(&fresh_state(3), 0, 1, YES);
    assert_eq!(state.0, session(3, 1));
    let after = clipped(&state, &[0, 1]);
    assert_eq!(after.0, session(3, 1));
    assert_eq!(left_open(&after), [(1, 0), (2, 0), (2, 1)]);
    // An answer on a pair that a clip settled is not counted either.
    assert_eq!(answered(&after, 1, 2, NO), after);
}

#[test]
fn flags_at_n_and_above() {
    let state = one_under_another();
    for class in 3..128 {
        clip_refused(&state, &[class], 5);
        clip_refused(&state, &[0, 1, 2, class], 5);
        // Without that flag it would be 6.
        clip_refused(&state, &[0, class], 5);
    }
    // Of n 127 only the last flag is one too many, of n 128 none.
    let all: Vec<usize> = (0..128).collect();
    clip_refused(&fresh_state(127), &all, 5);
    let state = fresh_state(127);
    assert_eq!(clipped(&state, &all[..127]), state);
    let state = fresh_state(128);
    assert_eq!(clipped(&state, &all), state);
}

#[test]
fn the_last_class_of_128() {
    let (_, table) = clipped(&fresh_state(128), &[127]);
    assert_eq!(table[127 * 128..127 * 128 + 127], [2; 127]);
    assert_eq!(table.iter().filter(|&&mark| mark == 2).count(), 127);
}

/// 1 to 4 come before 5 and 6, in this order. Members 0 and 9 would give 5.
#[test]
fn orders_of_refusals() {
    let (_, table) = one_under_another();
    for classes in [0, 129, 200, u64::MAX] {
        clip_refused(&(session(classes, 99), table.clone()), &[0, 9], 1);
    }
    clip_refused(&(session(3, 99), table[..8].to_vec()), &[0, 9], 2);
    // Not transitive; a mark of 3; the diagonal open; no (0, 2) and yes (0,
    // 1) with (1, 2) open.
    let not_sound = [
        [1, 1, 0, 0, 1, 1, 0, 0, 1],
        [1, 0, 3, 0, 1, 0, 0, 0, 1],
        [1, 0, 0, 0, 0, 0, 0, 0, 1],
        [1, 1, 2, 0, 1, 0, 0, 0, 1],
    ];
    for marks in not_sound {
        for members in [&[0, 9][..], &[0], &[0, 1], &[]] {
            clip_refused(&(session(3, 99), marks.to_vec()), members, 3);
        }
    }
    // Five open pairs: one test is possible, two are not.
    for members in [&[0, 9][..], &[0], &[0, 1], &[]] {
        clip_refused(&(session(3, 2), table.clone()), members, 4);
        clip_refused(&(session(3, u64::MAX), table.clone()), members, 4);
    }
    clip_refused(&(session(3, 1), table.clone()), &[0, 9], 5);
    clip_refused(&(session(3, 1), table.clone()), &[0], 6);
    clipped(&(session(3, 1), table), &[0, 1]);
}

/// "Bytes from n*n on are never read or written."
#[test]
fn bytes_past_the_marks() {
    let (session, mut table) = one_under_another();
    table.extend([3, 0xaa]);
    let state = (session, table);
    assert_eq!(
        clipped(&state, &[0, 1]).1,
        [1, 1, 2, 0, 1, 2, 0, 0, 1, 3, 0xaa]
    );
    clip_refused(&state, &[0], 6);
    clip_refused(&state, &[3], 5);
}
