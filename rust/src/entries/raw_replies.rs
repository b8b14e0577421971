//! Every field of refused replies: those that say nothing are zero, and a refused play, take-back, lock or unlock hands its position back.
//! And every field of rule 4's finished replies: zero where nothing is named.

use super::*;
use std::ptr::null;

const MISFIT: Position = Position { plays: u64::MAX, depth: u64::MAX, values: [255; 32] };

fn refused(kind: u64, number: u64) -> Answer {
    Answer { kind, number, place: 0 }
}

/// G7 of document 01: one existential variable with the value 5.
const G7: &[u8] = b"QP\x01\x00\x00VE\x20\x00EN";

/// An empty file may come with any pointer. Every entry refuses it first, whatever else is wrong.
#[test]
fn empty_file_with_any_pointer() {
    let answer = refused(2, 1);
    for address in [0usize, 1, 2, 4095, usize::MAX] {
        let file = address as *const u8;
        let (mut list, mut room, mut buffer) = ([0u16; 3], [9u16; 3], [7u8; 3]);
        let words = list.as_mut_ptr();
        let at = room.as_mut_ptr();
        let bytes = buffer.as_mut_ptr();
        let mut session = MISFIT;
        // SAFETY: a length of 0 comes with the file's pointer; all else is lent as it is long.
        unsafe {
            assert_eq!(kb_read(file, 0), Reading { answer, ..Default::default() });
            assert_eq!(kb_look_up(file, 0, 9, 9), Found { answer, ..Default::default() });
            assert_eq!(kb_look_up_triples(file, 0, u64::MAX), FoundTriples { answer, ..Default::default() });
            assert_eq!(kb_play(file, 0, MISFIT, 99), Moved { answer, position: MISFIT });
            assert_eq!(kb_take_back(file, 0, MISFIT), Moved { answer, position: MISFIT });
            assert_eq!(kb_lock(file, 0, MISFIT), Moved { answer, position: MISFIT });
            assert_eq!(kb_unlock(file, 0, MISFIT, u64::MAX), Moved { answer, position: MISFIT });
            assert_eq!(kb_session_play(file, 0, &mut session, 99), answer);
            assert_eq!(kb_session_take_back(file, 0, &mut session), answer);
            assert_eq!(kb_session_lock(file, 0, &mut session), answer);
            assert_eq!(kb_session_unlock(file, 0, &mut session, u64::MAX), answer);
            assert_eq!(session, MISFIT);
            assert_eq!(kb_open(file, 0, MISFIT), Opened { answer, ..Default::default() });
            assert_eq!(kb_judge(file, 0, MISFIT.plays, MISFIT.depth, 1, 2, 3, 4, 256), Judgement { answer, won: 0 });
            assert_eq!(kb_mark(file, 0, MISFIT.plays, MISFIT.depth, 1, 2, 3, 4, 256), Marks { answer, ..Default::default() });
            assert_eq!(kb_judge_in(file, 0, MISFIT, 256, at, 3), Judgement { answer, won: 0 });
            assert_eq!(kb_mark_in(file, 0, MISFIT, 256, at, 3), Marks { answer, ..Default::default() });
            assert_eq!(kb_search(file, 0, MISFIT, 256), Searched { answer, ..Default::default() });
            let opened = Opened { answer, ..Default::default() };
            assert_eq!(kb_replay(file, 0, file, 0, 256), Replayed { marks: Marks { answer, ..Default::default() }, opened });
            assert_eq!(kb_arc(file, 0, words, 3), Ruled { answer, lost: 0 });
            assert_eq!(kb_forward_check(file, 0, words, 3, 9, 99), Checked { answer, ..Default::default() });
            assert_eq!(kb_look_ahead(file, 0, words, 3, 9), Looked { answer, ..Default::default() });
            assert_eq!(kb_pure(file, 0, words, 3, 9), NamedValues { answer, ..Default::default() });
            assert_eq!(kb_interchangeable(file, 0, words, 3, 9), Values { answer, values: 0 });
            assert_eq!(kb_formula(file, 0, bytes, 3), Written { answer, length: 0 });
            assert_eq!(kb_judge_formula(file, 0, bytes, 3), FormulaJudgement { answer, ..Default::default() });
            assert_eq!(kb_groups(file, 0), GroupList { answer, ..Default::default() });
            assert_eq!(kb_group(file, 0, 99, bytes, 3), Written { answer, length: 0 });
        }
        assert_eq!((list, room, buffer), ([0; 3], [9; 3], [7; 3]));
    }
}

/// The same for refusals of the call, with lists, room and buffers of no length at any address.
#[test]
fn refused_calls_with_any_pointer() {
    let (file, length) = (G7.as_ptr(), G7.len());
    let fresh = Position::default();
    let held = Position::after(&[5]).unwrap().with_depth(1);
    for address in [0usize, 2, 4096, usize::MAX - 1] {
        let (words, bytes) = (address as *mut u16, address as *mut u8);
        let mut session = MISFIT;
        // SAFETY: a length of 0 comes with every made-up address; the file is lent as it is long.
        unsafe {
            assert_eq!(kb_look_up(file, length, 0, 1), Found { answer: refused(1, 11), ..Default::default() });
            assert_eq!(kb_play(file, length, MISFIT, 5), Moved { answer: refused(1, 23), position: MISFIT });
            assert_eq!(kb_play(file, length, fresh, 4), Moved { answer: refused(1, 10), position: fresh });
            assert_eq!(kb_take_back(file, length, fresh), Moved { answer: refused(1, 21), position: fresh });
            assert_eq!(kb_take_back(file, length, held), Moved { answer: refused(1, 24), position: held });
            assert_eq!(kb_lock(file, length, MISFIT), Moved { answer: refused(1, 23), position: MISFIT });
            assert_eq!(kb_unlock(file, length, MISFIT, u64::MAX), Moved { answer: refused(1, 23), position: MISFIT });
            assert_eq!(kb_unlock(file, length, held, 1 << 32 | 1), Moved { answer: refused(1, 25), position: held });
            assert_eq!(kb_session_play(file, length, &mut session, 5), refused(1, 23));
            assert_eq!(kb_session_take_back(file, length, &mut session), refused(1, 23));
            assert_eq!(kb_session_lock(file, length, &mut session), refused(1, 23));
            assert_eq!(kb_session_unlock(file, length, &mut session, u64::MAX), refused(1, 23));
            assert_eq!(session, MISFIT);
            assert_eq!(kb_open(file, length, MISFIT), Opened { answer: refused(1, 23), ..Default::default() });
            assert_eq!(kb_judge(file, length, 0, 0, 0, 0, 0, 0, 128), Judgement { answer: refused(1, 8), won: 0 });
            assert_eq!(kb_judge(file, length, 0, 1 << 32, 0, 0, 0, 0, 127), Judgement { answer: refused(1, 23), won: 0 });
            assert_eq!(kb_mark(file, length, 0, 0, 0, 0, 0, 1 << 56, 127), Marks { answer: refused(1, 23), ..Default::default() });
            assert_eq!(kb_mark(file, length, 0, 1, 0, 0, 0, 0, 127), Marks { answer: refused(1, 23), ..Default::default() });
            assert_eq!(kb_judge_in(file, length, fresh, 0, words, 0), Judgement { answer: refused(1, 12), won: 0 });
            assert_eq!(kb_mark_in(file, length, fresh, 0, words, 0), Marks { answer: refused(1, 12), ..Default::default() });
            assert_eq!(kb_search(file, length, MISFIT, 0), Searched { answer: refused(1, 23), ..Default::default() });
            let replayed = kb_replay(file, length, bytes, 0, 128);
            assert_eq!(replayed.marks, Marks { answer: refused(1, 8), ..Default::default() });
            let mut opened = Opened::default();
            (opened.masks[0], opened.counts[0]) = (32, 1);
            assert_eq!(replayed.opened, opened);
            assert_eq!(kb_arc(file, length, words, 0), Ruled { answer: refused(1, 13), lost: 0 });
            let checked = Checked { answer: refused(1, 13), ..Default::default() };
            assert_eq!(kb_forward_check(file, length, words, 0, 0, 5), checked);
            assert_eq!(kb_look_ahead(file, length, words, 0, 0), Looked { answer: refused(1, 13), ..Default::default() });
            assert_eq!(kb_pure(file, length, words, 0, 0), NamedValues { answer: refused(1, 13), ..Default::default() });
            assert_eq!(kb_interchangeable(file, length, words, 0, 0), Values { answer: refused(1, 13), values: 0 });
            assert_eq!(kb_report(file, length, bytes, 0), Written { answer: refused(1, 12), length: 0 });
            assert_eq!(kb_formula(file, length, bytes, 0), Written { answer: refused(1, 12), length: 0 });
            let judged = FormulaJudgement { answer: refused(1, 12), ..Default::default() };
            assert_eq!(kb_judge_formula(file, length, bytes, 0), judged);
            assert_eq!(kb_group(file, length, 1, bytes, 0), Written { answer: refused(1, 11), length: 0 });
            assert_eq!(kb_group(file, length, 0, bytes, 0), Written { answer: refused(1, 12), length: 0 });
            let written = |n, domains, count| kb_write(bytes, 0, n, 0, 0, 0, 0, domains, count, null(), 0, words, 0);
            assert_eq!(written(0, null(), 0), Written { answer: refused(1, 3), length: 0 });
            assert_eq!(written(1, null(), 0), Written { answer: refused(1, 13), length: 0 });
            assert_eq!(written(1, &32, 1), Written { answer: refused(1, 12), length: 0 });
            // A count whose triples are not there, more numbers of them than a byte holds; and one that is no count.
            for (triples, number) in [(&[0, 1, 2][..], 13), (&[0, 1, 2, 256, 0, 0, 0], 13), (&[0, 1, 2, 0], 26)] {
                let (list, count) = (triples.as_ptr(), triples.len());
                let reply = kb_write(bytes, 0, 1, 0, 0, 0, 0, &32, 1, null(), 0, list, count);
                assert_eq!(reply, Written { answer: refused(1, number), length: 0 });
            }
            for number in [0, 1, 32, 1 << 32, u64::MAX] {
                assert_eq!(kb_look_up_triples(file, length, number), FoundTriples::default());
            }
        }
    }
}

/// G5 of document 01: value 1 of variable 0 and value 0 of variable 1 do not go together. In each of the two names a number is 0, which must
/// not read as none.
#[test]
fn zero_without_a_name() {
    let mut file = b"QP\x02\x01\x00VE\x03\x00VE\x03\x00CT\x00\x01\x03\x00\x02\x00".to_vec();
    file.extend([0; 28]);
    file.extend(b"EN");
    let pure = |list: [u16; 2], x| {
        // SAFETY: file and list are lent as they are long.
        unsafe { kb_pure(file.as_ptr(), file.len(), list.as_ptr(), list.len(), x) }
    };
    let mut shown = NamedValues { pure: 1, impure: 2, ..Default::default() };
    shown.variables[1] = 1;
    assert_eq!(pure([3, 3], 0), shown);
    let mut shown = NamedValues { pure: 2, impure: 1, ..Default::default() };
    shown.values[0] = 1;
    assert_eq!(pure([3, 3], 1), shown);
    assert_eq!(pure([3, 2], 0), NamedValues { pure: 3, ..Default::default() });
    assert_eq!(pure([3, 2], 1), NamedValues { pure: 2, ..Default::default() });
    for x in [2, 32, 1 << 32, u64::MAX] {
        assert_eq!(pure([3, 3], x), NamedValues { answer: refused(1, 11), ..Default::default() });
    }
}
