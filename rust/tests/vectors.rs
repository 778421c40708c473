//! Every case of judge/vectors/list.txt, whose head says what its lines mean.

mod files;

use ferrysprig::{parse_into, Frame, Refusal, REFUSALS};
use judge::agree::fresh_room;
use judge::cases::input;
use judge::hex;
use judge::layout::{answer_at, ANSWER};
use judge::list::{checksum, Listed, Said};

/// An answer as the list says it.
fn said(answer: &Result<Frame, Refusal>, room: &[i32]) -> Said {
    let mut numbers = [0; ANSWER];
    let unfit = answer.as_ref().err().and_then(|refusal| refusal.unfit);
    let name = unfit.map(|unfit| judge::names::number(unfit.name));
    numbers[answer_at::NAME] = name.unwrap_or(0);
    numbers[answer_at::BLOCK] = unfit.map_or(-1, |unfit| unfit.block.into());
    let mut tell = |at: usize, number: usize| numbers[at] = number as i32;
    match answer {
        Err(refusal) => {
            tell(answer_at::REFUSAL, refusal.number.into());
            tell(answer_at::ROWS, refusal.rows.len());
            tell(answer_at::BIT, refusal.bit);
        }
        Ok(frame) => {
            let s = &frame.summary;
            tell(answer_at::ROWS, frame.fields.len());
            tell(answer_at::BIT, s.audio_end);
            tell(answer_at::SUMMARY, frame.fields.len());
            tell(answer_at::BYTES, s.bytes);
            tell(answer_at::AUDIO_END, s.audio_end);
            tell(answer_at::BSID, s.bsid.into());
            tell(answer_at::ACMOD, s.acmod.into());
            tell(answer_at::LFEON, s.lfeon.into());
            tell(answer_at::FSCOD, s.fscod.into());
            tell(answer_at::CPL_BLOCKS, s.cpl_blocks);
            for (block, start) in s.block_starts.into_iter().enumerate() {
                tell(answer_at::BLOCK_STARTS + block, start);
            }
            for (block, start) in s.mantissa_starts.into_iter().enumerate() {
                tell(answer_at::MANTISSA_STARTS + block, start);
            }
            tell(answer_at::COORDINATES_SENT, s.coordinates_sent.into());
            for (at, bits) in s.mantissa_bits.iter().flatten().enumerate() {
                tell(answer_at::MANTISSA_BITS + at, *bits);
            }
        }
    }
    Said {
        numbers,
        checksum: checksum(room),
    }
}

/// The last fields of a refusal are those that its documentation names.
fn last_fields(refusal: &Refusal) {
    let names: Vec<&str> = refusal.rows.iter().rev().map(|f| f.name).collect();
    let last = names.first().copied().unwrap_or_default();
    let expected = match refusal.number {
        2 => last == "syncword",
        3 => names[..2] == ["frmsizecod", "fscod"],
        5 => last == "bsid",
        8 => last == "cplstre",
        9 => names[..2] == ["cplendf", "cplbegf"],
        11 => last == "chbwcod",
        16 | 17 => ["cplexps", "exps[ch]", "lfeexps"].contains(&last),
        18 | 19 => ["cpldeltbae", "deltbae"].contains(&last),
        21 => last == "rematstr",
        22 => last == "baie",
        23 => last == "snroffste",
        _ => true,
    };
    assert!(expected, "refusal {} after {last}", refusal.number);
    assert_eq!(refusal.unfit.is_some(), refusal.number == 6);
}

#[test]
fn every_case_of_the_list() {
    let list = files::text("judge/vectors/list.txt");
    let mut frame = Vec::new();
    let mut cases = 0;
    let mut met = [false; REFUSALS.len() + 1];
    for line in list.lines().filter(|line| !line.starts_with('#')) {
        if let Some(digits) = line.strip_prefix("frame ") {
            frame = hex::bytes(digits);
            continue;
        }
        let case = Listed::read(line);
        let capture = input(&frame, case.edit, case.keep);
        let mut room = fresh_room(case.numbers);
        let given = parse_into(&capture, case.place, &mut room).map(|frame| frame.to_frame());
        if let Err(refusal) = &given {
            last_fields(refusal);
            met[usize::from(refusal.number)] = true;
        }
        assert_eq!(said(&given, &room), case.said, "{line}");
        cases += 1;
    }
    assert!(cases > 10_000, "{cases} cases");
    assert_eq!(met.iter().filter(|met| **met).count(), REFUSALS.len());
}
