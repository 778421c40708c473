//! fuzz [OPTION..] [FOLDER..]: libFuzzer's own program, which calls the functions below. Each input is given to the original, which alone
//! counts its branches, to the judge, which is held against the original in every way that judge/src/agree.rs knows, and to the port. A
//! difference stops the program, and libFuzzer keeps the input. At its end it prints how many inputs there were by refusal. Where the
//! environment variables COVERED and LISTED name a folder of inputs and a list of cases, it only tells what these cover.
#![no_main]

mod covered;
mod input;
#[path = "../../../rust/src/layout.rs"]
#[allow(dead_code)]
mod layout;
mod mutate;
#[path = "../../../rust/src/raw.rs"]
#[allow(dead_code)]
mod raw;

use input::Input;
use judge::agree::{fresh_room, Judge};
use judge::cut::{MANY_ROWS, REFUSALS};
use judge::layout::{row_at, ROW};
use judge::names;
use judge::rng::Rng;
use original::syntax::Field;
use std::cell::RefCell;
use std::sync::atomic::{AtomicUsize, Ordering};

/// Inputs by refusal; 0 are the accepted ones.
static MET: [AtomicUsize; REFUSALS as usize + 1] =
    [const { AtomicUsize::new(0) }; REFUSALS as usize + 1];

thread_local! {
    static JUDGE: RefCell<Judge> = RefCell::new(Judge::default());
    static ROOM: RefCell<Vec<i32>> = RefCell::new(vec![0; MANY_ROWS * ROW]);
}

/// What a field of the original and a row of the port both say.
fn same(field: &Field, row: &[i32]) -> bool {
    let Field {
        name,
        block,
        index,
        pos,
        width,
        value,
        ..
    } = *field;
    let told = [
        block.into(),
        index.into(),
        pos as i32,
        width as i32,
        value as i32,
    ];
    let at = [
        row_at::BLOCK,
        row_at::INDEX,
        row_at::POS,
        row_at::WIDTH,
        row_at::VALUE,
    ];
    names::of(row[row_at::NAME]).text == name && at.map(|i| row[i]) == told
}

fn try_one(input: &Input) {
    let (capture, place) = (&input.capture[..], input.place());
    let published = original::ac3::parse(capture.get(place..).unwrap_or(&[]));
    let call = JUDGE.with_borrow_mut(|judge| judge.call(capture, place, input.room()));
    let mut room = fresh_room(call.room.len());
    let (answer, rows) = raw::parse(capture, place, &mut room);
    assert_eq!(answer, call.answer.numbers(), "the answer");
    if let Ok(frame) = published {
        let same = |(field, row)| same(field, row);
        assert!(
            frame.fields.iter().zip(rows.chunks(ROW)).all(same),
            "the original's fields"
        );
    }
    assert!(room == call.room, "the room");
    MET[call.answer.number() as usize].fetch_add(1, Ordering::Relaxed);
}

/// Called by libFuzzer with each input.
///
/// # Safety
/// `data` must point to `size` bytes.
#[no_mangle]
pub unsafe extern "C" fn LLVMFuzzerTestOneInput(data: *const u8, size: usize) -> i32 {
    let data = match size {
        0 => &[],
        // SAFETY: libFuzzer gives a pointer to that many bytes.
        _ => unsafe { std::slice::from_raw_parts(data, size) },
    };
    try_one(&Input::from_bytes(data));
    0
}

/// Called by libFuzzer for another input of this one; gives its size.
///
/// # Safety
/// `data` must point to `most` bytes, the first `size` of which are an input.
#[no_mangle]
pub unsafe extern "C" fn LLVMFuzzerCustomMutator(
    data: *mut u8,
    size: usize,
    most: usize,
    seed: u32,
) -> usize {
    // SAFETY: libFuzzer gives a pointer to that many bytes, and does not touch them during the call.
    let data = unsafe { std::slice::from_raw_parts_mut(data, most) };
    let mut rng = Rng(seed.into());
    let input = Input::from_bytes(&data[..size]);
    let made = ROOM.with_borrow_mut(|room| mutate::mutated(&mut rng, &input, room));
    let Some(made) = made else { return size };
    let made = made.to_bytes();
    let size = made.len().min(most);
    data[..size].copy_from_slice(&made[..size]);
    size
}

extern "C" fn tell() {
    let met = MET.each_ref().map(|n| n.load(Ordering::Relaxed));
    let inputs: usize = met.iter().sum();
    println!(
        "{inputs} inputs, accepted {}, refused by number {:?}",
        met[0],
        &met[1..]
    );
    println!("0 differences");
}

extern "C" {
    fn atexit(called: extern "C" fn()) -> i32;
}

/// Called by libFuzzer once, first.
#[no_mangle]
pub extern "C" fn LLVMFuzzerInitialize(_: *mut i32, _: *mut *mut *mut i8) -> i32 {
    if let (Ok(folder), Ok(list)) = (std::env::var("COVERED"), std::env::var("LISTED")) {
        covered::tell(&folder, &list);
        std::process::exit(0);
    }
    // SAFETY: `tell` takes nothing, and is there until the program ends.
    unsafe { atexit(tell) }
}
