//! The same libraries from Rust: the functions of resheftal.h, a safe one over each that takes a buffer, and a short row of events through them; the
//! store is example.c's matter. The safe functions ask for nothing: a slice has its length, slices lent with `&mut` do not overlap, and
//! the rest gets its number.

const INTERFACE: u32 = 1;
const IMAGE_SIZE: usize = 42;
const ACTION_SIZE: usize = 5;
const ACTION_ROOM: usize = 20;
const PER_PLACE: usize = 16;
const FLEET_TRIES: u32 = 3;

/// The number of a refusal, as resheftal.h names them.
#[derive(Debug, PartialEq)]
struct Refused(i32);

extern "C" {
    fn resheftal_interface() -> u32;
    fn resheftal_cold_start(lowest: u32, highest: u32, tries: u32, image: *mut u8, image_length: u64) -> i32;
    fn resheftal_step(
        image: *mut u8,
        image_length: u64,
        record: *const u8,
        record_length: u64,
        actions: *mut u8,
        actions_length: u64,
    ) -> i32;
    fn resheftal_reads(image: *const u8, image_length: u64) -> i32;
    fn resheftal_standing(image: *const u8, image_length: u64, record: *const u8, record_length: u64) -> i32;
}

/// What an answer of the library counts, or the refusal that it says.
fn answer(number: i32) -> Result<usize, Refused> {
    usize::try_from(number).map_err(|_| Refused(-number))
}

/// Writes the image of a cold start to the front of a buffer.
fn cold_start(lowest: u32, highest: u32, tries: u32, image: &mut [u8]) -> Result<(), Refused> {
    // SAFETY: the pointer has as many bytes as the length says.
    answer(unsafe { resheftal_cold_start(lowest, highest, tries, image.as_mut_ptr(), image.len() as u64) }).map(|_| ())
}

/// One step on an image: the actions, five bytes each, at the front of the buffer that was lent for them.
fn step<'a>(image: &mut [u8], record: &[u8], actions: &'a mut [u8]) -> Result<&'a [u8], Refused> {
    // SAFETY: each pointer has as many bytes as its length says, and the three slices do not overlap.
    let number = unsafe {
        resheftal_step(
            image.as_mut_ptr(),
            image.len() as u64,
            record.as_ptr(),
            record.len() as u64,
            actions.as_mut_ptr(),
            actions.len() as u64,
        )
    };
    answer(number).map(move |count| &actions[..ACTION_SIZE * count])
}

/// Whether an image can be read.
fn reads(image: &[u8]) -> Result<(), Refused> {
    // SAFETY: the pointer has as many bytes as the length says.
    answer(unsafe { resheftal_reads(image.as_ptr(), image.len() as u64) }).map(|_| ())
}

/// The place and the phase of the partner of a record that a step on this image would refuse with 5, or with 7 for its phase.
fn standing(image: &[u8], record: &[u8]) -> Result<Option<(usize, usize)>, Refused> {
    // SAFETY: each pointer has as many bytes as its length says.
    let number = unsafe { resheftal_standing(image.as_ptr(), image.len() as u64, record.as_ptr(), record.len() as u64) };
    answer(number).map(|n| (n > 0).then(|| (n / PER_PLACE, n % PER_PLACE)))
}

fn main() -> Result<(), Refused> {
    // SAFETY: it takes nothing.
    assert_eq!(unsafe { resheftal_interface() }, INTERFACE, "this library is not the header's");
    let queue: [&[u8]; 8] = [
        &[5, 0, 0, 0, 5, 1, 1],
        &[8, 0, 0, 0, 5],
        &[10, 0, 0, 0, 5],
        &[11, 0, 0, 0, 5, 32, 0x11],
        &[10, 0, 0, 0, 5],
        &[11, 0],
        &[7, 0],
        &[11, 0, 0, 0, 5, 39, 0],
    ];
    let mut image = [0; IMAGE_SIZE];
    if reads(&image).is_err() {
        cold_start(1, 2, FLEET_TRIES, &mut image)?;
        println!("cold start: 0");
    }
    for record in queue {
        print!("kind {}:", record[0]);
        match step(&mut image, record, &mut [0; ACTION_ROOM]) {
            Ok(sent) => {
                for a in sent.chunks(ACTION_SIZE) {
                    print!(" {}:{}/{}", a[0], a[1], u32::from_be_bytes([0, a[2], a[3], a[4]]));
                }
                println!();
            }
            Err(Refused(number)) => match standing(&image, record)? {
                Some((place, phase)) => println!(" refused, {number}, place {place}, phase {phase}"),
                None => println!(" refused, {number}"),
            },
        }
    }
    Ok(())
}
