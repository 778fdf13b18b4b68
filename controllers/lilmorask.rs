//! Lilmorask for Rust: a press or a server that owns its image, and a store of two slots. No heap, no_std.
//!
//! What has to be stored before an answer is sent, or before a person is told, comes out of a value only by storing:
//! the order that keeps the tables in step over a power cut is a matter of types. Link with the archives that are used:
//! `-l static=lilmorask_press`, `-l static=lilmorask_server`, `-l static=lilmorask_store`. Tried on x86-64 alone.
#![no_std]

pub const PRESS_IMAGE: usize = 1568;
pub const SERVER_IMAGE: usize = 1312;
pub const SLOT_TAIL: usize = 9;
pub const MESSAGE: usize = 32768;
pub const TEXT: usize = 24;
pub const PLACES: u32 = 32;

/// How many bytes two slots of an image of so many bytes have.
pub const fn both_slots(image: usize) -> usize {
    2 * (image + SLOT_TAIL)
}

/// Why a call was refused; nothing that was lent has changed.
#[derive(Clone, Copy, Debug, PartialEq, Eq)]
pub enum Refused {
    Open,
    Spent,
    NoCard,
    TextRule,
    Other,
    OldSession,
    NoMessage,
    Rules,
    NoRoom,
    NoImage,
    Damaged,
}

fn told(number: u32) -> Result<(), Refused> {
    Err(match number {
        0 => return Ok(()),
        1 => Refused::Open,
        2 => Refused::Spent,
        3 => Refused::NoCard,
        4 => Refused::TextRule,
        5 => Refused::Other,
        6 => Refused::OldSession,
        7 => Refused::NoMessage,
        8 => Refused::Rules,
        9 => Refused::NoRoom,
        11 => Refused::Damaged,
        _ => Refused::NoImage,
    })
}

// ---- the archives, as lilmorask.h has them: a slice is a pointer and a length, and nothing checks these lines

type Size = u64; // of a length, also where a usize has 32 bits
type CardNumbers = [u32; 9];
type RecordNumbers = [u32; 6];
type ChangesNumbers = [u32; 3];

#[rustfmt::skip]
extern "C" {
    fn lil_press_fresh(image: *mut u8, n: Size, station: u8) -> u32;
    fn lil_press_form(bytes: *const u8, n: Size) -> u32;
    fn lil_press_add(image: *mut u8, n: Size, text: *const u8, length: Size, number: *mut u32) -> u32;
    fn lil_press_edit(image: *mut u8, n: Size, number: u32, text: *const u8, length: Size) -> u32;
    fn lil_press_delete(image: *mut u8, n: Size, number: u32) -> u32;
    fn lil_press_start(image: *mut u8, n: Size, out: *mut u8, room: Size, written: *mut Size) -> u32;
    fn lil_press_takes(image: *mut u8, n: Size, message: *const u8, length: Size,
                       out: *mut u8, room: Size, written: *mut Size) -> u32;
    fn lil_press_gives_up(image: *mut u8, n: Size) -> u32;
    fn lil_press_card(image: *const u8, n: Size, place: u32,
                      numbers: *mut CardNumbers, text: *mut [u8; TEXT]) -> u32;
    fn lil_message_changes(message: *const u8, n: Size, numbers: *mut ChangesNumbers) -> u32;
    fn lil_server_fresh(image: *mut u8, n: Size) -> u32;
    fn lil_server_form(bytes: *const u8, n: Size) -> u32;
    fn lil_server_add(image: *mut u8, n: Size, text: *const u8, length: Size, number: *mut u32) -> u32;
    fn lil_server_edit(image: *mut u8, n: Size, number: u32, text: *const u8, length: Size) -> u32;
    fn lil_server_delete(image: *mut u8, n: Size, number: u32) -> u32;
    fn lil_server_takes(image: *mut u8, n: Size, message: *const u8, length: Size,
                        out: *mut u8, room: Size, written: *mut Size) -> u32;
    fn lil_server_gives_up(image: *mut u8, n: Size) -> u32;
    fn lil_server_goes_by(image: *mut u8, n: Size, rule: u8) -> u32;
    fn lil_server_record(image: *const u8, n: Size, place: u32,
                         numbers: *mut RecordNumbers, text: *mut [u8; TEXT]) -> u32;
    fn lil_slots_newest(slots: *const u8, n: Size, image: *mut u8, m: Size) -> u32;
    fn lil_slots_seal(slots: *mut u8, n: Size, image: *const u8, m: Size, at: *mut Size) -> u32;
}

// ---- what has to be stored first

/// A message to send, which is only to be had by storing.
#[must_use]
pub struct Answer<'a> {
    image: &'a [u8],
    message: &'a [u8],
}

impl<'a> Answer<'a> {
    /// Stores the image, and then hands out the message; an empty one is none. Where storing fails, boot again.
    pub fn stored<E>(self, store: impl FnOnce(&[u8]) -> Result<(), E>) -> Result<&'a [u8], E> {
        store(self.image)?;
        Ok(self.message)
    }
}

/// An edit by a person, who is to be told of it after it is stored.
#[must_use]
pub struct Edited<'a> {
    image: &'a [u8],
    number: u32,
}

impl Edited<'_> {
    /// Stores the image, and then tells the number of the card or record. Where storing fails, boot again.
    pub fn stored<E>(self, store: impl FnOnce(&[u8]) -> Result<(), E>) -> Result<u32, E> {
        store(self.image)?;
        Ok(self.number)
    }
}

// ---- what is seen of a side

/// A text of at most 24 bytes.
#[derive(Clone, Copy, Debug, PartialEq, Eq)]
pub struct Text {
    bytes: [u8; TEXT],
    length: u8,
}

impl Text {
    pub fn bytes(&self) -> &[u8] {
        &self.bytes[..self.length as usize]
    }
}

#[derive(Clone, Copy, Debug, PartialEq, Eq)]
pub enum CardMark {
    Clean,
    Added,
    Changed,
    Deleted,
}

#[derive(Clone, Copy, Debug, PartialEq, Eq)]
pub enum RecordMark {
    Clean,
    Dirty,
    Offered,
    Deleted,
}

#[derive(Clone, Copy, Debug, PartialEq, Eq)]
pub struct Report {
    pub guid: u32,
    pub luid: u32,
    pub fp: u32,
}

/// What stands at a place of a press.
#[derive(Clone, Copy, Debug, PartialEq, Eq)]
pub struct Card {
    pub luid: u32,
    pub fp: u32,
    pub mark: CardMark,
    pub report: Option<Report>,
    pub station: u8,
    pub text: Text,
}

/// What stands at a place of a server.
#[derive(Clone, Copy, Debug, PartialEq, Eq)]
pub struct Record {
    pub guid: u32,
    pub luid: Option<u32>,
    pub known: u32,
    pub mark: RecordMark,
    pub station: u8,
    pub text: Text,
}

/// What a panel shows of a message; Pkg 3 and Pkg 4 have a number of changes.
#[derive(Clone, Copy, Debug, PartialEq, Eq)]
pub struct Shown {
    pub package: u32,
    pub changes: Option<u32>,
}

/// Which package a message is, sent or received, and how many changes it has.
pub fn changes(message: &[u8]) -> Result<Shown, Refused> {
    let mut numbers = [0; 3];
    told(unsafe { lil_message_changes(message.as_ptr(), message.len() as Size, &mut numbers) })?;
    let [package, counted, changes] = numbers;
    Ok(Shown { package, changes: (counted == 1).then_some(changes) })
}

fn card_of(numbers: CardNumbers, text: [u8; TEXT]) -> Card {
    let [luid, fp, report_guid, report_luid, report_fp, reported, mark, station, length] = numbers;
    let report = Report { guid: report_guid, luid: report_luid, fp: report_fp };
    Card {
        luid,
        fp,
        mark: match mark {
            0 => CardMark::Clean,
            1 => CardMark::Added,
            2 => CardMark::Changed,
            _ => CardMark::Deleted,
        },
        report: (reported == 1).then_some(report),
        station: station as u8,
        text: Text { bytes: text, length: length as u8 },
    }
}

fn record_of(numbers: RecordNumbers, text: [u8; TEXT]) -> Record {
    let [guid, luid, known, mark, station, length] = numbers;
    Record {
        guid,
        luid: (luid != 0).then_some(luid),
        known,
        mark: match mark {
            0 => RecordMark::Clean,
            1 => RecordMark::Dirty,
            2 => RecordMark::Offered,
            _ => RecordMark::Deleted,
        },
        station: station as u8,
        text: Text { bytes: text, length: length as u8 },
    }
}

// ---- the sides

/// A press. Its image is private, so it is always one; it cannot be copied, so that no old press is called.
pub struct Press([u8; PRESS_IMAGE]);

/// A server. Its image is private, so it is always one; it cannot be copied, so that no old server is called.
pub struct Server([u8; SERVER_IMAGE]);

// what both sides have: boot, image, edits, taking a message, giving up
macro_rules! side {
    ($side:ident, $size:ident, $form:ident, $add:ident, $edit:ident, $delete:ident, $takes:ident, $up:ident) => {
        impl $side {
            /// From a store, after power came back: the session that there was is over.
            pub fn boots(image: &[u8]) -> Result<$side, Refused> {
                let mut side = $side(image.try_into().map_err(|_| Refused::NoImage)?);
                told(unsafe { $up(side.0.as_mut_ptr(), $size as Size) })?;
                Ok(side)
            }

            /// The number of the form that an image of such a side has; 0: it is none.
            pub fn form(bytes: &[u8]) -> u32 {
                unsafe { $form(bytes.as_ptr(), bytes.len() as Size) }
            }

            pub fn image(&self) -> &[u8; $size] {
                &self.0
            }

            pub fn add(&mut self, text: &[u8]) -> Result<Edited<'_>, Refused> {
                let (image, length, mut number) = (self.0.as_mut_ptr(), text.len() as Size, 0);
                told(unsafe { $add(image, $size as Size, text.as_ptr(), length, &mut number) })?;
                Ok(Edited { image: &self.0, number })
            }

            pub fn edit(&mut self, number: u32, text: &[u8]) -> Result<Edited<'_>, Refused> {
                let (image, length) = (self.0.as_mut_ptr(), text.len() as Size);
                told(unsafe { $edit(image, $size as Size, number, text.as_ptr(), length) })?;
                Ok(Edited { image: &self.0, number })
            }

            pub fn delete(&mut self, number: u32) -> Result<Edited<'_>, Refused> {
                told(unsafe { $delete(self.0.as_mut_ptr(), $size as Size, number) })?;
                Ok(Edited { image: &self.0, number })
            }

            pub fn takes<'a>(&'a mut self, message: &[u8], out: &'a mut [u8]) -> Result<Answer<'a>, Refused> {
                let (image, length, mut n) = (self.0.as_mut_ptr(), message.len() as Size, 0);
                let (to, room) = (out.as_mut_ptr(), out.len() as Size);
                told(unsafe { $takes(image, $size as Size, message.as_ptr(), length, to, room, &mut n) })?;
                Ok(Answer { image: &self.0, message: &out[..n as usize] })
            }

            /// The session is over. It need not be stored: a boot gives up too.
            pub fn gives_up(&mut self) {
                unsafe { $up(self.0.as_mut_ptr(), $size as Size) };
            }
        }
    };
}

#[rustfmt::skip]
side!(Press, PRESS_IMAGE, lil_press_form, lil_press_add, lil_press_edit, lil_press_delete, lil_press_takes,
      lil_press_gives_up);
#[rustfmt::skip]
side!(Server, SERVER_IMAGE, lil_server_form, lil_server_add, lil_server_edit, lil_server_delete, lil_server_takes,
      lil_server_gives_up);

impl Press {
    /// A press that has never met a server; its people's edits bear the station, 1 to 255.
    pub fn fresh(station: u8) -> Result<Press, Refused> {
        let mut press = Press([0; PRESS_IMAGE]);
        told(unsafe { lil_press_fresh(press.0.as_mut_ptr(), PRESS_IMAGE as Size, station) })?;
        Ok(press)
    }

    pub fn start<'a>(&'a mut self, out: &'a mut [u8]) -> Result<Answer<'a>, Refused> {
        let (image, to, room, mut n) = (self.0.as_mut_ptr(), out.as_mut_ptr(), out.len() as Size, 0);
        told(unsafe { lil_press_start(image, PRESS_IMAGE as Size, to, room, &mut n) })?;
        Ok(Answer { image: &self.0, message: &out[..n as usize] })
    }

    /// What stands at a place, 0 to 31; None where it is free.
    pub fn card(&self, place: u32) -> Option<Card> {
        let (mut numbers, mut text) = ([0; 9], [0; TEXT]);
        let number = unsafe { lil_press_card(self.0.as_ptr(), PRESS_IMAGE as Size, place, &mut numbers, &mut text) };
        (number == 0).then(|| card_of(numbers, text))
    }
}

impl Server {
    pub fn fresh() -> Server {
        let mut server = Server([0; SERVER_IMAGE]);
        unsafe { lil_server_fresh(server.0.as_mut_ptr(), SERVER_IMAGE as Size) };
        server
    }

    /// Whose text wins when both sides have edited a card. It is stored as an edit is; its number is 0.
    pub fn press_wins(&mut self, yes: bool) -> Edited<'_> {
        unsafe { lil_server_goes_by(self.0.as_mut_ptr(), SERVER_IMAGE as Size, !yes as u8) };
        Edited { image: &self.0, number: 0 }
    }

    /// What stands at a place, 0 to 31; None where it is free.
    pub fn record(&self, place: u32) -> Option<Record> {
        let (mut numbers, mut text) = ([0; 6], [0; TEXT]);
        let image = self.0.as_ptr();
        let number = unsafe { lil_server_record(image, SERVER_IMAGE as Size, place, &mut numbers, &mut text) };
        (number == 0).then(|| record_of(numbers, text))
    }
}

// ---- a store of two slots

/// What slots are written to, by its place in the area of both.
pub trait Medium {
    type Error;
    fn write(&mut self, at: usize, bytes: &[u8]) -> Result<(), Self::Error>;
    /// What was written before is there before anything that is written after.
    fn barrier(&mut self) -> Result<(), Self::Error>;
}

/// Both slots, one after the other, in a lent area that has what the medium has.
pub struct Slots<'a>(pub &'a mut [u8]);

/// A slot that is sealed in the area, and not yet written to the medium.
#[must_use]
pub struct Sealed<'a> {
    at: usize,
    slot: &'a mut [u8],
}

impl Slots<'_> {
    /// The newest image. NoImage: nothing is stored. Damaged: do not go on with the other slot.
    pub fn newest(&self, image: &mut [u8]) -> Result<(), Refused> {
        let (n, m) = (self.0.len() as Size, image.len() as Size);
        told(unsafe { lil_slots_newest(self.0.as_ptr(), n, image.as_mut_ptr(), m) })
    }

    /// The image, sealed into the slot that is not the newest.
    pub fn seal(&mut self, image: &[u8]) -> Result<Sealed<'_>, Refused> {
        let (n, m, mut at) = (self.0.len() as Size, image.len() as Size, 0);
        told(unsafe { lil_slots_seal(self.0.as_mut_ptr(), n, image.as_ptr(), m, &mut at) })?;
        let at = at as usize;
        Ok(Sealed { at, slot: &mut self.0[at..at + image.len() + SLOT_TAIL] })
    }
}

impl Sealed<'_> {
    /// Writes the slot: mark off, body, mark on, a barrier after each: so a cut leaves the old image or the new.
    pub fn written<M: Medium>(self, medium: &mut M) -> Result<(), M::Error> {
        let (mark, body) = self.slot.split_last_mut().unwrap();
        let done = in_order(medium, self.at, body, *mark);
        if done.is_err() {
            *mark = 0; // the medium may not have this slot: the next one is sealed here again, and the old one stays
        }
        done
    }
}

fn in_order<M: Medium>(medium: &mut M, at: usize, body: &[u8], mark: u8) -> Result<(), M::Error> {
    let end = at + body.len();
    medium.write(end, &[0])?;
    medium.barrier()?;
    medium.write(at, body)?;
    medium.barrier()?;
    medium.write(end, &[mark])?;
    medium.barrier()
}
