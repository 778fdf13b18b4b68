//! A session in Rust, with both sides and their stores in one program; and what a power cut and damaged bytes do.
use lilmorask::*;

/// A store in memory, whose power can be cut after so many writes.
struct Store<const BOTH: usize> {
    area: [u8; BOTH],
    medium: Flash<BOTH>,
}

struct Flash<const BOTH: usize> {
    bytes: [u8; BOTH],
    writes_left: usize,
}

#[derive(Debug)]
struct PowerCut;

impl<const BOTH: usize> Medium for Flash<BOTH> {
    type Error = PowerCut;

    fn write(&mut self, at: usize, bytes: &[u8]) -> Result<(), PowerCut> {
        if self.writes_left == 0 {
            return Err(PowerCut);
        }
        self.writes_left -= 1;
        self.bytes[at..at + bytes.len()].copy_from_slice(bytes);
        Ok(())
    }

    fn barrier(&mut self) -> Result<(), PowerCut> {
        Ok(())
    }
}

impl<const BOTH: usize> Store<BOTH> {
    fn new() -> Self {
        Store { area: [0; BOTH], medium: Flash { bytes: [0; BOTH], writes_left: usize::MAX } }
    }

    fn put(&mut self, image: &[u8]) -> Result<(), PowerCut> {
        Slots(&mut self.area).seal(image).expect("a seal").written(&mut self.medium)
    }

    /// What the medium has after a boot.
    fn newest(&mut self, image: &mut [u8]) -> Result<(), Refused> {
        self.area = self.medium.bytes;
        Slots(&mut self.area).newest(image)
    }
}

type PressStore = Store<{ both_slots(PRESS_IMAGE) }>;
type ServerStore = Store<{ both_slots(SERVER_IMAGE) }>;

fn session(press: &mut Press, kept: &mut PressStore, server: &mut Server, kept_there: &mut ServerStore) {
    let (mut up, mut down) = (vec![0; MESSAGE], vec![0; MESSAGE]);
    let mut message = press.start(&mut up).unwrap().stored(|i| kept.put(i)).unwrap().to_vec();
    while !message.is_empty() {
        println!("sent: {:?}", changes(&message).unwrap());
        let answer = server.takes(&message, &mut down).unwrap().stored(|i| kept_there.put(i)).unwrap();
        println!("received: {:?}", changes(answer).unwrap());
        message = press.takes(answer, &mut up).unwrap().stored(|i| kept.put(i)).unwrap().to_vec();
    }
}

/// An edit is cut at each of its three writes: what the store then has is the card before it, or after it.
fn cut_edits(press: &Press, kept: &mut PressStore) {
    for writes in 0..=3 {
        let mut image = *press.image();
        kept.put(&image).unwrap();
        let mut edited = Press::boots(&image).unwrap();
        kept.medium.writes_left = writes;
        let told = edited.edit(1, b"Sepia").unwrap().stored(|i| kept.put(i));
        kept.medium.writes_left = usize::MAX;
        kept.newest(&mut image).unwrap();
        let card = Press::boots(&image).unwrap().card(0).unwrap();
        println!("{writes} writes: told {told:?}, stored {:?}", std::str::from_utf8(card.text.bytes()).unwrap());
    }
}

/// How many of the images that differ from one in a bit are refused.
fn one_bit_each(press: &Press) -> usize {
    let mut image = *press.image();
    let mut refused = 0;
    for bit in 0..8 * PRESS_IMAGE {
        image[bit / 8] ^= 1 << (bit % 8);
        refused += Press::boots(&image).is_err() as usize;
        image[bit / 8] ^= 1 << (bit % 8);
    }
    refused
}

fn refusals(press: &mut Press) {
    assert_eq!(Press::fresh(0).err(), Some(Refused::TextRule));
    assert_eq!(Press::boots(&[0; 5]).err(), Some(Refused::NoImage));
    assert_eq!(press.add(&[7; 3]).err(), Some(Refused::TextRule));
    assert_eq!(press.delete(99).err(), Some(Refused::NoCard));
    assert_eq!((press.card(0), press.card(PLACES)), (None, None));
    assert_eq!(changes(b"<SyncML/>"), Err(Refused::NoMessage));
    assert_eq!(Slots(&mut [0; 20]).newest(&mut [0; 1]), Err(Refused::NoImage));
    assert_eq!((Press::form(press.image()), Server::form(press.image())), (1, 0));
}

fn main() {
    let (mut press, mut server) = (Press::fresh(7).unwrap(), Server::fresh());
    let (mut kept, mut kept_there) = (PressStore::new(), ServerStore::new());
    refusals(&mut press);
    press.add(b"Brown").unwrap().stored(|i| kept.put(i)).unwrap();
    server.add(b"Beige").unwrap().stored(|i| kept_there.put(i)).unwrap();
    server.press_wins(false).stored(|i| kept_there.put(i)).unwrap();
    session(&mut press, &mut kept, &mut server, &mut kept_there);
    for place in 0..PLACES {
        if let (Some(card), Some(record)) = (press.card(place), server.record(place)) {
            println!("place {place}: card {} {:?}, record {} {:?}", card.luid, card.mark, record.guid, record.mark);
        }
    }
    cut_edits(&press, &mut kept);
    println!("{} of {} images with one bit turned are refused", one_bit_each(&press), 8 * PRESS_IMAGE);
}
