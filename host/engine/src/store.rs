//! The store: all of the engine's state over lent bytes.
//!
//! | Bytes | What |
//! |---|---|
//! | 0 | product |
//! | 1 | alarm number |
//! | 2 | 1 if an upload was begun, else 0 |
//! | 3 | 1 if an alarm walk was begun, else 0 |
//! | 4-7 | first bitmap byte of each Ethernet UNI |
//! | 8-11 | the same, frozen by the alarm walk |
//! | 12-51 | first 40 bytes of the remembered command |
//! | 52-99 | the reply to it |
//! | 100-1642 | the table |
//! | 1643-3185 | the table frozen by the upload, with class 2 left out |
//!
//! What isn't there is all zero: a remembered command can't have correlation
//! id 0, so it needs no mark of its own.

use crate::catalogue::{Product, MOST_UNIS};
use crate::drops::Drop;
use crate::message::{Command, HEAD_SIZE, MESSAGE_SIZE};
use crate::sound;
use crate::table::{self, Table, TableMut};

const PRODUCT_AT: usize = 0;
const ALARM_NUMBER_AT: usize = 1;
const UPLOAD_BEGUN_AT: usize = 2;
const ALARM_WALK_BEGUN_AT: usize = 3;
const ALARMS_AT: usize = 4;
const FROZEN_ALARMS_AT: usize = ALARMS_AT + MOST_UNIS;
const COMMAND_AT: usize = FROZEN_ALARMS_AT + MOST_UNIS;
const REPLY_AT: usize = COMMAND_AT + HEAD_SIZE;
const TABLE_AT: usize = REPLY_AT + MESSAGE_SIZE;
const FROZEN_TABLE_AT: usize = TABLE_AT + table::SIZE;

/// The bytes of a store.
pub const SIZE: usize = FROZEN_TABLE_AT + table::SIZE;

/// The first bitmap byte of each Ethernet UNI.
pub type Bitmaps = [u8; MOST_UNIS];

/// A store whose state is used.
pub struct Store<'a> {
    product: Product,
    bytes: &'a mut [u8; SIZE],
}

impl<'a> Store<'a> {
    /// Opens a lent store if it is sound.
    pub fn open(lent: &'a mut [u8]) -> Result<Store<'a>, Drop> {
        let store = Store::trust(lent)?;
        if !sound::is_sound(&store.view()) {
            return Err(Drop::StoreUnsound);
        }
        Ok(store)
    }

    /// Opens a lent store without a test, except for its length and product.
    pub fn trust(lent: &'a mut [u8]) -> Result<Store<'a>, Drop> {
        let bytes: &mut [u8; SIZE] = lent.first_chunk_mut().ok_or(Drop::StoreUnsound)?;
        let product = Product::from_number(bytes[PRODUCT_AT]).ok_or(Drop::StoreUnsound)?;
        Ok(Store { product, bytes })
    }

    /// Writes a product's fresh state into a lent store.
    pub fn fresh(lent: &'a mut [u8], product: u8) -> Result<Store<'a>, Drop> {
        let bytes: &mut [u8; SIZE] = lent.first_chunk_mut().ok_or(Drop::StoreUnsound)?;
        let product = Product::from_number(product).ok_or(Drop::NotReportable)?;
        bytes.fill(0);
        bytes[PRODUCT_AT] = product.number();
        let mut store = Store { product, bytes };
        store.table_mut().write_fresh();
        Ok(store)
    }

    /// The store for reading alone.
    pub fn view(&self) -> View<'_> {
        View { product: self.product, bytes: self.bytes }
    }

    /// The product that was powered on.
    pub fn product(&self) -> Product {
        self.product
    }

    /// The table.
    pub fn table(&self) -> Table<'_> {
        self.view().table()
    }

    /// The table, for changes.
    pub fn table_mut(&mut self) -> TableMut<'_> {
        TableMut::new(self.product, part_mut(self.bytes, TABLE_AT))
    }

    /// Moves the sync counter on.
    pub fn count_change(&mut self) {
        let next = next_number(self.table().counter());
        self.table_mut().set_counter(next);
    }

    /// The remembered reply, if this command repeats the last one.
    pub fn reply_to_repeat(&self, command: &Command) -> Option<[u8; MESSAGE_SIZE]> {
        let view = self.view();
        (view.remembered_head() == command.head()).then(|| *view.remembered_reply())
    }

    /// Remembers the last answered command and its reply.
    pub fn remember(&mut self, command: &Command, reply: &[u8; MESSAGE_SIZE]) {
        *part_mut(self.bytes, COMMAND_AT) = *command.head();
        *part_mut(self.bytes, REPLY_AT) = *reply;
    }

    /// Freezes the table for an upload. Class 2 is left out: it isn't shown,
    /// and a frozen counter would give one state two encodings.
    pub fn begin_upload(&mut self) {
        self.bytes.copy_within(TABLE_AT..TABLE_AT + table::SIZE, FROZEN_TABLE_AT);
        TableMut::new(self.product, part_mut(self.bytes, FROZEN_TABLE_AT)).set_counter(0);
        self.bytes[UPLOAD_BEGUN_AT] = 1;
    }

    /// The table that the last upload froze, if one was begun.
    pub fn frozen_table(&self) -> Option<Table<'_>> {
        let view = self.view();
        (view.upload_mark() == 1).then(|| view.frozen_table())
    }

    /// The bitmaps of the Ethernet UNIs.
    pub fn alarms(&self) -> &Bitmaps {
        self.view().alarms()
    }

    /// The bitmaps of the Ethernet UNIs, for changes.
    pub fn alarms_mut(&mut self) -> &mut Bitmaps {
        part_mut(self.bytes, ALARMS_AT)
    }

    /// Freezes the alarms for an alarm walk, which sets the alarm number to 0.
    pub fn begin_alarm_walk(&mut self) {
        self.bytes.copy_within(ALARMS_AT..ALARMS_AT + MOST_UNIS, FROZEN_ALARMS_AT);
        self.bytes[ALARM_WALK_BEGUN_AT] = 1;
        self.bytes[ALARM_NUMBER_AT] = 0;
    }

    /// The bitmaps that the last alarm walk froze, if one was begun.
    pub fn frozen_alarms(&self) -> Option<&Bitmaps> {
        let view = self.view();
        (view.alarm_walk_mark() == 1).then(|| view.frozen_alarms())
    }

    /// Moves the alarm number on, as each alarm notification first does.
    pub fn next_alarm_number(&mut self) -> u8 {
        self.bytes[ALARM_NUMBER_AT] = next_number(self.bytes[ALARM_NUMBER_AT]);
        self.bytes[ALARM_NUMBER_AT]
    }

    /// What MIB reset does: the table is reset and both walks end, while the
    /// alarms and the alarm number stay.
    pub fn reset(&mut self) {
        self.table_mut().reset();
        self.bytes[FROZEN_TABLE_AT..FROZEN_TABLE_AT + table::SIZE].fill(0);
        self.bytes[UPLOAD_BEGUN_AT] = 0;
        self.bytes[FROZEN_ALARMS_AT..FROZEN_ALARMS_AT + MOST_UNIS].fill(0);
        self.bytes[ALARM_WALK_BEGUN_AT] = 0;
    }
}

/// A store that is only read, sound or not.
#[derive(Clone, Copy)]
pub struct View<'a> {
    product: Product,
    bytes: &'a [u8; SIZE],
}

impl<'a> View<'a> {
    /// The product.
    pub fn product(self) -> Product {
        self.product
    }

    /// The mark of an upload.
    pub fn upload_mark(self) -> u8 {
        self.bytes[UPLOAD_BEGUN_AT]
    }

    /// The mark of an alarm walk.
    pub fn alarm_walk_mark(self) -> u8 {
        self.bytes[ALARM_WALK_BEGUN_AT]
    }

    /// The bitmaps.
    pub fn alarms(self) -> &'a Bitmaps {
        part(self.bytes, ALARMS_AT)
    }

    /// The frozen bitmaps.
    pub fn frozen_alarms(self) -> &'a Bitmaps {
        part(self.bytes, FROZEN_ALARMS_AT)
    }

    /// The first 40 bytes of the remembered command.
    pub fn remembered_head(self) -> &'a [u8; HEAD_SIZE] {
        part(self.bytes, COMMAND_AT)
    }

    /// The reply to the remembered command.
    pub fn remembered_reply(self) -> &'a [u8; MESSAGE_SIZE] {
        part(self.bytes, REPLY_AT)
    }

    /// The table.
    pub fn table(self) -> Table<'a> {
        Table::new(self.product, part(self.bytes, TABLE_AT))
    }

    /// The frozen table.
    pub fn frozen_table(self) -> Table<'a> {
        Table::new(self.product, part(self.bytes, FROZEN_TABLE_AT))
    }
}

/// The number after this one: 254 to 255, 255 to 1, never to 0.
pub fn next_number(number: u8) -> u8 {
    match number.wrapping_add(1) {
        0 => 1,
        next => next,
    }
}

fn part<const N: usize>(bytes: &[u8; SIZE], at: usize) -> &[u8; N] {
    bytes[at..at + N].try_into().expect("the range has the part's length")
}

fn part_mut<const N: usize>(bytes: &mut [u8; SIZE], at: usize) -> &mut [u8; N] {
    (&mut bytes[at..at + N]).try_into().expect("the range has the part's length")
}
