//! Variants with one rule put in another's place, or blind to one fault.

use super::Named;
use crate::calls::{self, Served, Ticked};
use crate::clock::{Clock, Weeks, SMALL_STEP_BACK};
use crate::fault::Fault;
use crate::generate::Widths;
use crate::name::{self, Compared};
use crate::query::{LlqNumber, LlqOption, Question, Sender};
use crate::rules::{error, Allowance, Law, Rules, UNLISTED};
use crate::server::{Oracle, Server};
use crate::table::{self, Entry, Table};
use std::cell::Cell;
use Wrong::*;

macro_rules! wrong {
    ($($(#[$said:meta])* $name:ident)*) => {
        /// What is wrong.
        #[derive(Clone, Copy, PartialEq, Eq, Debug)]
        enum Wrong {
            /// A fault goes unseen.
            BlindTo(Fault),
            /// A byte that does not fold comes out as another, and all others as they should.
            FoldWrongAt(u8),
            /// The same, but only when names are compared; they are stored as they should be.
            FoldWrongAtWhenComparing(u8),
            $($(#[$said])* $name,)*
        }

        const WRONG: &[Wrong] = &[$($name),*];
    };
}

wrong! {
    // The old box's five faults.
    /// The count is compared with stamp plus lease, so that a wrap kills live entries.
    OldBoxStampPlusLease
    /// Whenever a slot is free it is granted.
    OldBoxNoReserve
    /// Entries are found by number alone.
    OldBoxNumberAlone
    /// Pending entries are thrown out after half of their lease.
    OldBoxPendingEarly
    /// Holdings count by address and port.
    OldBoxHoldingsByPort

    // Document 01's impostor.
    FullToEveryone

    // The clock. Those named Step are wrong on tables for weeks of ten bits, and each once more on
    // those for weeks of thirteen bits (ON_EITHER).
    /// Half a cycle is a step forward.
    StepTieForward
    /// The longest step forward is one backward.
    StepLongestBackward
    /// The week counter's roll-over is a step back.
    StepNoRollOver
    /// Every step back changes nothing.
    StepBackChangesNothing
    /// Every step back keeps the place.
    StepBackKeepsPlace
    StepBack60KeepsPlace
    StepBack61ChangesNothing
    StepBackHalfCycleChangesNothing
    /// Over the cycle's end a small step back is a large one, by the places' own difference.
    StepBackByPlaces
    /// A small step back is added to the count, and its place is kept.
    SmallStepBackCounts
    /// A large step back is added to the count as well.
    LargeStepBackCounts
    /// A large step back is the rest of the cycle forward.
    LargeStepBackForward
    LargeStepBackFreesAll
    /// The running count stops at its end.
    CountSaturates
    /// The running count wraps at 2^31.
    CountOf31Bits
    /// Run out one second late.
    RunOutLate
    /// Run out one second early.
    RunOutEarly
    RunOutNever
    RunOutEstablishedOnly

    // Weeks of ten bits, on tables for these.
    /// Weeks to 8,191 are taken, and a place past the cycle is kept.
    TenBitsTakeWeek1024
    TenBitsTakeWeeksModulo1024

    // Weeks of thirteen bits, on tables for these.
    /// The clock moves over the cycle of ten bits.
    ThirteenBitsOverTenBitCycle
    /// A step of 2^31 or more is one back, as it is in 32 bits with a sign.
    ThirteenBitsStepOf32BitsBack
    /// A step back of more than 2^31 is one forward, as it is in 32 bits with a sign.
    ThirteenBitsStepOf32BitsForward
    /// Of the place 32 bits are kept.
    ThirteenBitsPlaceOf32Bits
    /// A making writes kind 0x01.
    ThirteenBitsMadeOfKind1
    /// Week 8,192 is week 0 again.
    ThirteenBitsTakeWeek8192
    ThirteenBitsRefuseWeek1024
    /// A week of up to 1,023 is one of ten bits, and the nearest such week to the last place is meant.
    ThirteenBitsGuessTheEpoch

    // Names and questions.
    FoldNothing
    /// Latin-1 letters are folded too.
    FoldPast127
    FoldBeforeA
    FoldAfterZ
    FoldNotZ
    /// A name is stored as it was sent.
    FoldWhenComparingOnly
    /// A name is compared as it was sent.
    FoldWhenStoringOnly
    /// The byte before a name's final zero is not compared.
    NameButForItsLastByte
    NameFirst64Bytes
    NameLength
    HoldingAnyType
    HoldingAnyClass
    HoldingAnyPort
    HoldingLowHalfOfAddress
    /// A setup does not find established entries.
    SetupFindsPendingOnly

    // The lease that a response sends, beside the life that remains and the granted lease.
    ResponseAnyLease
    /// Its upper 16 bits are not looked at.
    ResponseLeaseOf16Bits
    /// No longer than the granted lease, 0 too.
    ResponseLeaseAtMost
    /// No longer than the granted lease, but not 0.
    ResponseLeaseNoLowerEnd
    /// No shorter than what remains.
    ResponseLeaseNoUpperEnd
    ResponseLeaseGrantedOnly
    ResponseLeaseRemainingOnly
    /// What remains is too short already.
    ResponseLeaseLowerEndOpen
    /// The granted lease is too long already.
    ResponseLeaseUpperEndOpen
    /// One second under what remains is right too.
    ResponseLeaseOneUnder
    /// One second over the granted lease is right too.
    ResponseLeaseOneOver
    /// The span of a pending entry; of an established one the granted lease alone.
    ResponseSpanPendingOnly
    /// The span of an established entry; of a pending one the granted lease alone.
    ResponseSpanEstablishedOnly

    // The lease that a setup or response is told of an entry.
    SetupTellsGranted
    SetupTellsGrantedIfPending
    SetupTellsGrantedIfEstablished
    ResponseTellsGranted
    ResponseTellsSent
    /// Age is counted from the lease sent.
    ResponseTellsSentLessAge

    // Response and refresh.
    ResponseAnyNumber
    ResponseNumberLowHalf
    ResponseNumberHighHalf
    ResponseAnyQuestion
    ResponseAnyPort
    ResponseAnyAddress
    ResponsePendingOnly
    RefreshPendingToo
    RefreshAnyNumber
    RefreshNumberLowHalf
    RefreshAnyPort
    RefreshAnyAddress
    RefreshAnyQuestion

    // Shares, limits and the reserve.
    HeldByLowHalf
    HeldByHighHalf
    UnlistedLimitFive
    UnlistedNoLimit
    /// The last of sixteen lines is not looked at.
    FifteenLines
    /// Whole shares are reserved, whatever is held of them.
    ReserveWholeShares
    /// A line that holds more than its share lowers the reserve.
    ReserveNegative
    FullFreeUnderReserve
    FullOverLimit
    FullNoLimit
    FullOverShare
    /// An address below its share is told "full".
    FullBelowShare

    // Grants.
    HighestFreeSlot
    LeaseNotRaised
    LeaseNotLowered
    LeaseOf61
    LeaseOf7201
    NumberZeroGranted
    NumberInUseGranted
    NumberDownwards
    /// The search ends one number further on.
    NumberOneFurther

    // Options that are not well-formed.
    FormatBeforeVersion
    AnyVersion
    AnyError
    OpcodeThreeRead
    BadOpcodeUnknown
}

thread_local! {
    static NOW: Cell<Wrong> = const { Cell::new(FullToEveryone) };
    /// The clock's last move was a large step back.
    static SET_BACK: Cell<bool> = const { Cell::new(false) };
}

fn now() -> Wrong {
    NOW.get()
}

/// The rules with the one wrong that is wrong now.
struct Bent;

impl Rules for Bent {
    fn faulty(fault: Fault, found: bool) -> bool {
        found && now() != BlindTo(fault)
    }

    fn clock_kind(weeks: Weeks) -> u8 {
        match (now(), weeks) {
            (ThirteenBitsMadeOfKind1, Weeks::Thirteen) => table::CLOCK,
            _ => Law::clock_kind(weeks),
        }
    }

    fn place(weeks: Weeks, week: u32, second: u32) -> Option<u64> {
        let right = Law::place(weeks, week, second);
        match (now(), weeks) {
            (TenBitsTakeWeek1024, Weeks::Ten) => Law::place(Weeks::Thirteen, week, second),
            (TenBitsTakeWeeksModulo1024, Weeks::Ten) => Law::place(weeks, week % 1_024, second),
            (ThirteenBitsPlaceOf32Bits, Weeks::Thirteen) => right.map(|place| place % (1 << 32)),
            (ThirteenBitsTakeWeek8192, Weeks::Thirteen) if week == 8_192 => {
                Law::place(weeks, 0, second)
            }
            (ThirteenBitsRefuseWeek1024, Weeks::Thirteen) => Law::place(Weeks::Ten, week, second),
            _ => right,
        }
    }

    fn moved(clock: Clock, place: u64) -> Clock {
        let right = clock.moved(place);
        let (weeks, cycle) = (clock.weeks, clock.weeks.cycle());
        let step = weeks.step(clock.place, place);
        let ahead = (place + cycle).wrapping_sub(clock.place) % cycle;
        let small = (-SMALL_STEP_BACK..0).contains(&step);
        let large = step < -SMALL_STEP_BACK;
        SET_BACK.set(large);
        let forward = Clock { place, count: clock.count.wrapping_add(ahead as u32), ..clock };
        let counted = Clock { place, count: clock.count.wrapping_add(step as u32), ..clock };
        let set_back = Clock { place, ..clock };
        match now() {
            StepTieForward if ahead == cycle / 2 => forward,
            StepLongestBackward if ahead == cycle / 2 - 1 => set_back,
            StepNoRollOver if step >= 0 && place < clock.place => set_back,
            StepBackChangesNothing if step < 0 => clock,
            StepBackKeepsPlace if step < 0 => set_back,
            StepBack60KeepsPlace if step == -60 => set_back,
            StepBack61ChangesNothing if step == -61 => clock,
            StepBackHalfCycleChangesNothing if ahead == cycle / 2 => clock,
            StepBackByPlaces if small && place > clock.place => set_back,
            SmallStepBackCounts if small => counted,
            LargeStepBackCounts if large => counted,
            LargeStepBackForward if large => forward,
            CountSaturates if step >= 0 => {
                Clock { place, count: clock.count.saturating_add(step as u32), ..clock }
            }
            CountOf31Bits if step > 0 => Clock { count: right.count & 0x7FFF_FFFF, ..right },
            _ if weeks == Weeks::Ten => right,
            ThirteenBitsOverTenBitCycle => {
                let [from, to] = [clock.place, place].map(|place| place % Weeks::Ten.cycle());
                clock.moved_by(Weeks::Ten.step(from, to), place)
            }
            ThirteenBitsStepOf32BitsBack if step > i32::MAX.into() => {
                clock.moved_by((step as i32).into(), place)
            }
            ThirteenBitsStepOf32BitsForward if step < i32::MIN.into() => {
                clock.moved_by((step as i32).into(), place)
            }
            ThirteenBitsGuessTheEpoch if place < Weeks::Ten.cycle() => {
                let epochs = (0..8).map(|epoch| place + epoch * Weeks::Ten.cycle());
                let nearest = epochs.min_by_key(|&to| weeks.step(clock.place, to).abs());
                clock.moved(nearest.expect("one of eight"))
            }
            _ => right,
        }
    }

    fn run_out(entry: Entry, count: u32) -> bool {
        let (age, lease) = (entry.age(count), entry.lease());
        match now() {
            OldBoxStampPlusLease => count >= entry.stamp().wrapping_add(lease),
            OldBoxPendingEarly if !entry.is_established() => age >= lease / 2,
            RunOutLate => age > lease,
            RunOutEarly => age >= lease - 1,
            RunOutNever => false,
            RunOutEstablishedOnly if !entry.is_established() => false,
            LargeStepBackFreesAll if SET_BACK.get() => true,
            _ => Law::run_out(entry, count),
        }
    }

    /// As a name is stored.
    fn fold(byte: u8) -> u8 {
        match (now(), byte) {
            (FoldNothing | FoldWhenComparingOnly, _) => byte,
            (FoldWrongAt(wrong), _) if byte == wrong => byte ^ 0x20,
            (FoldPast127, 0xC0..=0xD6 | 0xD8..=0xDE) => byte + 0x20,
            (FoldBeforeA, b'@') => b'`',
            (FoldAfterZ, b'[') => b'{',
            (FoldNotZ, b'Z') => byte,
            _ => Law::fold(byte),
        }
    }

    fn same_name(stored: &[u8], received: &[u8]) -> Compared {
        let folded = |byte| match now() {
            FoldWhenComparingOnly => Law::fold(byte),
            FoldWhenStoringOnly => byte,
            FoldWrongAtWhenComparing(wrong) if byte == wrong => byte ^ 0x20,
            _ => Self::fold(byte),
        };
        let length = stored.len();
        if received.len() != length {
            return Compared::differ(0);
        }
        // How many bytes are compared, from the front.
        let bytes = match now() {
            NameButForItsLastByte => length.saturating_sub(2),
            NameFirst64Bytes => length.min(64),
            NameLength => 0,
            _ => length,
        };
        name::compare(&stored[..bytes], &received[..bytes], folded)
    }

    fn same_holding(entry: Entry, sender: Sender, question: &Question) -> bool {
        let wrong = now();
        (entry.address() == sender.address
            || wrong == HoldingLowHalfOfAddress && entry.address() as u64 == sender.address as u64)
            && (entry.port() == sender.port || wrong == HoldingAnyPort)
            && (entry.qtype() == question.qtype || wrong == HoldingAnyType)
            && (entry.qclass() == question.qclass || wrong == HoldingAnyClass)
            && Self::same_name(entry.name(), question.name).same
    }

    fn setup_finds(entry: Entry, sender: Sender, question: &Question) -> bool {
        (!entry.is_established() || now() != SetupFindsPendingOnly)
            && Self::same_holding(entry, sender, question)
    }

    fn response_finds(
        entry: Entry,
        sender: Sender,
        question: &Question,
        number: LlqNumber,
    ) -> bool {
        let same_number = entry.number() == number;
        let same_holding = Self::same_holding(entry, sender, question);
        let (held, sent) = (entry.number().0, number.0);
        match now() {
            OldBoxNumberAlone => same_number,
            ResponseAnyNumber => same_holding,
            ResponseNumberLowHalf => same_holding && held as u32 == sent as u32,
            ResponseNumberHighHalf => same_holding && held >> 32 == sent >> 32,
            ResponseAnyQuestion => same_number && same_sender(entry, sender),
            ResponseAnyPort => same_number && with_any_port(entry, sender, question),
            ResponseAnyAddress => same_number && with_any_address(entry, sender, question),
            ResponsePendingOnly if entry.is_established() => false,
            _ => same_number && same_holding,
        }
    }

    fn response_lease(entry: Entry, count: u32, sent: u32) -> bool {
        let (left, granted) = (entry.left(count), entry.lease());
        match now() {
            ResponseAnyLease => true,
            ResponseLeaseOf16Bits => Law::response_lease(entry, count, sent & 0xFFFF),
            ResponseLeaseAtMost => sent <= granted,
            ResponseLeaseNoLowerEnd => 0 < sent && sent <= granted,
            ResponseLeaseNoUpperEnd => left <= sent,
            ResponseLeaseGrantedOnly => sent == granted,
            ResponseLeaseRemainingOnly => sent == left,
            ResponseLeaseLowerEndOpen => left < sent && sent <= granted,
            ResponseLeaseUpperEndOpen => left <= sent && sent < granted,
            ResponseLeaseOneUnder => left - 1 <= sent && sent <= granted,
            ResponseLeaseOneOver => left <= sent && sent <= granted + 1,
            ResponseSpanPendingOnly if entry.is_established() => sent == granted,
            ResponseSpanEstablishedOnly if !entry.is_established() => sent == granted,
            _ => Law::response_lease(entry, count, sent),
        }
    }

    fn setup_tells(entry: Entry, count: u32) -> u32 {
        match now() {
            SetupTellsGranted => entry.lease(),
            SetupTellsGrantedIfPending if !entry.is_established() => entry.lease(),
            SetupTellsGrantedIfEstablished if entry.is_established() => entry.lease(),
            _ => Law::setup_tells(entry, count),
        }
    }

    fn response_tells(entry: Entry, count: u32, sent: u32) -> u32 {
        match now() {
            ResponseTellsGranted => entry.lease(),
            ResponseTellsSent => sent,
            ResponseTellsSentLessAge => sent.wrapping_sub(entry.age(count)),
            _ => Law::response_tells(entry, count, sent),
        }
    }

    fn refresh_finds(entry: Entry, sender: Sender, question: &Question, number: LlqNumber) -> bool {
        let same_number = entry.number() == number;
        let same_holding = Self::same_holding(entry, sender, question);
        let established = entry.is_established();
        match now() {
            OldBoxNumberAlone => established && same_number,
            RefreshPendingToo => same_number && same_holding,
            RefreshAnyNumber => established && same_holding,
            RefreshNumberLowHalf => {
                established && same_holding && entry.number().0 as u32 == number.0 as u32
            }
            RefreshAnyPort => established && same_number && with_any_port(entry, sender, question),
            RefreshAnyAddress => {
                established && same_number && with_any_address(entry, sender, question)
            }
            RefreshAnyQuestion => established && same_number && same_sender(entry, sender),
            _ => established && same_number && same_holding,
        }
    }

    fn holds(entry: Entry, sender: Sender) -> bool {
        match now() {
            OldBoxHoldingsByPort => same_sender(entry, sender),
            HeldByLowHalf => entry.address() as u64 == sender.address as u64,
            HeldByHighHalf => entry.address() >> 64 == sender.address >> 64,
            _ => Law::holds(entry, sender),
        }
    }

    fn allowance(table: &Table, address: u128) -> Allowance {
        let listed = table.listed().position(|line| line.address() == address);
        match (now(), listed) {
            (UnlistedLimitFive, None) => Allowance { limit: 5, ..UNLISTED },
            (UnlistedNoLimit, None) => Allowance { limit: 64, ..UNLISTED },
            (FifteenLines, Some(15)) => UNLISTED,
            _ => Law::allowance(table, address),
        }
    }

    fn owed(share: u32, held: u32) -> i32 {
        match now() {
            ReserveWholeShares => share as i32,
            ReserveNegative => share as i32 - held as i32,
            _ => Law::owed(share, held),
        }
    }

    fn full(held: u32, allowed: Allowance, free: i32, reserve: i32) -> bool {
        let Allowance { share, limit } = allowed;
        match now() {
            OldBoxNoReserve => held >= limit || free == 0,
            FullToEveryone => true,
            FullFreeUnderReserve => held >= limit || held >= share && free < reserve,
            FullOverLimit => held > limit || held >= share && free <= reserve,
            FullNoLimit => held >= share && free <= reserve,
            FullOverShare => held >= limit || held > share && free <= reserve,
            FullBelowShare => held >= limit || free <= reserve,
            _ => Law::full(held, allowed, free, reserve),
        }
    }

    fn slot(table: &Table) -> Option<usize> {
        match now() {
            HighestFreeSlot => (0..table.slots.len()).rev().find(|&slot| table.is_free(slot)),
            _ => Law::slot(table),
        }
    }

    fn granted(asked: u32) -> u32 {
        match now() {
            LeaseNotRaised => asked.min(7_200),
            LeaseNotLowered => asked.max(60),
            LeaseOf61 => asked.clamp(61, 7_200),
            LeaseOf7201 => asked.clamp(60, 7_201),
            _ => Law::granted(asked),
        }
    }

    fn number(r: u64, in_use: impl Fn(LlqNumber) -> bool) -> LlqNumber {
        let right = |number| number != LlqNumber::NONE && !in_use(number);
        let up = (0..=65).map(|more| LlqNumber(r.wrapping_add(more)));
        let down = (0..=65).map(|less| LlqNumber(r.wrapping_sub(less)));
        let found = match now() {
            NumberZeroGranted => up.clone().find(|&number| !in_use(number)),
            NumberInUseGranted => up.clone().find(|&number| number != LlqNumber::NONE),
            NumberDownwards => down.clone().find(|&number| right(number)),
            NumberOneFurther => {
                up.take(2).reduce(|first, next| if right(first) { first } else { next })
            }
            _ => up.clone().find(|&number| right(number)),
        };
        found.expect("at most 64 numbers are in use")
    }

    fn malformed(option: &LlqOption) -> Option<u16> {
        let right = Law::malformed(option);
        let but_for_version = Law::malformed(&LlqOption { version: 1, ..*option });
        match now() {
            FormatBeforeVersion => but_for_version.or(right),
            AnyVersion => but_for_version,
            AnyError => Law::malformed(&LlqOption { error: 0, ..*option }),
            OpcodeThreeRead if option.opcode == 3 => {
                Law::malformed(&LlqOption { opcode: 2, ..*option })
            }
            BadOpcodeUnknown if right == Some(error::FORMAT_ERR) => Some(6),
            _ => right,
        }
    }
}

fn same_sender(entry: Entry, sender: Sender) -> bool {
    entry.address() == sender.address && entry.port() == sender.port
}

fn with_any_port(entry: Entry, sender: Sender, question: &Question) -> bool {
    Law::same_holding(entry, Sender { port: entry.port(), ..sender }, question)
}

fn with_any_address(entry: Entry, sender: Sender, question: &Question) -> bool {
    Law::same_holding(entry, Sender { address: entry.address(), ..sender }, question)
}

/// Wrong at the step or blind to a clock record: each is wrong on tables for weeks of ten bits alone,
/// and once more on those for weeks of thirteen bits alone.
const ON_EITHER: [Wrong; 12] = [
    StepTieForward,
    StepLongestBackward,
    StepNoRollOver,
    StepBackChangesNothing,
    StepBackKeepsPlace,
    StepBack60KeepsPlace,
    StepBack61ChangesNothing,
    StepBackHalfCycleChangesNothing,
    StepBackByPlaces,
    BlindTo(Fault::ClockKind),
    BlindTo(Fault::ClockKindOfOther),
    BlindTo(Fault::Place),
];

/// Right on every table that has no weeks of thirteen bits.
fn is_of_thirteen_bits(wrong: Wrong) -> bool {
    matches!(
        wrong,
        ThirteenBitsOverTenBitCycle
            | ThirteenBitsStepOf32BitsBack
            | ThirteenBitsStepOf32BitsForward
            | ThirteenBitsPlaceOf32Bits
            | ThirteenBitsMadeOfKind1
            | ThirteenBitsTakeWeek8192
            | ThirteenBitsRefuseWeek1024
            | ThirteenBitsGuessTheEpoch
            | BlindTo(Fault::PlaceHighBytes)
    )
}

/// Wrong on tables for these weeks, and right on all others.
struct OnTablesFor(Weeks, Wrong);

impl OnTablesFor {
    fn server(&self, table: &[u8]) -> &dyn Server {
        match table::shape_of(table.len()) {
            Some((weeks, _)) if weeks == self.0 => &self.1,
            _ => &Oracle,
        }
    }
}

impl Server for OnTablesFor {
    fn make(&self, week: u32, second: u32, table: &mut [u8], roster: &[u8]) -> u32 {
        self.server(table).make(week, second, table, roster)
    }

    fn tick(&self, week: u32, second: u32, table: &mut [u8]) -> Ticked {
        self.server(table).tick(week, second, table)
    }

    fn serve(
        &self,
        week: u32,
        second: u32,
        high: u64,
        low: u64,
        port: u16,
        random: u64,
        datagram: &[u8],
        table: &mut [u8],
        reply: &mut [u8],
    ) -> Served {
        let server = self.server(table);
        server.serve(week, second, high, low, port, random, datagram, table, reply)
    }
}

impl Server for Wrong {
    fn make(&self, week: u32, second: u32, table: &mut [u8], roster: &[u8]) -> u32 {
        NOW.set(*self);
        calls::make_by::<Bent>(week, second, table, roster)
    }

    fn tick(&self, week: u32, second: u32, table: &mut [u8]) -> Ticked {
        NOW.set(*self);
        calls::tick_by::<Bent>(week, second, table)
    }

    fn serve(
        &self,
        week: u32,
        second: u32,
        high: u64,
        low: u64,
        port: u16,
        random: u64,
        datagram: &[u8],
        table: &mut [u8],
        reply: &mut [u8],
    ) -> Served {
        NOW.set(*self);
        let sender = Sender { address: u128::from(high) << 64 | u128::from(low), port };
        calls::serve_by::<Bent>(week, second, sender, random, datagram, table, reply)
    }
}

fn named(wrong: Wrong) -> Named {
    if ON_EITHER.contains(&wrong) {
        return (format!("{wrong:?}"), Box::new(OnTablesFor(Weeks::Ten, wrong)));
    }
    (format!("{wrong:?}"), Box::new(wrong))
}

/// Those that lists on such tables can tell apart.
pub fn all(widths: Widths) -> Vec<Named> {
    let blind = Fault::ALL.iter().map(|&fault| BlindTo(fault));
    let mut wrong: Vec<Wrong> = WRONG.iter().copied().chain(blind).collect();
    if widths == Widths::TenBits {
        wrong.retain(|&wrong| !is_of_thirteen_bits(wrong));
    }
    let mut all: Vec<Named> = wrong.into_iter().map(named).collect();
    if widths == Widths::Both {
        all.extend(ON_EITHER.map(|wrong| -> Named {
            let server = Box::new(OnTablesFor(Weeks::Thirteen, wrong));
            (format!("ThirteenBits{wrong:?}"), server)
        }));
    }
    all
}

/// The two variants whose fold is wrong at a single byte that does not fold, with a byte for each:
/// wrong wherever names are folded, and wrong only when they are compared.
pub fn folds_wrong_at(bytes: [u8; 2]) -> [Named; 2] {
    for byte in bytes {
        assert_eq!(Law::fold(byte), byte, "a byte that does not fold");
    }
    [FoldWrongAt(bytes[0]), FoldWrongAtWhenComparing(bytes[1])].map(named)
}
