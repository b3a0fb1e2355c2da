//! The order book of paper 01 with requests W2 and W4 to W7 of paper 02: command lines read,
//! orders worked, shown parts refilled, hidden orders moved by a quote, event lines written.
//!
//! Shared by `ordinary.rs` (the program) and `days.rs` (the generator of test days).
//! Written for speed: no allocation per command, digits by arithmetic eight at a time,
//! each side one sorted vector with its best order last. The book is its own and room is
//! always there, so refusals 1 and 2 cannot occur and soundness is not tested.

use std::cmp::Reverse;

/// Limits, away quotes and resting prices, in cents.
pub const MIN_PRICE: u32 = 100;
pub const MAX_PRICE: u32 = 200_000;
pub const MAX_SHARES: u32 = 1_000_000;
/// Resting orders a side.
pub const PLACES: usize = 256;
/// The Regular Session, in milliseconds after midnight Eastern.
pub const SESSION_START: u32 = 34_200_000;
pub const SESSION_END: u32 = 57_600_000;

/// Instruction bits.
pub const IOC: u16 = 1 << 0;
pub const FOK: u16 = 1 << 1;
pub const DAY: u16 = 1 << 2;
pub const DISPLAYED: u16 = 1 << 3;
pub const NON_DISPLAYED: u16 = 1 << 4;
pub const PRICE_ADJUST: u16 = 1 << 5;
pub const CANCEL_BACK: u16 = 1 << 6;
pub const POST_ONLY: u16 = 1 << 7;
pub const ISO: u16 = 1 << 8;
pub const MARKET: u16 = 1 << 9;
/// Set in kind 05 and nowhere else.
pub const RESERVE: u16 = 1 << 10;

/// Words below this have bits 11 to 15 zero.
const WORDS: usize = 1 << 11;
/// The answer of `lawful` for each of those words.
static LAWFUL: [bool; WORDS] = lawful_words();

/// Refusals, with the paper's numbers.
#[derive(Clone, Copy, PartialEq, Eq, Debug)]
pub enum Refusal {
    NotAForm = 3,
    AlreadySeen = 4,
    Gap = 5,
    BookClosed = 6,
    WrongTime = 7,
    UnlawfulWord = 8,
    FieldOutOfRange = 9,
    NotResting = 10,
    SideFull = 11,
}

/// Cancel reasons, with the paper's numbers.
#[derive(Clone, Copy)]
pub enum Reason {
    ByCommand = 1,
    IocRemainder = 2,
    FillOrKill = 3,
    CancelBack = 4,
    NoPriceInRange = 5,
    PostOnlyMeets = 6,
    Close = 7,
    MeetsTheBook = 8,
}

/// A price in half cents, as records and event lines count it. The prices of commands and away
/// quotes are whole cents, bare numbers, so neither can be taken for the other.
#[derive(Clone, Copy, PartialEq, Eq, PartialOrd, Ord, Debug)]
pub struct HalfCents(u32);

impl HalfCents {
    const MIN: HalfCents = HalfCents::from_cents(MIN_PRICE);
    const MAX: HalfCents = HalfCents::from_cents(MAX_PRICE);

    pub const fn from_cents(cents: u32) -> HalfCents {
        HalfCents(2 * cents)
    }

    /// The whole cents of a price that orders rest at.
    #[allow(dead_code)] // the generator needs it, the program does not
    pub fn cents(self) -> u32 {
        debug_assert!(self.0 & 1 == 0, "orders rest at whole cents");
        self.0 / 2
    }

    /// Half a cent more aggressive: higher for a buy, lower for a sell.
    fn half_cent_beyond<const BUY: bool>(self) -> HalfCents {
        HalfCents(if BUY { self.0 + 1 } else { self.0 - 1 })
    }

    /// One cent less aggressive: lower for a buy, higher for a sell.
    fn cent_short<const BUY: bool>(self) -> HalfCents {
        HalfCents(if BUY { self.0 - 2 } else { self.0 + 2 })
    }
}

/// An away price in half cents, if there is one.
fn away_price(cents: u32) -> Option<HalfCents> {
    (cents != 0).then(|| HalfCents::from_cents(cents))
}

/// A command carries a number, a time and one of four bodies.
#[derive(Clone, Copy)]
pub struct Command {
    pub number: u32,
    pub time: u32,
    pub body: Body,
}

#[derive(Clone, Copy)]
pub enum Body {
    Order(Order),
    Cancel { order: u32 },
    Quote { bid: u32, offer: u32 },
    Close,
}

/// The fields of an order as the line gives them, any values.
#[derive(Clone, Copy)]
pub struct Order {
    pub side: u8,
    pub word: u16,
    /// In cents.
    pub price: u32,
    pub shares: u32,
    pub extra: Extra,
}

/// What the line of an order carries after the shares.
#[derive(Clone, Copy, PartialEq, Eq, Debug)]
pub enum Extra {
    /// Kind 01.
    Nothing,
    /// Kind 05.
    MaxFloor(u32),
    /// Kind 06.
    Minimum(u32),
}

/// A resting order. `rank` holds price, display and stamp, and the lower rank is first.
#[derive(Clone, Copy)]
pub struct Resting {
    rank: u64,
    /// The number of the command that entered it.
    pub number: u32,
    /// Always whole cents.
    pub price: HalfCents,
    /// The shares that stand at its rank: of an order with reserve the shown part, of any
    /// other all. Never 0 between commands.
    pub shown: u32,
    /// The shares that stand behind every other order at that price.
    pub reserve: u32,
    /// Of a displayed order the Max Floor, of a hidden one the minimum, 0 for none. One field for
    /// both keeps the record at 32 bytes; 40 were tried, and days took 4% to 10% longer.
    extra: u32,
    pub hidden: bool,
    pub cancel_back: bool,
}

impl Resting {
    /// Both parts.
    pub fn shares(&self) -> u32 {
        self.shown + self.reserve
    }

    /// The least size of an execution, 0 if it asks for none. It may be more than what is left of
    /// the order, and then what is left is the least.
    pub fn minimum(&self) -> u32 {
        if self.hidden { self.extra } else { 0 }
    }

    /// Whether a walk with so many shares left skips it.
    fn is_skipped(&self, left: u32) -> bool {
        left < self.shown && left < self.minimum()
    }
}

/// What decides at one price and display, the lower first: the command that put the order
/// there or refilled it, and the place among that command's moves or refills. They count
/// from 1; an order has place 0 where it first rests.
#[derive(Clone, Copy)]
struct Stamp {
    command: u32,
    place: u16, // a quote moves at most both sides, 512 orders; an order has 256 refilled at most
}

/// A rank is, from its lowest bits up: the stamp's place, the stamp's command, display, price.
const PLACE_BITS: u32 = 10;
const STAMP_BITS: u32 = PLACE_BITS + 32;
const _: () = assert!(2 * PLACES < 1 << PLACE_BITS, "the moves of one quote must fit the place");
const _: () = assert!((HalfCents::MAX.0 as u64) < 1 << (63 - STAMP_BITS), "a price must fit the rank");

#[derive(Clone)]
pub struct Book {
    pub last_number: u32,
    pub last_time: u32,
    /// Best away prices in cents, 0 for none.
    pub away_bid: u32,
    pub away_offer: u32,
    pub open: bool,
    /// Resting orders in falling rank: the best order last.
    pub buys: Vec<Resting>,
    pub sells: Vec<Resting>,
}

impl Book {
    pub fn fresh() -> Book {
        Book {
            last_number: 0,
            last_time: SESSION_START,
            away_bid: 0,
            away_offer: 0,
            open: true,
            buys: Vec::with_capacity(PLACES),
            sells: Vec::with_capacity(PLACES),
        }
    }

    /// Takes one command and appends its event lines. A refusal changes nothing.
    #[inline]
    pub fn apply(&mut self, command: &Command, events: &mut Vec<u8>) -> Result<(), Refusal> {
        self.check_header(command)?;
        match command.body {
            Body::Order(order) => {
                check_order(&order)?;
                if order.side == 0 {
                    self.work_order::<true>(command.number, &order, events)?;
                } else {
                    self.work_order::<false>(command.number, &order, events)?;
                }
            }
            Body::Cancel { order } => self.cancel(order, events)?,
            Body::Quote { bid, offer } => {
                if !is_away_price(bid) || !is_away_price(offer) {
                    return Err(Refusal::FieldOutOfRange);
                }
                self.away_bid = bid;
                self.away_offer = offer;
                let mut stamp = Stamp { command: command.number, place: 0 };
                move_hidden::<true>(&mut self.buys, away_price(offer), &mut stamp, events);
                move_hidden::<false>(&mut self.sells, away_price(bid), &mut stamp, events);
            }
            Body::Close => self.close(events),
        }
        self.last_number = command.number;
        self.last_time = command.time;
        Ok(())
    }

    /// Refusals 4 to 7. The last accepted time is never below the session's start.
    #[inline]
    fn check_header(&self, command: &Command) -> Result<(), Refusal> {
        if command.number <= self.last_number {
            return Err(Refusal::AlreadySeen);
        }
        if command.number - self.last_number > 1 {
            return Err(Refusal::Gap);
        }
        if !self.open {
            return Err(Refusal::BookClosed);
        }
        let latest = if let Body::Close = command.body { SESSION_END } else { SESSION_END - 1 };
        if command.time < self.last_time || command.time > latest {
            return Err(Refusal::WrongTime);
        }
        Ok(())
    }

    /// How an order is worked. All is decided before anything is changed.
    fn work_order<const BUY: bool>(
        &mut self,
        number: u32,
        order: &Order,
        events: &mut Vec<u8>,
    ) -> Result<(), Refusal> {
        // The Locking Price is the away offer for a buy, the away bid for a sell.
        let (own, opposite, locking) = if BUY {
            (&mut self.buys, &mut self.sells, away_price(self.away_offer))
        } else {
            (&mut self.sells, &mut self.buys, away_price(self.away_bid))
        };
        let word = order.word;
        let limit = match (word & MARKET != 0, BUY) {
            (false, _) => HalfCents::from_cents(order.price),
            // Past every price an execution can have, also those half a cent outside the range.
            (true, true) => HalfCents(u32::MAX),
            (true, false) => HalfCents(0),
        };

        // 1. The walk, for what it leaves alone.
        let mut walk = Walk { remainder: order.shares, skipped: None };
        let mut locked = None;
        if word & POST_ONLY == 0 {
            let bound = match (locking, BUY) {
                (Some(locking), true) if word & ISO == 0 => limit.min(locking),
                (Some(locking), false) if word & ISO == 0 => limit.max(locking),
                _ => limit,
            };
            locked = locked_price(own, opposite);
            // Where the lock bars it, it reaches nothing behind either: that is a cent further.
            if locked.is_none_or(|price| reaches::<BUY>(bound, price.half_cent_beyond::<BUY>())) {
                walk = walk_along::<BUY>(opposite, bound, order.shares);
            }
            if let Extra::Minimum(minimum) = order.extra {
                if order.shares - walk.remainder < minimum {
                    // It executes nothing: as if it had skipped them all.
                    let best = opposite.last().map(|best| best.price);
                    walk = Walk { remainder: order.shares, skipped: best };
                }
            }
        }
        let Walk { remainder, skipped } = walk;

        // What becomes of the remainder: the price at which it rests, or the reason of its cancel.
        let mut fate = Ok(limit);
        if remainder > 0 {
            if word & FOK != 0 {
                // 2. Nothing executes and the whole order is cancelled.
                write_cancelled(events, number, order.shares, Reason::FillOrKill);
                return Ok(());
            }
            if word & IOC != 0 {
                // 3. A remainder of IOC is cancelled.
                fate = Err(Reason::IocRemainder);
            } else {
                // 4. A Day remainder seeks its price.
                fate = resting_price::<BUY>(limit, word, locking);
                if let Ok(price) = fate {
                    if word & POST_ONLY != 0 && meets::<BUY>(price, opposite) {
                        // 5. Post Only meets a displayed order or would pass a hidden one.
                        fate = Err(Reason::PostOnlyMeets);
                    } else if skipped.is_some_and(|best| reaches::<BUY>(price, best))
                        && locked != Some(price)
                    {
                        // It would equal or pass what the walk left, and not at the locked price. Nothing
                        // there is better than that, so a price saved equals and does not pass.
                        fate = Err(Reason::MeetsTheBook);
                    } else if own.len() == PLACES {
                        return Err(Refusal::SideFull);
                    }
                }
            }
        }

        // Executions come first, then at most one rested or cancelled line, then the refills.
        let executed = order.shares - remainder;
        let lock = locked.map(|price| price.half_cent_beyond::<BUY>());
        let due = if executed > 0 { execute(opposite, lock, number, executed, events) } else { 0 };
        if remainder > 0 {
            match fate {
                Ok(price) => {
                    // 6. Otherwise it rests.
                    let hidden = word & NON_DISPLAYED != 0;
                    let cancel_back = word & CANCEL_BACK != 0;
                    let rank = rank::<BUY>(price, hidden, Stamp { command: number, place: 0 });
                    let (shown, extra) = match order.extra {
                        Extra::Nothing => (remainder, 0),
                        Extra::MaxFloor(max_floor) => (max_floor.min(remainder), max_floor),
                        Extra::Minimum(minimum) => (remainder, minimum),
                    };
                    let reserve = remainder - shown;
                    let resting =
                        Resting { rank, number, price, shown, reserve, extra, hidden, cancel_back };
                    put_in(own, resting);
                    write_rested(events, number, price, remainder);
                }
                Err(reason) => write_cancelled(events, number, remainder, reason),
            }
        }
        if due > 0 {
            refill(opposite, due, number, events);
        }
        Ok(())
    }

    /// Cancel of a resting order, on whichever side it is.
    fn cancel(&mut self, number: u32, events: &mut Vec<u8>) -> Result<(), Refusal> {
        for side in [&mut self.buys, &mut self.sells] {
            if let Some(place) = side.iter().position(|resting| resting.number == number) {
                let resting = side.remove(place);
                write_cancelled(events, number, resting.shares(), Reason::ByCommand);
                return Ok(());
            }
        }
        Err(Refusal::NotResting)
    }

    /// Close cancels all buys in rank order, then all sells, and closes.
    fn close(&mut self, events: &mut Vec<u8>) {
        for side in [&mut self.buys, &mut self.sells] {
            for resting in side.iter().rev() {
                write_cancelled(events, resting.number, resting.shares(), Reason::Close);
            }
            side.clear();
        }
        self.open = false;
    }
}

/// Whether an incoming order that goes as far as `bound` may meet `price`:
/// a buy meets prices at or below it, a sell prices at or above it.
fn reaches<const BUY: bool>(bound: HalfCents, price: HalfCents) -> bool {
    if BUY { price <= bound } else { price >= bound }
}

/// What a walk leaves: of the incoming order, and of the opposite side the best price at which it
/// has skipped an order. Where it has skipped none but has shares left, no order that it may touch
/// is left.
struct Walk {
    remainder: u32,
    skipped: Option<HalfCents>,
}

/// Walks the opposite side in rank order. The walk ends at the first order it may not touch, one
/// beyond the bound; both holdings of an order stand at one price, so neither is beyond it where
/// the other is not.
fn walk_along<const BUY: bool>(opposite: &[Resting], bound: HalfCents, shares: u32) -> Walk {
    let mut left = shares;
    let mut skipped = None;
    let mut price = None;
    let mut reserves = 0; // those that stand behind every order at this price
    for resting in opposite.iter().rev() {
        if price != Some(resting.price) {
            left -= left.min(reserves);
            reserves = 0;
            if !reaches::<BUY>(bound, resting.price) {
                break;
            }
            price = Some(resting.price);
        }
        if left == 0 {
            break;
        }
        if resting.is_skipped(left) {
            skipped = skipped.or(price);
        } else {
            left -= left.min(resting.shown);
            reserves += resting.reserve;
        }
    }
    Walk { remainder: left - left.min(reserves), skipped }
}

/// The price at which a displayed order of the incoming order's own side locks hidden ones of the
/// opposite side, if one does; those execute half a cent beyond it. Nothing crosses, so a lock is at
/// the best price of both sides; displayed ranks before hidden and never meets displayed, so it
/// shows in the best order of each, and all of the opposite side at that price are hidden.
fn locked_price(own: &[Resting], opposite: &[Resting]) -> Option<HalfCents> {
    let (own, opposite) = (own.last()?, opposite.last()?);
    (own.price == opposite.price && !own.hidden).then_some(own.price)
}

/// Whether Post Only at that price meets a displayed order of the opposite side, at it or past it,
/// or would pass a hidden one. At one price displayed ranks first, so the best order tells.
fn meets<const BUY: bool>(price: HalfCents, opposite: &[Resting]) -> bool {
    opposite.last().is_some_and(|best| {
        reaches::<BUY>(price, best.price) && (price != best.price || !best.hidden)
    })
}

/// Better price first (higher buy, lower sell); at one price displayed before
/// non-displayed; then lower stamp.
fn rank<const BUY: bool>(price: HalfCents, hidden: bool, stamp: Stamp) -> u64 {
    let distance = if BUY { HalfCents::MAX.0 - price.0 } else { price.0 };
    with_stamp((distance as u64) << (STAMP_BITS + 1) | (hidden as u64) << STAMP_BITS, stamp)
}

/// The rank with another stamp, price and display as they are.
fn with_stamp(rank: u64, stamp: Stamp) -> u64 {
    rank >> STAMP_BITS << STAMP_BITS | (stamp.command as u64) << PLACE_BITS | stamp.place as u64
}

/// Puts an order in by its rank: from the best down, as most orders come near the best. Halving the
/// range instead was tried: a plain day takes about 5% longer where 40 orders rest a side, 3% less
/// at 120 and 9% less at 200. The scan stays, so that it is no slower at 40 than before.
fn put_in(side: &mut Vec<Resting>, order: Resting) {
    let worse = side.iter().rposition(|resting| resting.rank > order.rank);
    let place = worse.map_or(0, |worse| worse + 1);
    side.insert(place, order);
}

/// Executes `left` shares, which the walk found there: price after price, shown parts and hidden
/// orders by rank and then the reserves in the same order, a line for each holding that gives. The
/// best price executes at that of the lock, if there is one, and every other at itself. The same
/// orders are skipped as in the walk: with fewer left than there a skipped one still is, and one
/// that gave all it had finds that much here too.
/// Orders taken whole leave. Gives how many of the others have their shown part used up: a refill
/// is due to each.
fn execute(
    side: &mut Vec<Resting>,
    mut lock: Option<HalfCents>,
    incoming: u32,
    mut left: u32,
    events: &mut Vec<u8>,
) -> usize {
    // The orders met are those from `met` on.
    let mut met = side.len();
    while left > 0 {
        let end = met;
        let price = side[end - 1].price;
        let true_price = lock.take().unwrap_or(price);
        let mut reserve = 0;
        while left > 0 && met > 0 && side[met - 1].price == price {
            met -= 1;
            let resting = &mut side[met];
            if resting.is_skipped(left) {
                continue;
            }
            let given = left.min(resting.shown);
            left -= given;
            resting.shown -= given;
            reserve += resting.reserve;
            write_execution(events, incoming, resting.number, true_price, given);
        }
        if reserve > 0 {
            for resting in side[met..end].iter_mut().rev() {
                let given = left.min(resting.reserve);
                if given > 0 {
                    left -= given;
                    resting.reserve -= given;
                    write_execution(events, incoming, resting.number, true_price, given);
                }
            }
        }
    }
    let mut due = 0;
    let mut kept = met;
    for place in met..side.len() {
        let resting = side[place];
        if resting.shares() > 0 {
            due += (resting.shown == 0) as usize;
            side[kept] = resting;
            kept += 1;
        }
    }
    side.truncate(kept);
    due
}

/// Refills the shown parts of the `due` orders of a side that have theirs used up, the best first:
/// only skipped orders at better prices stand before it. With its new stamp each comes to stand
/// behind every displayed order at its price, also behind those still due.
fn refill(side: &mut Vec<Resting>, due: usize, command: u32, events: &mut Vec<u8>) {
    let mut stamp = Stamp { command, place: 0 };
    for _ in 0..due {
        let place = side.iter().rposition(|resting| resting.shown == 0).expect("one is still due");
        let mut order = side.remove(place);
        stamp.place += 1;
        order.rank = with_stamp(order.rank, stamp);
        order.shown = order.extra.min(order.reserve); // the Max Floor: it has a reserve
        order.reserve -= order.shown;
        write_moved(events, order.number, order.price, order.shown);
        put_in(side, order);
    }
}

/// A quote and one side: each hidden order that would now cross the Locking Price, if there is
/// one, is set at it with the next stamp, or cancelled if it is Cancel Back, in the order of their
/// ranks. Displayed orders stay, so none with a reserve is moved.
fn move_hidden<const BUY: bool>(
    side: &mut Vec<Resting>,
    locking: Option<HalfCents>,
    stamp: &mut Stamp,
    events: &mut Vec<u8>,
) {
    let Some(locking) = locking else { return };
    let mut changed = false;
    for resting in side.iter_mut().rev() {
        if resting.price == locking || !reaches::<BUY>(resting.price, locking) {
            break; // it does not cross, nor does any behind it
        }
        if !resting.hidden {
            continue;
        }
        changed = true;
        if resting.cancel_back {
            write_cancelled(events, resting.number, resting.shown, Reason::CancelBack);
            resting.shown = 0; // to be taken out below
        } else {
            stamp.place += 1;
            resting.price = locking;
            resting.rank = rank::<BUY>(locking, true, *stamp);
            write_moved(events, resting.number, locking, resting.shown);
        }
    }
    if changed {
        side.retain(|resting| resting.shown > 0);
        side.sort_unstable_by_key(|resting| Reverse(resting.rank));
    }
}

/// Step 4: the price a Day remainder rests at, or the reason why it is cancelled.
fn resting_price<const BUY: bool>(
    limit: HalfCents,
    word: u16,
    locking: Option<HalfCents>,
) -> Result<HalfCents, Reason> {
    let Some(locking) = locking else { return Ok(limit) };
    if word & ISO != 0 || !reaches::<BUY>(limit, locking) {
        return Ok(limit);
    }
    // At its limit it would lock or cross the away price; Non-Displayed may lock.
    let displayed = word & DISPLAYED != 0;
    if !displayed && limit == locking {
        return Ok(limit);
    }
    if word & CANCEL_BACK != 0 {
        return Err(Reason::CancelBack);
    }
    let adjusted = if displayed { locking.cent_short::<BUY>() } else { locking };
    let in_range = (HalfCents::MIN..=HalfCents::MAX).contains(&adjusted);
    if in_range { Ok(adjusted) } else { Err(Reason::NoPriceInRange) }
}

/// Of a limit, in cents.
fn is_price(cents: u32) -> bool {
    (MIN_PRICE..=MAX_PRICE).contains(&cents)
}

fn is_away_price(cents: u32) -> bool {
    cents == 0 || is_price(cents)
}

/// Refusals 8 and 9 of an order.
#[inline]
fn check_order(order: &Order) -> Result<(), Refusal> {
    let word = order.word;
    let (suits_the_kind, extra) = match order.extra {
        Extra::Nothing => (word & RESERVE == 0, 1),
        Extra::MaxFloor(max_floor) => (word & RESERVE != 0, max_floor),
        Extra::Minimum(minimum) => (word & (RESERVE | DISPLAYED) == 0, minimum),
    };
    if !is_lawful(word) || !suits_the_kind {
        return Err(Refusal::UnlawfulWord);
    }
    let priced_well = if word & MARKET != 0 { order.price == 0 } else { is_price(order.price) };
    if order.side > 1 || !(1..=MAX_SHARES).contains(&order.shares) || !priced_well {
        return Err(Refusal::FieldOutOfRange);
    }
    // Both go from 1 to the order's shares.
    if !(1..=order.shares).contains(&extra) {
        return Err(Refusal::FieldOutOfRange);
    }
    Ok(())
}

/// The law of the word alone; which kind the word came with is not judged here.
#[inline]
pub fn is_lawful(word: u16) -> bool {
    (word as usize) < WORDS && LAWFUL[word as usize]
}

const fn lawful_words() -> [bool; WORDS] {
    let mut table = [false; WORDS];
    let mut word = 0;
    while word < WORDS {
        table[word] = lawful(word as u16);
        word += 1;
    }
    table
}

/// The law for a word whose bits 11 to 15 are zero.
const fn lawful(word: u16) -> bool {
    const fn one_of(word: u16, bits: u16) -> bool {
        (word & bits).count_ones() == 1
    }
    let one_each = one_of(word, IOC | FOK | DAY)
        && one_of(word, DISPLAYED | NON_DISPLAYED)
        && one_of(word, PRICE_ADJUST | CANCEL_BACK);
    let post_only = word & POST_ONLY == 0 || (word & DAY != 0 && word & DISPLAYED != 0 && word & ISO == 0);
    let iso = word & ISO == 0 || word & (FOK | MARKET) == 0;
    let market = word & MARKET == 0 || word & (IOC | FOK) != 0;
    let reserve = word & RESERVE == 0 || (word & DAY != 0 && word & DISPLAYED != 0);
    one_each && post_only && iso && market && reserve
}

/// Reads the command line at the front of `input` and gives its length with the line feed.
/// `None` if no whole, well formed line stands there: a line feed is no digit, so a line
/// that ends early has a bad digit, and one that ends late has no line feed in its place.
#[inline]
pub fn read_command(input: &[u8]) -> Option<(Command, usize)> {
    let header: &[u8; 18] = input.first_chunk()?;
    if header[0] != b'0' {
        return None;
    }
    let number = read_field(header, 2)?;
    let time = read_field(header, 10)?;
    let body = &input[18..];
    let (body, digits) = match header[1] {
        kind @ (b'1' | b'5' | b'6') => {
            let fields: &[u8; 23] = body.first_chunk()?; // those that all three kinds have
            // Side and word are six digits; the reader takes eight, the first two set to 0.
            let short = [b'0', b'0', fields[0], fields[1], fields[2], fields[3], fields[4], fields[5]];
            let side_and_word = read_field(&short, 0)?;
            let (extra, digits) = match kind {
                b'1' => (Extra::Nothing, 22),
                b'5' => (Extra::MaxFloor(read_field(body, 22)?), 30),
                _ => (Extra::Minimum(read_field(body, 22)?), 30),
            };
            let order = Order {
                side: (side_and_word >> 16) as u8,
                word: side_and_word as u16,
                price: read_field(fields, 6)?,
                shares: read_field(fields, 14)?,
                extra,
            };
            (Body::Order(order), digits)
        }
        b'2' => (Body::Cancel { order: read_field(body, 0)? }, 8),
        b'3' => (Body::Quote { bid: read_field(body, 0)?, offer: read_field(body, 8)? }, 16),
        b'4' => (Body::Close, 0),
        _ => return None,
    };
    if *input.get(18 + digits)? != b'\n' {
        return None;
    }
    Some((Command { number, time, body }, 18 + digits + 1))
}

const ONES: u64 = 0x0101_0101_0101_0101;
const HIGH_BITS: u64 = 0x80 * ONES;

/// Reads the eight lowercase hexadecimal digits from `at` on, all at once in one word of eight bytes.
#[inline]
fn read_field(digits: &[u8], at: usize) -> Option<u32> {
    let digits = u64::from_be_bytes(*digits.get(at..)?.first_chunk()?);
    // The high bit of each byte tells whether that byte is at or above `least`.
    let low_bits = digits & !HIGH_BITS;
    let at_or_above = |least: u8| low_bits + (0x80 - least) as u64 * ONES;
    let figure = at_or_above(b'0') & !at_or_above(b'9' + 1);
    let letter = at_or_above(b'a') & !at_or_above(b'f' + 1);
    if (figure | letter) & !digits & HIGH_BITS != HIGH_BITS {
        return None;
    }
    // A letter's low four bits count from 1 and its bit 6 is set.
    let fours = (digits & (0x0f * ONES)) + 9 * ((digits >> 6) & ONES);
    let bytes = (fours | fours >> 4) & 0x00ff_00ff_00ff_00ff;
    let pairs = (bytes | bytes >> 8) & 0x0000_ffff_0000_ffff;
    Some((pairs | pairs >> 16) as u32)
}

/// The eight digits of a field of 4 bytes.
#[inline]
fn field_digits(value: u32) -> [u8; 8] {
    let pairs = (value as u64 | (value as u64) << 16) & 0x0000_ffff_0000_ffff;
    let bytes = (pairs | pairs << 8) & 0x00ff_00ff_00ff_00ff;
    let fours = (bytes | bytes << 4) & (0x0f * ONES);
    let is_letter = ((fours + 6 * ONES) >> 4) & ONES;
    (fours + b'0' as u64 * ONES + (b'a' - b'9' - 1) as u64 * is_letter).to_be_bytes()
}

#[inline]
fn write_execution(events: &mut Vec<u8>, incoming: u32, resting: u32, price: HalfCents, shares: u32) {
    let mut line = *b"11--------------------------------\n";
    line[2..10].copy_from_slice(&field_digits(incoming));
    line[10..18].copy_from_slice(&field_digits(resting));
    line[18..26].copy_from_slice(&field_digits(price.0));
    line[26..34].copy_from_slice(&field_digits(shares));
    events.extend_from_slice(&line);
}

#[inline]
fn write_rested(events: &mut Vec<u8>, number: u32, price: HalfCents, shares: u32) {
    write_price_and_shares(events, *b"12", number, price, shares);
}

#[inline]
fn write_moved(events: &mut Vec<u8>, number: u32, price: HalfCents, shares: u32) {
    write_price_and_shares(events, *b"14", number, price, shares);
}

#[inline]
fn write_price_and_shares(events: &mut Vec<u8>, kind: [u8; 2], number: u32, price: HalfCents, shares: u32) {
    let mut line = *b"--------------------------\n";
    line[..2].copy_from_slice(&kind);
    line[2..10].copy_from_slice(&field_digits(number));
    line[10..18].copy_from_slice(&field_digits(price.0));
    line[18..26].copy_from_slice(&field_digits(shares));
    events.extend_from_slice(&line);
}

#[inline]
fn write_cancelled(events: &mut Vec<u8>, number: u32, shares: u32, reason: Reason) {
    let mut line = *b"13----------------0-\n";
    line[2..10].copy_from_slice(&field_digits(number));
    line[10..18].copy_from_slice(&field_digits(shares));
    line[19] = b'0' + reason as u8; // reasons are 1 to 8
    events.extend_from_slice(&line);
}
