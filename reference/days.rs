//! A generator of test days: `days KIND SEED LINES` prints a day of LINES command lines.
//! The same arguments always give the same bytes. Every day begins at the fresh book.
//!
//! Kinds:
//!   plain     orders around a moving price, a few of them with reserve, cancels and quotes, about
//!             40 orders resting a side; `days plain SEED LINES DEPTH` makes it about DEPTH orders,
//!             at prices spread in proportion
//!   nasty     valid and damaged lines mixed; a side is filled now and then; most days are closed
//!             somewhere, with more lines after it, and the last line feed is missing now and then
//!   full      both sides kept at or near 256 resting orders; the first 512 lines fill them, if the
//!             day has more
//!   crossing  sweeps, now and then of full sides, FOK just fillable and just not, Post Only that
//!             meets, ISO, locked and crossed away quotes, Price Adjust at the edges of the price range
//!   moving    quotes that move or cancel hidden orders, from one to both full sides at once, and
//!             small orders after them that show the new ranks
//!   reserve   orders with reserve, hidden and displayed ones at few prices, on some stretches full
//!             sides of them, and orders that end at or beside each edge of the walk over their
//!             holdings, so that refills come all the time
//!   locks     displayed Post Only at the price of hidden orders, on either side, and before long
//!             orders against them at the lock, one cent beyond it and further, away quotes at it
//!             and beside it, orders that join it and cancels that end it; prices are often at the
//!             ends of the range, so executions come half a cent outside it; seldom, full sides
//!   minimum   hidden orders with a minimum of any size at few prices, on some stretches full sides
//!             of them, and orders into them at or beside what a minimum asks for, many with a
//!             minimum themselves at or beside what the walk gives: skips, walks undone, remainders
//!             that meet what was skipped; quotes, Post Only, reserve and locks beside them
//!   short     a few lines (at most 12, and at most LINES) of one of the kinds above; of those kinds
//!             that have no minimums of their own, one day in three has some
//! Minimums come in the kinds nasty, minimum and short alone. The last line is the close in all but
//! the nasty days.
//!
//! The generator works each line on a book of its own (`book.rs`), so it knows what rests,
//! which number comes next and which commands were refused.
//!
//! Compile: rustc -O --edition 2021 days.rs

#[path = "book.rs"]
mod book;

use book::*;
use std::io::{self, BufWriter, Write};
use std::process::ExitCode;

const BUY: u8 = 0;
const SELL: u8 = 1;
/// The orders that rest a side on a plain day, if no other number is asked for.
const DEPTH: usize = 40;
/// The length of the session in milliseconds.
const SESSION: u64 = (SESSION_END - SESSION_START) as u64;
/// Day, Displayed, Price Adjust: the ordinary word.
const ORDINARY: u16 = DAY | DISPLAYED | PRICE_ADJUST;
/// Day, Non-Displayed, Price Adjust: moved by a quote.
const HIDDEN: u16 = DAY | NON_DISPLAYED | PRICE_ADJUST;
/// Day, Non-Displayed, Cancel Back: cancelled by a quote.
const HIDDEN_BACK: u16 = DAY | NON_DISPLAYED | CANCEL_BACK;
/// The ordinary word of kind 05.
const RESERVED: u16 = ORDINARY | RESERVE;
/// The ordinary words of orders that never rest.
const TAKER: u16 = IOC | DISPLAYED | PRICE_ADJUST;
const KILLER: u16 = FOK | DISPLAYED | PRICE_ADJUST;

fn main() -> ExitCode {
    let arguments: Vec<String> = std::env::args().skip(1).collect();
    let Some((kind, seed, lines)) = read_arguments(&arguments) else {
        eprintln!("usage: days plain SEED LINES [DEPTH]");
        eprintln!("       days nasty|full|crossing|moving|reserve|locks|minimum|short SEED LINES");
        eprintln!("DEPTH is 1 to {PLACES}, or else {DEPTH}.");
        return ExitCode::from(2);
    };
    let mut output = BufWriter::with_capacity(64 * 1024, io::stdout().lock());
    match print_day(kind, seed, lines, &mut output).and_then(|()| output.flush()) {
        Ok(()) => ExitCode::SUCCESS,
        Err(error) => {
            eprintln!("days: cannot write the output: {error}");
            ExitCode::FAILURE
        }
    }
}

#[derive(Clone, Copy)]
enum Kind {
    /// With the number of orders that rest a side.
    Plain(usize),
    Nasty,
    Full,
    Crossing,
    Moving,
    Reserve,
    Locks,
    Minimum,
    Short,
}

fn read_arguments(arguments: &[String]) -> Option<(Kind, u64, u64)> {
    let [kind, seed, lines, depth @ ..] = arguments else { return None };
    let kind = match (kind.as_str(), depth) {
        ("plain", []) => Kind::Plain(DEPTH),
        ("plain", [depth]) => Kind::Plain(depth.parse().ok().filter(|depth| (1..=PLACES).contains(depth))?),
        ("nasty", []) => Kind::Nasty,
        ("full", []) => Kind::Full,
        ("crossing", []) => Kind::Crossing,
        ("moving", []) => Kind::Moving,
        ("reserve", []) => Kind::Reserve,
        ("locks", []) => Kind::Locks,
        ("minimum", []) => Kind::Minimum,
        ("short", []) => Kind::Short,
        _ => return None,
    };
    Some((kind, seed.parse().ok()?, lines.parse().ok()?))
}

fn print_day(kind: Kind, seed: u64, lines: u64, output: &mut impl Write) -> io::Result<()> {
    let mut random = Random(seed);
    let is_short = matches!(kind, Kind::Short);
    let (kind, lines) = match kind {
        Kind::Short => {
            let kinds = [
                Kind::Plain(DEPTH),
                Kind::Nasty,
                Kind::Nasty,
                Kind::Full,
                Kind::Crossing,
                Kind::Moving,
                Kind::Moving,
                Kind::Reserve,
                Kind::Reserve,
                Kind::Locks,
                Kind::Locks,
                Kind::Locks,
                Kind::Minimum,
                Kind::Minimum,
                Kind::Minimum,
            ];
            (random.pick(&kinds), random.below(13).min(lines))
        }
        kind => (kind, lines),
    };
    let mut day = Day::new(random, lines);
    day.minimums = match kind {
        Kind::Nasty => 40,
        Kind::Minimum => 75,
        _ if is_short && day.random.below(3) == 0 => 75,
        _ => 0,
    };
    while day.printed < lines {
        let is_last = day.printed + 1 == lines;
        let line = match kind {
            Kind::Nasty => day.nasty_line(),
            _ if is_last => day.closing_line(),
            Kind::Plain(depth) => day.plain_line(depth),
            Kind::Full => day.full_line(),
            Kind::Crossing => day.crossing_line(),
            Kind::Moving => day.moving_line(),
            Kind::Reserve => day.reserve_line(),
            Kind::Locks => day.locks_line(),
            Kind::Minimum | Kind::Short => day.minimum_line(),
        };
        output.write_all(&line)?;
        // A refused command changes nothing and leaves its number free: the next line takes it.
        let _ = day.work(&line);
    }
    Ok(())
}

/// Splitmix64.
struct Random(u64);

impl Random {
    fn next(&mut self) -> u64 {
        self.0 = self.0.wrapping_add(0x9e37_79b9_7f4a_7c15);
        let mixed = (self.0 ^ self.0 >> 30).wrapping_mul(0xbf58_476d_1ce4_e5b9);
        let mixed = (mixed ^ mixed >> 27).wrapping_mul(0x94d0_49bb_1331_11eb);
        mixed ^ mixed >> 31
    }

    /// 0 to `bound` - 1.
    fn below(&mut self, bound: u64) -> u64 {
        ((self.next() as u128 * bound as u128) >> 64) as u64
    }

    fn between(&mut self, least: u32, most: u32) -> u32 {
        least + self.below((most - least) as u64 + 1) as u32
    }

    fn percent(&mut self, chance: u64) -> bool {
        self.below(100) < chance
    }

    fn pick<T: Copy>(&mut self, choices: &[T]) -> T {
        choices[self.below(choices.len() as u64) as usize]
    }
}

struct Day {
    random: Random,
    book: Book,
    /// Event lines of the last command, unread.
    events: Vec<u8>,
    lawful: Vec<u16>,
    lines: u64,
    printed: u64,
    /// The price around which orders come.
    middle: u32,
    /// Nasty: the place of the close (none if past the day), and whether the last line feed is missing.
    close_at: u64,
    cut_end: bool,
    /// The percentage of Non-Displayed orders that carry a minimum.
    minimums: u64,
    /// Full, reserve, locks and minimum: the number of orders that each side is held at, changed now
    /// and then.
    hold: usize,
    /// Full, reserve and minimum: the number of prices that orders come at, changed with it.
    prices: u32,
    /// Reserve, locks and minimum: the place of the next such change.
    change_at: u64,
    /// Whether only orders come that rest, until enough do.
    filling: bool,
    /// Locks and minimum: the side whose orders are hidden until the other one locks them.
    locked_side: u8,
    /// Locks and minimum: whether both sides are being swept, until nothing rests.
    sweeping: bool,
    /// Moving: the next step to a quote that moves both full sides, if one is under way.
    whole: Option<Whole>,
}

/// The steps to a quote that moves both sides whole: the sides are swept empty, as what stands there
/// may be displayed or moved already, and filled with hidden orders.
#[derive(Clone, Copy)]
enum Whole {
    SweepSells,
    SweepBuys,
    /// With the percentage of orders that may be of any word.
    Fill(u64),
    Quote,
}

impl Day {
    fn new(mut random: Random, lines: u64) -> Day {
        let close_at = match random.below(8) {
            0 | 1 => u64::MAX,
            2 => lines.saturating_sub(1),
            3 => random.below(lines + 1),
            _ => lines - random.below(lines / 8 + 1),
        };
        let cut_end = random.percent(30);
        Day {
            random,
            book: Book::fresh(),
            events: Vec::new(),
            lawful: (0..=u16::MAX).filter(|&word| is_lawful(word)).collect(),
            lines,
            printed: 0,
            middle: 2000,
            close_at,
            cut_end,
            minimums: 0,
            hold: PLACES,
            prices: 30,
            change_at: 0,
            filling: false,
            locked_side: BUY,
            sweeping: false,
            whole: None,
        }
    }

    /// Works a line on the generator's own book, as the program will.
    fn work(&mut self, line: &[u8]) -> Result<(), Refusal> {
        self.printed += 1;
        self.events.clear();
        match read_command(line) {
            Some((command, length)) if length == line.len() => self.book.apply(&command, &mut self.events),
            _ => Err(Refusal::NotAForm),
        }
    }

    // Commands with the next number and a time that fits.

    /// The day's lines are spread over the session; times may repeat.
    fn command(&mut self, body: Body) -> Command {
        let due = (SESSION as u128 * self.printed as u128 / self.lines as u128) as u32;
        let step = (SESSION / self.lines).min(1000);
        let time = SESSION_START + due + self.random.below(step + 1) as u32;
        let time = time.min(SESSION_END - 1).max(self.book.last_time);
        Command { number: self.book.last_number.wrapping_add(1), time, body }
    }

    /// Of kind 05 if the word has bit 10; of kind 06 if the day has minimums, now and then.
    fn order(&mut self, side: u8, word: u16, price: u32, shares: u32) -> Command {
        let price = if word & MARKET != 0 { 0 } else { price.clamp(MIN_PRICE, MAX_PRICE) };
        let shares = shares.clamp(1, MAX_SHARES);
        let extra = if word & RESERVE != 0 {
            Extra::MaxFloor(self.max_floor(shares))
        } else if word & NON_DISPLAYED != 0 && self.minimums > 0 && self.random.percent(self.minimums) {
            Extra::Minimum(self.minimum(shares))
        } else {
            Extra::Nothing
        };
        self.command(Body::Order(Order { side, word, price, shares, extra }))
    }

    /// Mostly one that the shares hold several times; also the least, the greatest, and one that
    /// leaves a share to the reserve.
    fn max_floor(&mut self, shares: u32) -> u32 {
        let several = shares / self.random.between(2, 6);
        let any = self.random.between(1, shares);
        let max_floor = match self.random.below(16) {
            0 => 1,
            1 => shares,
            2 => shares - 1,
            3..=5 => any,
            _ => several,
        };
        max_floor.max(1)
    }

    /// Any size: the least, the greatest, one or half of it less, and all between.
    fn minimum(&mut self, shares: u32) -> u32 {
        let any = self.random.between(1, shares);
        let half = shares / 2;
        let minimum = self.random.pick(&[1, shares, shares, shares - 1, half, half + 1, any, any]);
        minimum.max(1)
    }

    /// A quote of lawful prices: 0 stays 0, others are brought into the range.
    fn quote(&mut self, bid: u32, offer: u32) -> Command {
        let lawful = |price: u32| if price == 0 { 0 } else { price.clamp(MIN_PRICE, MAX_PRICE) };
        self.command(Body::Quote { bid: lawful(bid), offer: lawful(offer) })
    }

    /// A cancel of a random resting order of that side, if there is one.
    fn cancel(&mut self, side: u8) -> Option<Command> {
        let count = self.side(side).len() as u64;
        if count == 0 {
            return None;
        }
        let place = self.random.below(count) as usize;
        let order = self.side(side)[place].number;
        Some(self.command(Body::Cancel { order }))
    }

    /// A close, at an ordinary time or at the very end of the session.
    fn closing_line(&mut self) -> Vec<u8> {
        let mut close = self.command(Body::Close);
        close.time = self.random.pick(&[close.time, SESSION_END]);
        write_command(&close)
    }

    // The book and prices.

    fn any_side(&mut self) -> u8 {
        self.random.pick(&[BUY, SELL])
    }

    fn lawful_word(&mut self) -> u16 {
        self.random.pick(&self.lawful)
    }

    /// Resting orders of a side, the best last.
    fn side(&self, side: u8) -> &[Resting] {
        if side == BUY { &self.book.buys } else { &self.book.sells }
    }

    /// The same, the best first.
    fn ranked(&self, side: u8) -> Vec<Resting> {
        self.side(side).iter().rev().copied().collect()
    }

    /// The best price of a side, in cents.
    fn best(&self, side: u8) -> Option<u32> {
        self.side(side).last().map(|resting| resting.price.cents())
    }

    /// Whether displayed orders of that side lock hidden ones of the other.
    fn locks(&self, side: u8) -> bool {
        match (self.side(side).last(), self.side(1 - side).last()) {
            (Some(own), Some(opposite)) => own.price == opposite.price && !own.hidden,
            _ => false,
        }
    }

    /// The away price that orders of that side may not cross, 0 for none.
    fn locking(&self, side: u8) -> u32 {
        if side == BUY { self.book.away_offer } else { self.book.away_bid }
    }

    /// A price `steps` cents from the middle, on the side where it does not cross; may be 0.
    fn passive(&self, side: u8, steps: u32) -> u32 {
        if side == BUY { self.middle.saturating_sub(steps) } else { self.middle + steps }
    }

    fn aggressive(&self, side: u8, steps: u32) -> u32 {
        self.passive(1 - side, steps)
    }

    /// The shares that an order of that word would find up to its limit, if it asks for as many: then
    /// it skips none.
    fn fillable(&self, side: u8, word: u16, limit: u32) -> u32 {
        let locking = if word & ISO != 0 { 0 } else { self.locking(side) };
        let locked = if self.locks(side) { self.best(1 - side) } else { None };
        let reached = |resting: &&Resting| {
            let price = resting.price.cents();
            // At a lock it executes half a cent further on, so its bounds must lie past the lock.
            let is_within = |bound: u32| match (side, Some(price) == locked) {
                (BUY, false) => price <= bound,
                (BUY, true) => price < bound,
                (_, false) => price >= bound,
                (_, true) => price > bound,
            };
            (word & MARKET != 0 || is_within(limit)) && (locking == 0 || is_within(locking))
        };
        self.side(1 - side).iter().filter(reached).map(|resting| resting.shares()).sum()
    }

    /// The price of a random opposite order, or the middle.
    fn opposite_price(&mut self, side: u8) -> u32 {
        let count = self.side(1 - side).len() as u64;
        let place = self.random.below(count.max(1)) as usize;
        self.side(1 - side).get(place).map_or(self.middle, |resting| resting.price.cents())
    }

    // Filling sides: 256 places would seldom be taken by orders that come by chance.

    fn shorter_side(&self) -> u8 {
        if self.book.buys.len() <= self.book.sells.len() { BUY } else { SELL }
    }

    /// An order for that side that rests, at one of so many prices, once nothing is in its way.
    fn filler(&mut self, side: u8, word: u16, prices: u32) -> Command {
        if let Some(clearing) = self.clear_the_way(side) {
            return clearing;
        }
        let steps = self.random.between(1, prices);
        let price = self.passive(side, steps);
        let shares = self.random.between(1, 60);
        self.order(side, word, price, shares)
    }

    /// What ends an away price or opposite orders that would keep passive orders from resting.
    fn clear_the_way(&mut self, side: u8) -> Option<Command> {
        let (locking, middle) = (self.locking(side), self.middle);
        if locking != 0 {
            return Some(self.quote(0, 0));
        }
        // Their shares and no more, and a cent beyond the middle, as a lock there bars the middle itself.
        let is_met = |resting: &&Resting| {
            let price = resting.price.cents();
            if side == BUY { price <= middle } else { price >= middle }
        };
        let met: u32 = self.side(1 - side).iter().filter(is_met).map(|resting| resting.shares()).sum();
        (met > 0).then(|| self.order(side, TAKER | ISO, self.aggressive(side, 1), met))
    }

    // Plain days.

    fn plain_line(&mut self, depth: usize) -> Vec<u8> {
        // As many orders at one price whatever the depth, so that walks stay alike.
        let spread = (12 * depth / DEPTH) as u32;
        if self.random.below(40) == 0 {
            self.middle = (self.middle + self.random.between(0, 2) - 1).clamp(1000, 9000);
        }
        let side = self.any_side();
        let resting = self.side(side).len();
        let command = match self.random.below(1000) {
            0..=39 => {
                let bid = self.middle - self.random.between(1, 4);
                let offer = self.middle + self.random.between(1, 4);
                self.quote(bid, offer)
            }
            40..=119 => self.plain_taker(side),
            120..=122 => {
                // A cancel that comes too late: its order has gone, or had never rested.
                let order = self.random.between(1, self.book.last_number.max(1));
                self.command(Body::Cancel { order })
            }
            choice => {
                // Half orders, half cancels, held within a tenth of the depth.
                let wants_order = choice % 2 == 0;
                if resting < depth - depth / 10 || (wants_order && resting < depth + depth / 10) {
                    self.plain_maker(side, spread)
                } else {
                    self.cancel(side).expect("a side that is not below the depth is not empty")
                }
            }
        };
        write_command(&command)
    }

    /// An order that mostly rests.
    fn plain_maker(&mut self, side: u8, spread: u32) -> Command {
        let word = match self.random.below(100) {
            0..=57 => ORDINARY,
            58..=64 => return self.plain_reserve(side, spread),
            65..=79 => HIDDEN,
            80..=87 => DAY | DISPLAYED | CANCEL_BACK,
            88..=97 => ORDINARY | POST_ONLY,
            _ => ORDINARY | ISO,
        };
        let steps = self.random.between(0, spread);
        let price = self.passive(side, steps);
        let shares = 100 * self.random.between(1, 10);
        self.order(side, word, price, shares)
    }

    /// An order with reserve that shows a round lot or a few.
    fn plain_reserve(&mut self, side: u8, spread: u32) -> Command {
        let steps = self.random.between(0, spread);
        let price = self.passive(side, steps);
        let shares = 100 * self.random.between(5, 30);
        let extra = Extra::MaxFloor(100 * self.random.between(1, 5));
        self.command(Body::Order(Order { side, word: RESERVED, price, shares, extra }))
    }

    /// An order that mostly executes against one to three others.
    fn plain_taker(&mut self, side: u8) -> Command {
        let word = match self.random.below(100) {
            0..=49 => TAKER,
            50..=64 => TAKER | MARKET,
            65..=74 => KILLER,
            75..=84 => TAKER | ISO,
            _ => ORDINARY,
        };
        let steps = self.random.between(1, 4);
        let price = self.aggressive(side, steps);
        let shares = 100 * self.random.between(1, 15);
        self.order(side, word, price, shares)
    }

    // Nasty days.

    fn nasty_line(&mut self) -> Vec<u8> {
        let mut line = self.nasty_full_line();
        if self.cut_end && self.printed + 1 == self.lines && line.len() > 1 {
            line.pop();
        }
        line
    }

    fn nasty_full_line(&mut self) -> Vec<u8> {
        if self.printed == self.close_at {
            return self.closing_line();
        }
        let is_last = self.printed + 1 == self.lines;
        if is_last && self.cut_end && self.random.percent(40) {
            // All its digits are good: only the line feed is missing, which is cut off after this.
            let side = self.any_side();
            let word = self.random.pick(&[RESERVED, HIDDEN]);
            let command = self.order(side, word, self.middle, 100);
            return write_command(&command);
        }
        if self.printed % 2000 == 500 {
            // Early enough that most days of 1,500 lines see a full side.
            self.filling = true;
            self.middle = 2000;
        }
        let most = self.book.buys.len().max(self.book.sells.len());
        self.filling &= most < PLACES && self.book.open;
        if !self.filling && self.random.below(60) == 0 {
            self.middle = self.random.pick(&[100, 103, 500, 2000, 199_997, 200_000]);
        }
        let mut command = if self.filling {
            // The side that has more already; at prices of which the next orders sweep only a few.
            let word = self.random.pick(&[ORDINARY, HIDDEN, HIDDEN_BACK, RESERVED]);
            self.filler(1 - self.shorter_side(), word, 60)
        } else {
            self.nasty_command()
        };
        match self.random.below(100) {
            0..=64 => write_command(&command),
            65..=87 => {
                if self.random.percent(25) {
                    // A time newer than the next lines have, which a refused command must not leave behind.
                    let ahead = 1 + self.random.below(10 * SESSION / self.lines) as u32;
                    command.time = (command.time + ahead).min(SESSION_END - 1);
                }
                // One to three damaged fields: the lowest refusal is to be given.
                for _ in 0..self.random.pick(&[1, 1, 1, 1, 2, 3]) {
                    self.damage_field(&mut command);
                    if let Body::Close = command.body {
                        break; // or a second damage might undo the first, and the day would end
                    }
                }
                write_command(&command)
            }
            _ => {
                if self.random.percent(20) {
                    self.damage_field(&mut command);
                }
                let line = write_command(&command);
                self.damage_text(line)
            }
        }
    }

    /// A good command of any kind, with any lawful word, close around the middle.
    fn nasty_command(&mut self) -> Command {
        let side = self.any_side();
        match self.random.below(100) {
            0..=11 => {
                let mut away = || match self.random.below(4) {
                    0 => 0,
                    _ => self.middle.saturating_sub(3) + self.random.between(0, 6),
                };
                let (bid, offer) = (away(), away());
                self.quote(bid, offer)
            }
            12..=24 if !self.side(side).is_empty() => self.cancel(side).expect("not empty"),
            _ => {
                let word = self.lawful_word();
                let word = self.random.pick(&[ORDINARY, HIDDEN, RESERVED, word, word]);
                let price = self.middle.saturating_sub(4) + self.random.between(0, 8);
                let shares = self.random.pick(&[1, 10, 50, 100, 1_000_000]);
                let less = self.random.between(0, 9);
                self.order(side, word, price, shares - less.min(shares - 1))
            }
        }
    }

    /// Sets a field to a value at or just outside a limit; the command may stay good.
    fn damage_field(&mut self, command: &mut Command) {
        let last = self.book.last_number;
        match self.random.below(14) {
            0 | 1 => {
                let seen = self.random.between(0, last);
                command.number = self.random.pick(&[last, last, seen, 0]);
            }
            2 => {
                let gap = self.random.between(3, 1000);
                command.number = last + self.random.pick(&[2, 2, gap, u32::MAX - last]);
            }
            3 | 4 => {
                let before = self.book.last_time - 1;
                let mut times = vec![0, 34_199_999, 34_200_000, before, 57_600_000, 57_600_001, u32::MAX];
                if self.printed + self.lines / 20 >= self.lines {
                    times.push(57_599_999); // taken near the end only, as no later time follows
                }
                command.time = self.random.pick(&times);
            }
            5 => {
                // A close is taken only where the day is to be closed: this one gets a number seen or a
                // bad time.
                command.body = Body::Close;
                if self.random.percent(50) {
                    command.number = last;
                } else {
                    command.time = self.random.pick(&[34_199_999, 57_600_001]);
                }
            }
            _ => self.damage_body(&mut command.body),
        }
    }

    fn damage_body(&mut self, body: &mut Body) {
        const PRICES: [u32; 9] = [0, 1, 99, 100, 200_000, 200_001, 1 << 31, u32::MAX, 101];
        const SHARES: [u32; 8] = [0, 1, 1_000_000, 1_000_001, 0, 1_000_001, 1 << 24, u32::MAX];
        match body {
            Body::Order(order) => match self.random.below(13) {
                0 | 1 => order.price = self.random.pick(&PRICES),
                2 | 3 => order.shares = self.random.pick(&SHARES),
                4 => order.side = self.random.pick(&[2, 2, 3, 255]),
                5 => {
                    order.word = TAKER | MARKET; // a market order with a price
                    order.price = self.random.pick(&[1, 99, 100, 2000, 200_001]);
                    order.extra = Extra::Nothing;
                }
                6 => {
                    let bit = self.random.below(16);
                    order.word = self.lawful_word() ^ 1 << bit;
                }
                // Bit 10 in kind 01 or 06, or kind 05 without it: by the word, or by the kind.
                7 => order.word ^= RESERVE,
                8 => {
                    let all = order.shares;
                    order.extra =
                        self.random.pick(&[Extra::Nothing, Extra::MaxFloor(all), Extra::Minimum(all)]);
                }
                // A Max Floor or a minimum at the ends of its range.
                9 | 10 => {
                    let shares = order.shares;
                    let above = shares.wrapping_add(1);
                    let extra = self.random.pick(&[0, 0, 1, shares, above, above, MAX_SHARES, u32::MAX]);
                    let is_minimum = self.random.percent(50);
                    order.extra = if is_minimum { Extra::Minimum(extra) } else { Extra::MaxFloor(extra) };
                    let words = if is_minimum {
                        [HIDDEN, HIDDEN | ISO, IOC | NON_DISPLAYED | CANCEL_BACK]
                    } else {
                        [RESERVED, RESERVED | ISO, RESERVED | POST_ONLY]
                    };
                    if self.random.percent(90) {
                        order.word = self.random.pick(&words);
                    }
                    if order.price == 0 {
                        order.price = self.middle; // of a market order
                    }
                }
                11 => {
                    // A minimum with a word that is lawful in another kind alone, or in none.
                    let words = [
                        ORDINARY,
                        ORDINARY | POST_ONLY,
                        TAKER,
                        KILLER,
                        RESERVED,
                        HIDDEN | RESERVE,
                        HIDDEN | DISPLAYED,
                        HIDDEN | POST_ONLY,
                        HIDDEN | 1 << 11,
                    ];
                    order.word = self.random.pick(&words);
                    let minimum = self.random.pick(&[0, 1, order.shares]);
                    order.extra = Extra::Minimum(minimum);
                }
                _ => {
                    // Just unlawful by one of the last rules, or anything.
                    let anything = self.random.next() as u16;
                    let words = [
                        ORDINARY | POST_ONLY | ISO,
                        HIDDEN | POST_ONLY,
                        TAKER | POST_ONLY,
                        FOK | DISPLAYED | CANCEL_BACK | POST_ONLY,
                        KILLER | ISO,
                        TAKER | ISO | MARKET,
                        ORDINARY | MARKET,
                        TAKER | RESERVE,
                        KILLER | RESERVE,
                        HIDDEN | RESERVE,
                        RESERVED | POST_ONLY | ISO,
                        anything & 0x07ff,
                        anything,
                    ];
                    order.word = self.random.pick(&words);
                    if order.word & MARKET != 0 {
                        order.price = 0;
                    }
                    // Mostly the kind that bit 10 asks for, so that the rest of the word tells.
                    if self.random.percent(75) {
                        order.extra = match order.word & RESERVE {
                            0 => Extra::Nothing,
                            _ => Extra::MaxFloor(order.shares),
                        };
                    }
                }
            },
            Body::Cancel { order } => {
                let last = self.book.last_number;
                let seen = self.random.between(0, last);
                *order = self.random.pick(&[0, seen, seen, last, last + 1, last + 2, u32::MAX]);
            }
            Body::Quote { bid, offer } => {
                let price = self.random.pick(&PRICES);
                *(if self.random.percent(50) { bid } else { offer }) = price;
            }
            Body::Close => {}
        }
    }

    /// Damages the bytes of a line. The line feed at its end stays the only one.
    fn damage_text(&mut self, mut line: Vec<u8>) -> Vec<u8> {
        line.pop();
        let place = self.random.below(line.len() as u64) as usize;
        match self.random.below(13) {
            0 | 1 => line[place] = self.random.pick(b"g`/:@G xX-+\0\r\x7f\x80\xb0\xe1\xff"),
            2 => line.make_ascii_uppercase(),
            3 => {
                // One letter of the line in uppercase.
                match line.iter().position(|byte| byte.is_ascii_lowercase()) {
                    Some(letter) => line[letter].make_ascii_uppercase(),
                    None => line[place] = b'A',
                }
            }
            4 => line.truncate(place.max(1)),
            5 => {
                line.remove(place);
            }
            6 => {
                let digits = self.random.between(1, 8);
                for _ in 0..digits {
                    line.push(self.random.pick(b"0123456789abcdef"));
                }
            }
            7 => line.insert(place, self.random.pick(b"0123456789abcdef")),
            8 => line.push(self.random.pick(b" \r\t\0g")),
            9 => line.clear(),
            10 => {
                // Another kind, or this kind with another's body.
                let kinds =
                    [b"00", b"01", b"02", b"03", b"04", b"05", b"06", b"07", b"0a", b"16", b"ff"];
                let kind = self.random.pick(&kinds);
                line[..2].copy_from_slice(kind);
                if line.starts_with(b"04") && line.len() == 18 {
                    line[1] = b'5';
                }
            }
            11 => {
                // An order of one kind with the digits of another: 40 with 05 or 06, 48 with 01.
                match line.len() {
                    40 => line[1] = self.random.pick(b"56"),
                    48 => line[1] = b'1',
                    _ => line.resize(48, b'0'),
                }
                if self.random.percent(50) {
                    // Now as many digits as its kind has, and the word of the other one.
                    line.resize(88 - line.len(), b'1');
                }
            }
            _ => {
                // A line over 49 bytes; seldom one longer than any piece that is read.
                let most = if self.random.below(100) == 0 { 150_000 } else { 200 };
                let length = self.random.between(49, most);
                while line.len() < length as usize {
                    line.push(self.random.pick(b"0123456789abcdef"));
                }
            }
        }
        line.push(b'\n');
        line
    }

    // Full days.

    fn full_line(&mut self) -> Vec<u8> {
        let words = [
            ORDINARY,
            ORDINARY,
            HIDDEN,
            HIDDEN,
            HIDDEN_BACK,
            DAY | DISPLAYED | CANCEL_BACK,
            ORDINARY | POST_ONLY,
            ORDINARY | ISO,
            RESERVED,
            RESERVED,
        ];
        let word = self.random.pick(&words);
        // On a day that is long enough, sides that have lost many orders are filled before all else.
        let shorter = self.shorter_side();
        let least = self.side(shorter).len();
        let is_long = self.lines > 2 * PLACES as u64;
        self.filling = is_long && (self.filling || least < PLACES - 32) && least < self.hold;
        if self.filling {
            return write_command(&self.filler(shorter, word, self.prices));
        }
        if self.random.below(300) == 0 {
            self.hold = self.random.pick(&[PLACES, PLACES, PLACES, PLACES - 2, PLACES - 16]);
            self.prices = self.random.pick(&[30, 120]);
        }
        let side = self.any_side();
        let resting = self.side(side).len();
        let steps = self.random.between(1, self.prices);
        let passive = self.passive(side, steps);
        let shares = self.random.between(1, 60);
        let choice = self.random.below(100);
        let command = if resting > self.hold && choice < 60 {
            self.cancel(side).expect("more than the hold rest")
        } else if resting < self.hold && choice < 70 {
            self.order(side, word, passive, shares)
        } else {
            match choice {
                // One that would rest.
                0..=24 => self.order(side, word, passive, shares),
                // A place freed, to be used at once.
                25..=44 => match self.cancel(side) {
                    Some(cancel) => cancel,
                    None => self.order(side, ORDINARY, passive, shares),
                },
                // Filled whole, just not filled whole, and with a remainder at the best opposite price.
                45..=69 => {
                    let limit = self.best(1 - side).unwrap_or(passive);
                    let word = self.random.pick(&[ORDINARY, ORDINARY, word, TAKER, KILLER]);
                    let found = self.fillable(side, word, limit);
                    let edges = [1, found, found, found + 1, found.saturating_sub(1), found + 500];
                    let shares = self.random.pick(&edges);
                    self.order(side, word, limit, shares)
                }
                // Post Only that meets, or Price Adjust and Cancel Back against the away price.
                70..=79 => {
                    let limit = self.aggressive(side, steps);
                    let words = [ORDINARY | POST_ONLY, DAY | DISPLAYED | CANCEL_BACK, ORDINARY];
                    let word = self.random.pick(&words);
                    self.order(side, word, limit, shares)
                }
                80..=87 => {
                    let middle = self.middle;
                    let bid = self.random.pick(&[0, middle - 1, middle, middle - 10, middle + 5]);
                    let offer = self.random.pick(&[0, middle + 1, middle, middle + 10, middle - 5, 100]);
                    self.quote(bid, offer)
                }
                // A cancel of an order that has gone, mostly.
                88..=91 => {
                    let order = self.random.between(0, self.book.last_number);
                    self.command(Body::Cancel { order })
                }
                // Seldom, a sweep of a good part of the opposite side.
                92 => {
                    let limit = self.opposite_price(side);
                    let shares = self.random.pick(&[1000, 4000]);
                    self.order(side, TAKER, limit, shares)
                }
                // Numbers again or too high, with any order.
                93 => {
                    let mut command = self.order(side, word, passive, shares);
                    command.number = self.random.pick(&[command.number - 1, command.number + 1]);
                    command
                }
                _ => self.order(side, ORDINARY, passive, shares),
            }
        };
        write_command(&command)
    }

    // Crossing days.

    fn crossing_line(&mut self) -> Vec<u8> {
        // A few orders more come than the sides take.
        self.filling &= self.side(self.shorter_side()).len() < PLACES || self.random.percent(75);
        if self.printed % 200 == 0 && !self.filling {
            // Another stretch of prices; the orders left at the last one lie far off and are swept.
            let edges = [1500, 3000, 100, 102, 199_998, 200_000];
            self.middle = self.random.pick(&edges);
            self.filling = self.random.below(12) == 0;
        }
        if self.filling {
            self.middle = 1500;
            let word = self.random.pick(&[ORDINARY, ORDINARY, HIDDEN, HIDDEN_BACK, RESERVED]);
            return write_command(&self.filler(self.shorter_side(), word, 30));
        }
        let side = self.any_side();
        let command = match self.random.below(100) {
            0..=49 => {
                // Small orders at a few prices, for others to sweep.
                let steps = self.random.between(0, 8);
                let price = self.passive(side, steps);
                let words = [ORDINARY, ORDINARY, HIDDEN, ORDINARY | ISO, HIDDEN_BACK, RESERVED];
                let word = self.random.pick(&words);
                let shares = self.random.between(1, 40);
                if self.side(side).len() == PLACES && self.random.percent(90) {
                    self.cancel(side).expect("a full side is not empty")
                } else {
                    self.order(side, word, price, shares)
                }
            }
            50..=64 => self.crossing_quote(),
            65..=69 => match self.cancel(side) {
                Some(cancel) => cancel,
                None => self.crossing_quote(),
            },
            70..=79 => {
                // Fill-or-Kill, just fillable and just not.
                let word = if self.random.percent(25) { KILLER | MARKET } else { KILLER };
                let limit = self.opposite_price(side);
                let found = self.fillable(side, word, limit);
                let shares = self.random.pick(&[found, found, found + 1, found.saturating_sub(1)]);
                self.order(side, word, limit, shares)
            }
            80..=86 => {
                // Post Only at, one before and one past a price of the opposite side.
                let price = self.opposite_price(side) - 1 + self.random.between(0, 2);
                let choices = [PRICE_ADJUST, PRICE_ADJUST, CANCEL_BACK, PRICE_ADJUST | RESERVE];
                let word = DAY | DISPLAYED | POST_ONLY | self.random.pick(&choices);
                self.order(side, word, price, 25)
            }
            _ => {
                // Large orders through many: IOC, market, ISO, and Day ones with a remainder to rest.
                let words = [
                    TAKER,
                    IOC | NON_DISPLAYED | CANCEL_BACK | MARKET,
                    TAKER | ISO,
                    ORDINARY | ISO,
                    HIDDEN | ISO,
                    ORDINARY,
                    DAY | DISPLAYED | CANCEL_BACK,
                    HIDDEN,
                    HIDDEN_BACK,
                    RESERVED,
                    RESERVED | ISO,
                    DAY | DISPLAYED | CANCEL_BACK | RESERVE,
                ];
                let word = self.random.pick(&words);
                let limit = self.opposite_price(side);
                let found = self.fillable(side, word, limit);
                let large = self.random.between(100, 2000);
                let shares = self.random.pick(&[large, large, found, found + 1, MAX_SHARES]);
                self.order(side, word, limit, shares)
            }
        };
        write_command(&command)
    }

    /// Away quotes: ordinary, locked, crossed, one-sided, at our own best prices, at the edges.
    fn crossing_quote(&mut self) -> Command {
        let middle = self.middle;
        let bid = self.best(BUY).unwrap_or(middle);
        let offer = self.best(SELL).unwrap_or(middle);
        let near = self.random.between(0, 3);
        let quotes = [
            (0, 0),
            (middle - near, middle + near + 1),
            (middle, middle),
            (middle + near, middle - near),
            (bid, offer),
            (offer, bid),
            (offer + near, 0),
            (0, bid - near),
            (bid, 0),
            (0, offer),
            (MAX_PRICE, middle),
            (middle, MIN_PRICE),
            (MAX_PRICE, MIN_PRICE),
            (MAX_PRICE - near, MIN_PRICE + near),
        ];
        let (bid, offer) = self.random.pick(&quotes);
        self.quote(bid, offer)
    }

    // Moving days.

    fn moving_line(&mut self) -> Vec<u8> {
        if self.printed % 150 == 0 && self.whole.is_none() {
            self.middle = self.random.pick(&[1500, 1500, 3000, 104, 199_996]);
            if self.random.below(10) == 0 {
                self.whole = Some(Whole::SweepSells);
            }
        }
        if let Some(step) = self.whole {
            return write_command(&self.whole_sides(step));
        }
        let side = self.any_side();
        let command = match self.random.below(100) {
            0..=54 => self.moving_maker(side),
            55..=74 => self.moving_quote(),
            // Small orders into the other side, which tell the rank of what stands there.
            75..=89 => {
                let limit = self.opposite_price(side);
                let shares = self.random.between(1, 60);
                let words = [
                    TAKER,
                    TAKER | ISO,
                    TAKER | ISO,
                    IOC | NON_DISPLAYED | CANCEL_BACK | MARKET,
                    KILLER,
                    ORDINARY,
                    HIDDEN,
                ];
                let word = self.random.pick(&words);
                self.order(side, word, limit, shares)
            }
            _ => match self.cancel(side) {
                Some(cancel) => cancel,
                None => self.moving_quote(),
            },
        };
        write_command(&command)
    }

    fn whole_sides(&mut self, step: Whole) -> Command {
        match step {
            Whole::SweepSells => {
                self.whole = Some(Whole::SweepBuys);
                self.order(BUY, TAKER | ISO, MAX_PRICE, MAX_SHARES)
            }
            Whole::SweepBuys => {
                let any = self.random.pick(&[0, 0, 3, 50]);
                self.whole = Some(Whole::Fill(any));
                self.order(SELL, TAKER | ISO, MIN_PRICE, MAX_SHARES)
            }
            Whole::Fill(any) => {
                if self.book.buys.len() + self.book.sells.len() + 1 == 2 * PLACES {
                    self.whole = Some(Whole::Quote);
                }
                let word = if self.random.percent(any) { self.moving_word() } else { HIDDEN };
                self.filler(self.shorter_side(), word, 5)
            }
            Whole::Quote => {
                self.whole = None;
                // All of both sides, all but the worst price, or about half.
                let middle = self.middle;
                let beyond = self.random.pick(&[6, 5, 3]);
                let quotes = [(MAX_PRICE, MIN_PRICE), (middle + beyond, middle - beyond)];
                let (bid, offer) = self.random.pick(&quotes);
                self.quote(bid, offer)
            }
        }
    }

    /// An order to be moved, cancelled or passed over by the quotes that follow.
    fn moving_maker(&mut self, side: u8) -> Command {
        if self.side(side).len() == PLACES && self.random.percent(90) {
            return self.cancel(side).expect("a full side is not empty");
        }
        let word = self.moving_word();
        // Few prices, so that many orders meet at one; now and then the Locking Price itself.
        let steps = self.random.between(0, 5);
        let locking = self.locking(side);
        let price = match self.random.below(8) {
            0 if locking != 0 => locking,
            _ => self.passive(side, steps),
        };
        let shares = self.random.between(1, 40);
        self.order(side, word, price, shares)
    }

    fn moving_word(&mut self) -> u16 {
        let words = [
            HIDDEN,
            HIDDEN,
            HIDDEN,
            HIDDEN_BACK,
            HIDDEN_BACK,
            HIDDEN | ISO,
            HIDDEN | ISO,
            HIDDEN_BACK | ISO,
            ORDINARY,
            ORDINARY | ISO,
            DAY | DISPLAYED | CANCEL_BACK,
            ORDINARY | POST_ONLY,
            RESERVED,
            RESERVED | ISO,
        ];
        self.random.pick(&words)
    }

    /// A quote at, just short of or just past the price of a resting order, on one side or on
    /// both; or the quote held before once more; or one that lets all orders stand.
    fn moving_quote(&mut self) -> Command {
        let (held_bid, held_offer) = (self.book.away_bid, self.book.away_offer);
        // The away bid is judged against our sells, the away offer against our buys.
        let bid = self.opposite_price(BUY) - 1 + self.random.between(0, 2);
        let offer = self.opposite_price(SELL) - 1 + self.random.between(0, 2);
        let quotes = [
            (0, 0),
            (self.middle - 4, self.middle + 4),
            (held_bid, held_offer),
            (held_bid, offer),
            (bid, held_offer),
            (bid, 0),
            (0, offer),
            (bid, offer),
            (bid, offer),
            (self.middle, self.middle),
            (MAX_PRICE, 0),
            (self.middle - 3, MIN_PRICE),
        ];
        // The last two move whole sides, and all that comes after them; so they are rare.
        let choice = if self.random.percent(2) { 10 + self.random.below(2) } else { self.random.below(10) };
        let (bid, offer) = quotes[choice as usize];
        self.quote(bid, offer)
    }

    // Reserve days.

    fn reserve_line(&mut self) -> Vec<u8> {
        if self.printed >= self.change_at {
            self.hold = self.random.pick(&[3, 6, 6, 12, 24, PLACES]);
            self.change_at = self.printed + if self.hold == PLACES { 1500 } else { 250 };
            self.prices = self.random.between(1, 3);
            if self.random.percent(50) {
                self.middle = self.random.pick(&[1500, 1500, 3000, 104, 199_996]);
            }
        }
        // Full sides are filled before all else, and again when half of one has gone.
        let least = self.side(self.shorter_side()).len();
        self.filling = (self.filling || least < PLACES / 2) && least < PLACES && self.hold == PLACES;
        if self.filling {
            let side = self.shorter_side();
            let clearing = self.clear_the_way(side);
            return write_command(&clearing.unwrap_or_else(|| self.reserve_maker(side)));
        }
        let side = self.any_side();
        // The more orders a side is to hold, the longer it is left alone to get them.
        let makers = if self.hold > 12 { 90 } else { 55 };
        let command = match self.random.below(100) {
            choice if choice < makers && self.side(side).len() < self.hold => self.reserve_maker(side),
            0..=2 => match self.cancel(side) {
                Some(cancel) => cancel,
                None => self.reserve_maker(side),
            },
            3..=5 => self.moving_quote(),
            6 => self.quote(0, 0),
            7..=9 => self.reserve_maker(side), // beyond the hold: refused if the side is full
            _ => self.reserve_taker(side),
        };
        write_command(&command)
    }

    fn reserve_maker(&mut self, side: u8) -> Command {
        let words = [
            RESERVED,
            RESERVED,
            RESERVED,
            RESERVED,
            RESERVED | ISO,
            RESERVED | POST_ONLY,
            DAY | DISPLAYED | CANCEL_BACK | RESERVE,
            ORDINARY,
            ORDINARY,
            HIDDEN,
            HIDDEN,
            HIDDEN_BACK,
        ];
        let word = self.random.pick(&words);
        // Nearly a whole side of them, for walks over 256 orders and their 256 reserves.
        let word = if self.hold == PLACES && self.random.percent(95) { RESERVED } else { word };
        let steps = self.random.between(1, self.prices);
        let price = self.passive(side, steps);
        let most = self.random.pick(&[3, 30, 30, 300]);
        let shares = self.random.between(1, most);
        self.order(side, word, price, shares)
    }

    /// An order that ends at, just short of or just past an edge of the walk over the best price
    /// of the other side: the first shown part, all shown parts, the hidden orders behind them,
    /// the first reserve, all of them. Or one anywhere in between, or through every price.
    fn reserve_taker(&mut self, side: u8) -> Command {
        let Some(best) = self.best(1 - side) else { return self.reserve_maker(1 - side) };
        let ranked = self.side(1 - side).iter().rev().copied();
        let at_best: Vec<Resting> = ranked.take_while(|resting| resting.price.cents() == best).collect();
        let sum = |hidden: bool| -> u32 {
            at_best.iter().filter(|resting| resting.hidden == hidden).map(|resting| resting.shown).sum()
        };
        let (shown, hidden) = (sum(false), sum(true));
        let mut reserves = at_best.iter().map(|resting| resting.reserve);
        let first_reserve = reserves.find(|&reserve| reserve > 0).unwrap_or(0);
        let all: u32 = at_best.iter().map(|resting| resting.shares()).sum();
        let ranked = self.random.between(1, shown + hidden);
        let any = self.random.between(1, all);
        let edges = [
            at_best[0].shown,
            at_best[0].shown,
            shown,
            shown,
            shown + hidden,
            shown + hidden,
            shown + hidden + first_reserve,
            all,
            ranked,
            ranked,
            any,
        ];
        let edge = self.random.pick(&edges);
        let shares = self.random.pick(&[edge.saturating_sub(1), edge, edge, edge + 1]);
        let through = self.random.below(20) == 0;
        let worst = self.side(1 - side)[0].price.cents();
        let limit = if through { worst } else { best };
        // Past a lock, mostly: at it nothing would execute.
        let past = self.locks(side) && !through && self.random.percent(75);
        let limit = match (past, side) {
            (false, _) => limit,
            (true, BUY) => limit + 1,
            (true, _) => limit - 1,
        };
        let words = [
            TAKER,
            TAKER,
            TAKER,
            TAKER | ISO,
            KILLER,
            KILLER,
            TAKER | MARKET,
            ORDINARY,
            RESERVED,
            HIDDEN,
            HIDDEN_BACK | ISO,
        ];
        let word = self.random.pick(&words);
        let all = self.fillable(side, word, limit) + self.random.between(0, 1);
        let shares = if through { all } else { shares };
        self.order(side, word, limit, shares)
    }

    // Locks days.

    fn locks_line(&mut self) -> Vec<u8> {
        if self.printed >= self.change_at {
            // Another price; the orders left at the last one are swept first, mostly.
            let end = self.random.pick(&[MIN_PRICE, MIN_PRICE + 1, MAX_PRICE - 1, MAX_PRICE]);
            self.middle = self.random.pick(&[1500, 1500, 3000, end, end]);
            self.locked_side = self.any_side();
            self.filling = self.lines > 2 * PLACES as u64 && self.random.below(50) == 0;
            self.sweeping = self.filling || self.random.percent(85);
            self.hold = if self.filling { PLACES } else { self.random.pick(&[1, 2, 3, 4, 8]) };
            let stretch = if self.filling { 900 } else { self.random.between(10, 120) };
            self.change_at = self.printed + stretch as u64;
        }
        if self.sweeping {
            if let Some(sweep) = self.sweep() {
                return write_command(&sweep);
            }
            self.sweeping = false;
        }
        let command = match [BUY, SELL].into_iter().find(|&side| self.locks(side)) {
            Some(locker) if self.filling => self.join(locker),
            Some(locker) => self.about_the_lock(locker),
            None => self.about_no_lock(),
        };
        write_command(&command)
    }

    /// What ends the away quote and then all resting orders, as long as there is any of them.
    fn sweep(&mut self) -> Option<Command> {
        if self.is_quoted() {
            return Some(self.quote(0, 0));
        }
        let side = [BUY, SELL].into_iter().find(|&side| !self.side(1 - side).is_empty())?;
        let word = self.random.pick(&[TAKER | MARKET, KILLER | MARKET]);
        let shares = self.fillable(side, word, 0);
        Some(self.order(side, word, 0, shares))
    }

    fn is_quoted(&self) -> bool {
        (self.book.away_bid, self.book.away_offer) != (0, 0)
    }

    fn about_no_lock(&mut self) -> Command {
        let side = self.any_side();
        match self.random.below(100) {
            _ if self.filling => self.step_to_a_lock(),
            0..=69 => self.step_to_a_lock(),
            70..=79 => self.behind(side),
            80..=87 => self.quote_beside(self.middle),
            88..=92 => match self.cancel(side) {
                Some(cancel) => cancel,
                None => self.behind(side),
            },
            _ => {
                let price = self.best(1 - side).unwrap_or(self.middle);
                self.lock_taker(side, price)
            }
        }
    }

    /// Hidden orders on one side, as many as are held at once, and then Post Only from the other.
    fn step_to_a_lock(&mut self) -> Command {
        if self.is_quoted() && (self.filling || self.random.percent(70)) {
            return self.quote(0, 0);
        }
        if let Some(price) = self.best(BUY).filter(|_| self.best(BUY) == self.best(SELL)) {
            // Hidden meets hidden, left by a lock that ended: either side may lock the other.
            let side = self.any_side();
            return self.post_only(side, price);
        }
        let hidden_side = self.locked_side;
        let beside = self.middle - 1 + self.random.between(0, 2);
        let price = if self.filling || self.random.percent(75) { self.middle } else { beside };
        if let Some(&best) = self.side(hidden_side).last() {
            let best_price = best.price.cents();
            let is_better = if hidden_side == BUY { price > best_price } else { price < best_price };
            if best.hidden {
                let at_best = self.side(hidden_side).iter().filter(|resting| resting.price == best.price);
                if at_best.count() >= self.hold || (!self.filling && self.random.percent(30)) {
                    return self.post_only(1 - hidden_side, best_price);
                }
            } else if !is_better {
                // A displayed order stands where hidden ones are to be first.
                return self.command(Body::Cancel { order: best.number });
            }
        }
        let word = self.random.pick(&[HIDDEN, HIDDEN, HIDDEN, HIDDEN_BACK, HIDDEN | ISO]);
        let shares = self.random.between(1, 40);
        self.order(hidden_side, word, price, shares)
    }

    fn post_only(&mut self, side: u8, price: u32) -> Command {
        let choices = [PRICE_ADJUST, PRICE_ADJUST, CANCEL_BACK, PRICE_ADJUST | RESERVE];
        let word = DAY | DISPLAYED | POST_ONLY | self.random.pick(&choices);
        let shares = self.random.between(1, 40);
        self.order(side, word, price, shares)
    }

    /// An order of any kind one to four cents behind the middle, for the walks that go on.
    fn behind(&mut self, side: u8) -> Command {
        let steps = self.random.between(1, 4);
        let price = self.passive(side, steps);
        let words = [ORDINARY, ORDINARY, HIDDEN, HIDDEN_BACK, RESERVED, RESERVED, ORDINARY | POST_ONLY];
        let word = self.random.pick(&words);
        let shares = self.random.between(1, 40);
        self.order(side, word, price, shares)
    }

    /// Away prices at that price, one or two cents to either side of it, or none.
    fn quote_beside(&mut self, price: u32) -> Command {
        let mut away = || match self.random.below(8) {
            0..=2 => 0,
            choice => price + choice as u32 - 5,
        };
        let (bid, offer) = (away(), away());
        self.quote(bid, offer)
    }

    /// A command while displayed orders of that side lock hidden ones of the other.
    fn about_the_lock(&mut self, locker: u8) -> Command {
        let price = self.best(locker).expect("its best order locks");
        match self.random.below(100) {
            // A remainder would rest where no place is left: refused, and nothing executes.
            0..=19 if self.side(locker).len() == PLACES => {
                let word = self.random.pick(&[ORDINARY, HIDDEN, RESERVED, ORDINARY | ISO]);
                let limit = if locker == BUY { price + 1 } else { price - 1 };
                let shares = self.fillable(locker, word, limit) + 1;
                self.order(locker, word, limit, shares)
            }
            0..=36 => self.lock_taker(locker, price),
            37..=49 => self.lock_taker(1 - locker, price),
            50..=58 => self.join(locker),
            59..=70 => self.quote_beside(price),
            71..=73 if self.is_quoted() => self.quote(0, 0),
            71..=79 => self.behind(1 - locker),
            80..=82 => self.behind(locker),
            83..=89 => self.cancel_locking(locker),
            90..=93 => {
                let side = self.any_side();
                self.cancel(side).expect("both sides of a lock have orders")
            }
            // At the lock, or a cent to either side of it: from its own side it joins, passes a hidden
            // order or stays behind, from the other it meets the displayed one or stays behind.
            _ => {
                let side = self.any_side();
                let beside = price - 1 + self.random.between(0, 2);
                self.post_only(side, beside)
            }
        }
    }

    /// A cancel of a locking order; with the last of them the lock goes.
    fn cancel_locking(&mut self, locker: u8) -> Command {
        let best = self.best(locker);
        let is_locking = |resting: &&Resting| Some(resting.price.cents()) == best && !resting.hidden;
        let locking: Vec<u32> =
            self.side(locker).iter().filter(is_locking).map(|resting| resting.number).collect();
        let order = self.random.pick(&locking);
        self.command(Body::Cancel { order })
    }

    /// An order at the lock from the side of the displayed ones: barred, so it rests there or cancels.
    fn join(&mut self, locker: u8) -> Command {
        if self.filling && self.side(locker).len() == PLACES {
            // Both sides are full: this last one is refused, and from here on locks are small.
            self.filling = false;
            self.hold = 6;
        }
        let words = [
            ORDINARY,
            ORDINARY | POST_ONLY,
            ORDINARY | ISO,
            DAY | DISPLAYED | CANCEL_BACK,
            RESERVED,
            RESERVED | POST_ONLY,
            HIDDEN,
            HIDDEN,
            HIDDEN_BACK,
            HIDDEN | ISO,
        ];
        let word = self.random.pick(&words);
        let price = self.best(locker).expect("its best order locks");
        let shares = self.random.between(1, 40);
        self.order(locker, word, price, shares)
    }

    /// An order into the other side at that price, one cent beyond it, further on, or market; of all
    /// it finds, one more, one less, what stands at the best price, or a few.
    fn lock_taker(&mut self, side: u8, price: u32) -> Command {
        let words = [
            TAKER,
            TAKER,
            TAKER | ISO,
            IOC | NON_DISPLAYED | CANCEL_BACK,
            KILLER,
            KILLER,
            ORDINARY,
            ORDINARY | ISO,
            DAY | DISPLAYED | CANCEL_BACK,
            HIDDEN,
            HIDDEN | ISO,
            HIDDEN_BACK,
            RESERVED,
        ];
        // Past the ends of the range only market orders go.
        let end = if side == BUY { MAX_PRICE } else { MIN_PRICE };
        let word = if self.random.percent(if price == end { 60 } else { 20 }) {
            self.random.pick(&[TAKER, KILLER, IOC | NON_DISPLAYED | CANCEL_BACK]) | MARKET
        } else {
            self.random.pick(&words)
        };
        let further = self.random.between(2, 5);
        let beyond = self.random.pick(&[0, 0, 1, 1, 1, further]);
        let limit = if side == BUY { price + beyond } else { price - beyond };
        let found = self.fillable(side, word, limit);
        let best = self.side(1 - side).last().map(|best| best.price);
        let at_best = self.side(1 - side).iter().filter(|resting| Some(resting.price) == best);
        let at_best: u32 = at_best.map(|resting| resting.shares()).sum();
        let few = self.random.between(1, 20);
        let sizes = [few, few, few, found, found + 1, found.saturating_sub(1), at_best, at_best + 1];
        let shares = self.random.pick(&sizes);
        self.order(side, word, limit, shares)
    }

    // Minimum days.

    fn minimum_line(&mut self) -> Vec<u8> {
        if self.printed >= self.change_at {
            // Other prices; the orders left at the last ones are swept first, mostly.
            let end = self.random.pick(&[MIN_PRICE, MIN_PRICE + 1, MAX_PRICE - 1, MAX_PRICE]);
            self.middle = self.random.pick(&[1500, 1500, 3000, end]);
            self.prices = self.random.between(1, 4);
            self.locked_side = self.any_side();
            let is_full = self.lines > 2 * PLACES as u64 && self.random.below(40) == 0;
            self.sweeping = is_full || self.random.percent(70);
            self.hold = if is_full { PLACES } else { self.random.pick(&[2, 4, 6, 10, 16]) };
            let stretch = if is_full { 900 } else { self.random.between(10, 120) };
            self.change_at = self.printed + stretch as u64;
        }
        if self.sweeping {
            if let Some(sweep) = self.sweep() {
                return write_command(&sweep);
            }
            self.sweeping = false;
        }
        let least = self.side(self.shorter_side()).len();
        self.filling = self.hold == PLACES && least < PLACES && (self.filling || least < PLACES - 32);
        let side = self.any_side();
        let command = match [BUY, SELL].into_iter().find(|&side| self.locks(side)) {
            _ if self.filling => {
                let word = self.random.pick(&[HIDDEN, HIDDEN, HIDDEN, HIDDEN_BACK, ORDINARY, RESERVED]);
                self.filler(self.shorter_side(), word, self.prices)
            }
            _ if self.side(side).len() == PLACES && self.random.percent(50) => self.more_than_found(side),
            Some(locker) if self.random.percent(60) => self.minimums_at_a_lock(locker),
            // Hidden meets hidden, left by a lock that ended.
            None if self.best(BUY).is_some_and(|price| self.best(SELL) == Some(price))
                && self.random.percent(50) =>
            {
                self.minimum_taker(side)
            }
            _ => self.minimums_anywhere(side),
        };
        write_command(&command)
    }

    fn minimums_anywhere(&mut self, side: u8) -> Command {
        match self.random.below(100) {
            0..=44 if self.side(side).len() < self.hold => self.minimum_maker(side),
            0..=44 => self.minimum_taker(side),
            45..=47 => match self.cancel(side) {
                Some(cancel) => cancel,
                None => self.minimum_maker(side),
            },
            48..=50 => self.moving_quote(),
            51..=52 => self.quote_beside(self.middle),
            53..=57 if self.is_quoted() => self.quote(0, 0),
            // At the best price of the other side, and at or beside any.
            58..=63 => {
                let price = self.best(1 - side).unwrap_or(self.middle);
                self.post_only(side, price)
            }
            64..=65 => {
                let price = self.opposite_price(side) - 1 + self.random.between(0, 2);
                self.post_only(side, price)
            }
            66..=70 => self.step_to_a_lock(),
            71..=76 => match self.asking(side) {
                Some(target) => self.set_beside(side, target),
                None => self.minimum_maker(1 - side),
            },
            _ => self.minimum_taker(side),
        }
    }

    /// A Day order for more than it finds. If its side is full it is refused, unless its remainder is
    /// cancelled: that of a walk undone, mostly.
    fn more_than_found(&mut self, side: u8) -> Command {
        let limit = self.opposite_price(side);
        let word = self.random.pick(&[HIDDEN, HIDDEN, HIDDEN | ISO, HIDDEN_BACK, ORDINARY, RESERVED]);
        let found = self.fillable(side, word, limit);
        let more = found + self.random.between(1, 3);
        let mut command = self.order(side, word, limit, more);
        if let Body::Order(Order { extra: Extra::Minimum(minimum), .. }) = &mut command.body {
            *minimum = self.random.pick(&[found.max(1), found + 1, found + 1, more]);
        }
        command
    }

    /// A command while displayed orders of that side lock hidden ones of the other.
    fn minimums_at_a_lock(&mut self, locker: u8) -> Command {
        match self.random.below(100) {
            0..=29 => self.about_the_lock(locker),
            30..=39 => self.join(locker),
            40..=61 => {
                let locked = *self.side(1 - locker).last().expect("its best order is locked");
                self.set_beside(locker, locked)
            }
            62..=65 => self.cancel_locking(locker),
            66..=72 => self.minimum_taker(1 - locker),
            73..=82 => self.past_the_lock(locker),
            _ => self.minimum_taker(locker),
        }
    }

    /// A Day order that takes all the locked orders, and of which too little is left for one with a
    /// minimum at a price behind them.
    fn past_the_lock(&mut self, locker: u8) -> Command {
        let ranked = self.ranked(1 - locker);
        let is_behind = |resting: &Resting| resting.price != ranked[0].price && resting.minimum() > 1;
        let Some(place) = ranked.iter().position(is_behind) else {
            return self.minimum_maker(1 - locker);
        };
        let (ahead, asked) = ahead_and_asked(&ranked, place);
        let word = self.random.pick(&[ORDINARY, ORDINARY | ISO, RESERVED, HIDDEN, HIDDEN | ISO]);
        self.order(locker, word, ranked[place].price.cents(), ahead + asked - 1)
    }

    /// A Day order limited past the price of that order, mostly one that does not suffice it. A
    /// displayed one is set at that price after its walk if the away price is a cent past it, and a
    /// cent before it if the away price is at it; then a hidden one is set at it. So such a quote comes
    /// first, if there is none yet.
    fn set_beside(&mut self, side: u8, target: Resting) -> Command {
        let price = target.price.cents();
        let past = |cents: u32| if side == BUY { price + cents } else { price - cents };
        let locking = self.locking(side);
        if locking != price && locking != past(1) {
            let away = past(self.random.pick(&[0, 1, 1]));
            return if side == BUY { self.quote(0, away) } else { self.quote(away, 0) };
        }
        let (_, asked) = ahead_and_asked(&[target], 0);
        let minimums = self.side(1 - side).iter().map(Resting::minimum);
        let few = minimums.filter(|&minimum| minimum > 1).min().unwrap_or(1);
        let shares = self.random.pick(&[asked - 1, asked, asked + 1, few - 1, few - 1]);
        let limit = past(self.random.between(1, 3));
        let word = self.random.pick(&[ORDINARY, ORDINARY, RESERVED, HIDDEN]);
        self.order(side, word, limit, shares)
    }

    /// An opposite order with a minimum: one at or beside the away price, or else any, if there is one.
    fn asking(&mut self, side: u8) -> Option<Resting> {
        let locking = self.locking(side);
        let asking = self.side(1 - side).iter().filter(|resting| resting.minimum() > 1);
        let (beside, others): (Vec<Resting>, Vec<Resting>) =
            asking.partition(|resting| resting.price.cents().abs_diff(locking) <= 1);
        let choices = if beside.is_empty() { others } else { beside };
        (!choices.is_empty()).then(|| self.random.pick(&choices))
    }

    /// Mostly a hidden order, with a minimum mostly; on one of the sides many that ask for much, so that
    /// a small order skips several.
    fn minimum_maker(&mut self, side: u8) -> Command {
        let words = [
            HIDDEN,
            HIDDEN,
            HIDDEN,
            HIDDEN,
            HIDDEN_BACK,
            HIDDEN_BACK,
            HIDDEN | ISO,
            ORDINARY,
            RESERVED,
            ORDINARY | POST_ONLY,
        ];
        let asks_much = side == self.locked_side && self.random.percent(60);
        // The first seven are hidden.
        let word = if asks_much { self.random.pick(&words[..7]) } else { self.random.pick(&words) };
        let least = self.random.pick(&[0, 1, 1, 1]);
        let steps = self.random.between(least, self.prices);
        let price = self.passive(side, steps);
        let most = self.random.pick(&[4, 40, 40, 300]);
        let shares = if asks_much { self.random.between(10, 60) } else { self.random.between(1, most) };
        let mut command = self.order(side, word, price, shares);
        if let Body::Order(Order { extra: Extra::Minimum(minimum), .. }) = &mut command.body {
            if asks_much {
                *minimum = self.random.between(shares / 2, shares);
            }
        }
        command
    }

    /// An order into the other side of which, when the walk reaches one of the orders there, as much
    /// is left as that one's minimum asks for, or one less or more, if no other is skipped before it;
    /// or one of that size in all, or all that stands there. If it has a minimum itself, that is at or
    /// beside what its walk gives, mostly.
    fn minimum_taker(&mut self, side: u8) -> Command {
        let ranked = self.ranked(1 - side);
        if ranked.is_empty() {
            return self.minimum_maker(1 - side);
        }
        let near = self.random.below(ranked.len().min(4) as u64) as usize;
        let any = self.random.below(ranked.len() as u64) as usize;
        let asking: Vec<usize> =
            (0..ranked.len()).filter(|&place| ranked[place].minimum() > 1).take(4).collect();
        let asking = if asking.is_empty() { near } else { self.random.pick(&asking) };
        let place = self.random.pick(&[asking, asking, asking, near, any]);
        let target = ranked[place];
        let (ahead, asked) = ahead_and_asked(&ranked, place);
        let words = [
            TAKER,
            TAKER | ISO,
            KILLER,
            ORDINARY,
            ORDINARY,
            ORDINARY | ISO,
            DAY | DISPLAYED | CANCEL_BACK,
            RESERVED,
            HIDDEN,
            HIDDEN,
            HIDDEN,
            HIDDEN | ISO,
            HIDDEN_BACK,
            IOC | NON_DISPLAYED | PRICE_ADJUST,
            IOC | NON_DISPLAYED | CANCEL_BACK | ISO,
            FOK | NON_DISPLAYED | PRICE_ADJUST,
        ];
        let unpriced =
            [TAKER, KILLER, IOC | NON_DISPLAYED | CANCEL_BACK, FOK | NON_DISPLAYED | PRICE_ADJUST];
        let word = if self.random.percent(12) {
            self.random.pick(&unpriced) | MARKET
        } else {
            self.random.pick(&words)
        };
        let (best, worst) = (ranked[0], ranked[ranked.len() - 1]);
        let price = self.random.pick(&[target, target, target, best, worst, worst]).price.cents();
        // At a lock the orders are reached from one cent beyond it only.
        let least = if self.locks(side) { 1 } else { 0 };
        let beyond = self.random.pick(&[0, least, least, 1, 1, 3]);
        let limit = if side == BUY { price + beyond } else { price - beyond };
        let found = self.fillable(side, word, limit);
        let part = self.random.between(1, target.shown);
        let all = self.random.pick(&[found, found + 1, found.saturating_sub(1)]);
        // Less than the first few ask for that have a minimum: all of those are skipped.
        let few = ranked.iter().map(Resting::minimum).filter(|&minimum| minimum > 1).take(3).min();
        let few = few.unwrap_or(part);
        let sizes = [
            asked - 1,
            asked - 1,
            asked,
            asked + 1,
            few - 1,
            few - 1,
            ahead + asked - 1,
            ahead + asked - 1,
            ahead + asked,
            ahead + asked + 1,
            ahead + part,
            ahead + target.shown,
            part,
            all,
            found + part,
        ];
        let mut shares = self.random.pick(&sizes);
        if self.hold == PLACES && self.random.percent(90) {
            shares = shares.min(60); // so that the sides stay full
        }
        let mut command = self.order(side, word, limit, shares);
        if let Body::Order(order) = &mut command.body {
            if let Extra::Minimum(any) = order.extra {
                let given = self.given(order);
                let less = given.saturating_sub(1);
                let more = given + 1;
                let minimum = self.random.pick(&[given, given, more, more, more, less, any, any]);
                order.extra = Extra::Minimum(minimum.clamp(1, order.shares));
            }
        }
        command
    }

    /// The shares that the walk of that order gives, its own minimum left out: those of an IOC order
    /// worked on a copy of the book.
    fn given(&self, order: &Order) -> u32 {
        let word = order.word & !(FOK | DAY) | IOC;
        let order = Order { word, extra: Extra::Nothing, ..*order };
        let (number, time) = (self.book.last_number + 1, self.book.last_time);
        let command = Command { number, time, body: Body::Order(order) };
        let mut book = self.book.clone();
        book.apply(&command, &mut Vec::new()).expect("an IOC order is taken");
        let shares = |book: &Book| -> u32 {
            let side = if order.side == BUY { &book.sells } else { &book.buys };
            side.iter().map(|resting| resting.shares()).sum()
        };
        shares(&self.book) - shares(&book)
    }
}

/// Of orders in rank order, the shares that a walk takes before it reaches the one at that place if it
/// skips none, and the fewest that must then be left if that one is not to be skipped.
fn ahead_and_asked(ranked: &[Resting], place: usize) -> (u32, u32) {
    let target = ranked[place];
    let taken = |resting: &Resting| {
        if resting.price == target.price { resting.shown } else { resting.shares() }
    };
    (ranked[..place].iter().map(taken).sum(), target.minimum().clamp(1, target.shown))
}

/// The line of a command, of any field values.
fn write_command(command: &Command) -> Vec<u8> {
    let Command { number, time, body } = command;
    let line = match body {
        Body::Order(Order { side, word, price, shares, extra }) => {
            let (kind, extra) = match extra {
                Extra::Nothing => ("01", String::new()),
                Extra::MaxFloor(max_floor) => ("05", format!("{max_floor:08x}")),
                Extra::Minimum(minimum) => ("06", format!("{minimum:08x}")),
            };
            format!("{kind}{number:08x}{time:08x}{side:02x}{word:04x}{price:08x}{shares:08x}{extra}\n")
        }
        Body::Cancel { order } => format!("02{number:08x}{time:08x}{order:08x}\n"),
        Body::Quote { bid, offer } => format!("03{number:08x}{time:08x}{bid:08x}{offer:08x}\n"),
        Body::Close => format!("04{number:08x}{time:08x}\n"),
    };
    line.into_bytes()
}
