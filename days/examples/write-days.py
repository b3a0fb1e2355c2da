#!/usr/bin/env python3
# Writes the days (NAME.in, NAME.out) and README.md. It knows how a line is spelt and
# nothing of the rules: what must come out of each command is written beside it by hand
# (the lawful words are a hand-written list, checked against the sentence "Lawful words").
import os
HERE = os.path.dirname(os.path.abspath(__file__))
B, S = 0, 1
IOC, FOK, DAY, D, N, PA, CB, PO, ISO, MK = (1 << i for i in range(10))
RESERVE = 1 << 10
STD = DAY | D | PA
T0 = 34200000

def h(v, n): return format(v, '0%dx' % (2 * n))
def order(n, side, price, shares, word=STD, t=T0):
    return '01' + h(n, 4) + h(t, 4) + h(side, 1) + h(word, 2) + h(price, 4) + h(shares, 4)
def buy(n, shares, price, word=STD, t=T0): return order(n, B, price, shares, word, t)
def sell(n, shares, price, word=STD, t=T0): return order(n, S, price, shares, word, t)
def reserve(n, side, shares, price, floor): return '05' + order(n, side, price, shares, STD | RESERVE)[2:] + h(floor, 4)
def minimum(n, side, shares, price, least, word=DAY | N | PA): return '06' + order(n, side, price, shares, word)[2:] + h(least, 4)
def cancel(n, num, t=T0): return '02' + h(n, 4) + h(t, 4) + h(num, 4)
def quote(n, bid, offer, t=T0): return '03' + h(n, 4) + h(t, 4) + h(bid, 4) + h(offer, 4)
def close(n, t=T0): return '04' + h(n, 4) + h(t, 4)
# what comes out; prices are said in cents here too, and the lines count half cents (02, W6)
def half_cents(price): return h(int(2 * price), 4)
def X(inc, rest, shares, price): return '11' + h(inc, 4) + h(rest, 4) + half_cents(price) + h(shares, 4)
def R(n, shares, price): return '12' + h(n, 4) + half_cents(price) + h(shares, 4)
def M(n, shares, price): return '14' + h(n, 4) + half_cents(price) + h(shares, 4)
def K(n, shares, reason): return '13' + h(n, 4) + h(shares, 4) + h(reason, 1)
def F(no): return '1f' + h(no, 1)

DAYS = []
def day(name, quoted, words, *steps, tail=b''):
    """steps: (line, out, out, ...); tail: raw bytes after the last line feed"""
    i, o = b'', b''
    for s in steps:
        l = s[0]
        i += (l if isinstance(l, bytes) else l.encode()) + b'\n'
        for e in s[1:]: o += e.encode() + b'\n'
    if tail:
        i += tail[0]
        for e in tail[1:]: o += e.encode() + b'\n'
    assert name not in [d[0] for d in DAYS], name
    DAYS.append((name, quoted, words, i, o))
def part(title): DAYS.append((None, title))

# ------------------------------------------------------------------ 1. the bullets
part('Examples from the desk, the bullets without a P')
q = '"Away offer 1002, buy@1002: '
day('buy-at-away-offer-displayed-rests-a-cent-below', q + 'displayed rests at 1001"',
    'order 2 rests 100 at 1001',
    (quote(1, 0, 1002),),
    (buy(2, 100, 1002), R(2, 100, 1001)))
day('buy-at-away-offer-non-displayed-rests-at-it', q + '... non-displayed at 1002"',
    'order 2 rests 100 at 1002',
    (quote(1, 0, 1002),),
    (buy(2, 100, 1002, DAY | N | PA), R(2, 100, 1002)))
day('buy-at-away-offer-cancel-back-displayed-gets-reason-4', q + '... Cancel Back displayed gets reason 4"',
    'order 2 cancelled, 100, reason 4',
    (quote(1, 0, 1002),),
    (buy(2, 100, 1002, DAY | D | CB), K(2, 100, 4)))
day('buy-at-away-offer-cancel-back-non-displayed-rests-at-it', q + '... Cancel Back non-displayed rests at 1002"',
    'order 2 rests 100 at 1002',
    (quote(1, 0, 1002),),
    (buy(2, 100, 1002, DAY | N | CB), R(2, 100, 1002)))

L = 256 # 01's 64 resting orders a side, which W5 raises
full_buys = [(buy(i, 10, 1000), R(i, 10, 1000)) for i in range(1, L + 1)]
full_sells = [(sell(i, 10, 1000), R(i, 10, 1000)) for i in range(1, L + 1)]
day('256-buys-one-more-resting-buy-refused-11', '"64 buys rest: one more resting buy gets 11", with W5 256',
    '256 rested lines, then 11; the number is still free: a sell takes it and rests',
    *full_buys,
    (buy(L + 1, 10, 1000), F(11)),
    (sell(L + 1, 10, 1001), R(L + 1, 10, 1001)))
day('256-buys-one-filled-whole-is-taken', '"64 buys rest: ... one filled whole is taken", with W5 256',
    '256 buys and a sell of 50 rest; a Day buy of 50 executes 50 against the sell at 1001, nothing more; then one more resting buy gets 11',
    *full_buys,
    (sell(L + 1, 50, 1001), R(L + 1, 50, 1001)),
    (buy(L + 2, 50, 1001), X(L + 2, L + 1, 50, 1001)),
    (buy(L + 3, 10, 1000), F(11)))
day('shares-0-and-1000001-refused-1-and-1000000-pass', '"Shares 0 and 1,000,001 get 9; 1 and 1,000,000 pass"',
    '9, 9, then 1 and 1,000,000 rest',
    (buy(1, 0, 1000), F(9)),
    (buy(1, 1000001, 1000), F(9)),
    (buy(1, 1, 1000), R(1, 1, 1000)),
    (buy(2, 1000000, 1000), R(2, 1000000, 1000)))
day('repeated-close-gets-4-not-6', '"A repeated close gets 4, not 6"',
    'the close cancels the resting buy (reason 7); the same close again gets 4',
    (buy(1, 10, 1000), R(1, 10, 1000)),
    (close(2), K(1, 10, 7)),
    (close(2), F(4)))
ok = buy(1, 100, 1000)
day('empty-line-gives-one-1f03', '"An empty line ... give[s] one `1f03`"',
    '3 for the empty line, then order 1 rests',
    ('', F(3)),
    (ok, R(1, 100, 1000)))
day('line-over-41-bytes-gives-one-1f03', '"a line over 41 bytes ... one `1f03`"',
    'one 3 for each line of 42, 81 and 5,001 bytes (line feed counted), then order 1 rests',
    (ok + '0', F(3)),
    (ok + buy(2, 100, 1000), F(3)),
    (ok * 125, F(3)),
    (ok, R(1, 100, 1000)))
day('last-line-without-line-feed-gives-one-1f03', '"a last line with no line feed ... one `1f03`"',
    'order 1 rests; the lawful order 2 with no line feed after it gets 3',
    (ok, R(1, 100, 1000)),
    tail=(buy(2, 100, 1000).encode(), F(3)))
day('empty-input-gives-empty-output', '"Empty input gives empty output"', 'nothing')

# ------------------------------------------------------------------ 2. away price, step 4
part('Step 4: the price a Day remainder seeks')
q = '"Displayed, and it would lock or cross that away price"'
day('sell-at-away-bid-adjusts', '"Price Adjust takes one cent less aggressive than the Locking Price"',
    'order 2 rests 100 at 1003, a cent above the away bid',
    (quote(1, 1002, 0),),
    (sell(2, 100, 1002), R(2, 100, 1003)))
day('sell-at-away-bid-non-displayed-rests-at-it', '"Non-Displayed, and it would cross (not merely lock)"',
    'order 2 rests 100 at 1002',
    (quote(1, 1002, 0),),
    (sell(2, 100, 1002, DAY | N | PA), R(2, 100, 1002)))
day('sell-at-away-bid-cancel-back', '"Cancel Back cancels, reason 4"',
    'the displayed sell at the away bid cancelled, reason 4; the non-displayed one rests at it',
    (quote(1, 1002, 0),),
    (sell(2, 100, 1002, DAY | D | CB), K(2, 100, 4)),
    (sell(3, 100, 1002, DAY | N | CB), R(3, 100, 1002)))
day('buy-a-cent-under-at-and-over-away-offer', q,
    'away offer 1002; displayed: 1001 stays, 1002 and 1003 rest at 1001; non-displayed: 1002 stays, 1003 rests at 1002; Cancel Back: displayed 1001 and hidden 1002 rest, displayed 1002, 1003 and hidden 1003 get reason 4',
    (quote(1, 0, 1002),),
    (buy(2, 10, 1001), R(2, 10, 1001)),
    (buy(3, 10, 1002), R(3, 10, 1001)),
    (buy(4, 10, 1003), R(4, 10, 1001)),
    (buy(5, 10, 1002, DAY | N | PA), R(5, 10, 1002)),
    (buy(6, 10, 1003, DAY | N | PA), R(6, 10, 1002)),
    (buy(7, 10, 1001, DAY | D | CB), R(7, 10, 1001)),
    (buy(8, 10, 1002, DAY | D | CB), K(8, 10, 4)),
    (buy(9, 10, 1003, DAY | D | CB), K(9, 10, 4)),
    (buy(10, 10, 1002, DAY | N | CB), R(10, 10, 1002)),
    (buy(11, 10, 1003, DAY | N | CB), K(11, 10, 4)))
day('sell-a-cent-over-at-and-under-away-bid', q,
    'away bid 1002; displayed: 1003 stays, 1002 and 1001 rest at 1003; non-displayed: 1002 stays, 1001 rests at 1002; Cancel Back: displayed 1003 and hidden 1002 rest, displayed 1002, 1001 and hidden 1001 get reason 4',
    (quote(1, 1002, 0),),
    (sell(2, 10, 1003), R(2, 10, 1003)),
    (sell(3, 10, 1002), R(3, 10, 1003)),
    (sell(4, 10, 1001), R(4, 10, 1003)),
    (sell(5, 10, 1002, DAY | N | PA), R(5, 10, 1002)),
    (sell(6, 10, 1001, DAY | N | PA), R(6, 10, 1002)),
    (sell(7, 10, 1003, DAY | D | CB), R(7, 10, 1003)),
    (sell(8, 10, 1002, DAY | D | CB), K(8, 10, 4)),
    (sell(9, 10, 1001, DAY | D | CB), K(9, 10, 4)),
    (sell(10, 10, 1002, DAY | N | CB), R(10, 10, 1002)),
    (sell(11, 10, 1001, DAY | N | CB), K(11, 10, 4)))
day('away-price-of-own-side-adjusts-nothing', '"The Locking Price is the away offer for a buy, the away bid for a sell"',
    'away bid 1002 and no offer: a buy at 1002 and one at 1005 rest at their limits; then away offer 990 and no bid: a sell at 1006 rests at its limit',
    (quote(1, 1002, 0),),
    (buy(2, 10, 1002), R(2, 10, 1002)),
    (buy(3, 10, 1005), R(3, 10, 1005)),
    (quote(4, 0, 990),),
    (sell(5, 10, 1006), R(5, 10, 1006)))
day('adjusts-to-the-away-market-not-to-our-book', '"Adjusting against our own book instead of the away market"',
    'sell rests at 1005, away offer 1003; buy at 1010 may not touch 1005 and rests at 1002 (not 1004); then buy at 1002 rests at 1002',
    (sell(1, 100, 1005), R(1, 100, 1005)),
    (quote(2, 0, 1003),),
    (buy(3, 100, 1010), R(3, 100, 1002)),
    (buy(4, 100, 1002), R(4, 100, 1002)))
day('part-filled-remainder-adjusts', '"A Day remainder seeks its price"',
    'away 1000 by 1002: displayed buy of 150 executes 100 at 1002, its 50 rest at 1001; a Cancel Back sell of 60 at 1000 executes those 50 at 1001, its last 10 are cancelled, reason 4',
    (sell(1, 100, 1002), R(1, 100, 1002)),
    (quote(2, 1000, 1002),),
    (buy(3, 150, 1002), X(3, 1, 100, 1002), R(3, 50, 1001)),
    (sell(4, 60, 1000, DAY | D | CB), X(4, 3, 50, 1001), K(4, 10, 4)))
day('price-adjust-below-100-gets-reason-5', '"An adjusted price outside 100 to 200,000: cancelled, reason 5" (P8)',
    'away offer 100: displayed buys at 100 and at 200,000 get reason 5, Cancel Back gets 4, non-displayed at 100 and at 105 rest at 100; away offer 101: displayed buy at 101 rests at 100',
    (quote(1, 0, 100),),
    (buy(2, 10, 100), K(2, 10, 5)),
    (buy(3, 10, 200000), K(3, 10, 5)),
    (buy(4, 10, 100, DAY | D | CB), K(4, 10, 4)),
    (buy(5, 10, 100, DAY | N | PA), R(5, 10, 100)),
    (buy(6, 10, 105, DAY | N | PA), R(6, 10, 100)),
    (quote(7, 0, 101),),
    (buy(8, 10, 101), R(8, 10, 100)))
day('price-adjust-above-200000-gets-reason-5', '"An adjusted price outside 100 to 200,000: cancelled, reason 5" (P8)',
    'away bid 200,000: displayed sells at 200,000 and at 100 get reason 5, Cancel Back gets 4, non-displayed at 200,000 and at 199,990 rest at 200,000; away bid 199,999: displayed sell at 199,999 rests at 200,000',
    (quote(1, 200000, 0),),
    (sell(2, 10, 200000), K(2, 10, 5)),
    (sell(3, 10, 100), K(3, 10, 5)),
    (sell(4, 10, 200000, DAY | D | CB), K(4, 10, 4)),
    (sell(5, 10, 200000, DAY | N | PA), R(5, 10, 200000)),
    (sell(6, 10, 199990, DAY | N | PA), R(6, 10, 200000)),
    (quote(7, 199999, 0),),
    (sell(8, 10, 199999), R(8, 10, 200000)))
day('remainder-after-executions-gets-reason-5', '"Executions come first, then at most one `12` or `13`"',
    'sell of 60 rests at 100, away offer 100: buy of 100 executes 60 at 100, 40 cancelled, reason 5; the mirror at 200,000',
    (sell(1, 60, 100), R(1, 60, 100)),
    (quote(2, 0, 100),),
    (buy(3, 100, 100), X(3, 1, 60, 100), K(3, 40, 5)),
    (quote(4, 0, 0),),
    (buy(5, 60, 200000), R(5, 60, 200000)),
    (quote(6, 200000, 0),),
    (sell(7, 100, 200000), X(7, 5, 60, 200000), K(7, 40, 5)))
day('sell-200-at-995-under-away-1000', '"away 1000 by 1010: sell 200@995 rests at 1001. P7 Non-Displayed: at 1000"',
    'displayed sell at 1001, non-displayed at 1000; displayed Cancel Back and non-displayed Cancel Back sells at 995 get reason 4',
    (quote(1, 1000, 1010),),
    (sell(2, 200, 995), R(2, 200, 1001)),
    (sell(3, 200, 995, DAY | N | PA), R(3, 200, 1000)),
    (sell(4, 200, 995, DAY | D | CB), K(4, 200, 4)),
    (sell(5, 200, 995, DAY | N | CB), K(5, 200, 4)))
day('buy-200-at-1015-over-away-1010', 'the mirror of P6 and P7',
    'displayed buy at 1009, non-displayed at 1010; Cancel Back both reason 4',
    (quote(1, 1000, 1010),),
    (buy(2, 200, 1015), R(2, 200, 1009)),
    (buy(3, 200, 1015, DAY | N | PA), R(3, 200, 1010)),
    (buy(4, 200, 1015, DAY | D | CB), K(4, 200, 4)),
    (buy(5, 200, 1015, DAY | N | CB), K(5, 200, 4)))

# ------------------------------------------------------------------ quotes
part('Quotes')
day('quote-moves-no-displayed-order', '"Quote writes nothing, and moves no resting order", which W2 keeps for displayed ones (hidden ones: `days/w2`)',
    'a displayed buy rests at 1001; away offer 1000 writes nothing; a sell at 999 executes against it at 1001',
    (buy(1, 100, 1001), R(1, 100, 1001)),
    (quote(2, 0, 1000),),
    (sell(3, 40, 999), X(3, 1, 40, 1001)),
    (cancel(4, 1), K(1, 60, 1)))
day('locked-or-crossed-quote-is-taken', '"A later quote may be locked or crossed"',
    'away 1000 by 1000 and then 1010 by 1000 write nothing; under the first a buy at 1005 rests at 999 and a sell at 995 at 1001; under the second a buy at 1005 rests at 999 and a sell at 1005 at 1011',
    (quote(1, 1000, 1000),),
    (buy(2, 10, 1005), R(2, 10, 999)),
    (sell(3, 10, 995), R(3, 10, 1001)),
    (quote(4, 1010, 1000),),
    (buy(5, 10, 1005), R(5, 10, 999)),
    (sell(6, 10, 1005), R(6, 10, 1011)))
day('quote-of-0-takes-the-away-price-away', '"An absent away price restricts nothing"',
    'under away offer 1001 an IOC buy at 1002 is cancelled whole, reason 2; after quote 0 by 0 the same executes at 1002',
    (sell(1, 100, 1002), R(1, 100, 1002)),
    (quote(2, 0, 1001),),
    (buy(3, 100, 1002, IOC | D | PA), K(3, 100, 2)),
    (quote(4, 0, 0),),
    (buy(5, 100, 1002, IOC | D | PA), X(5, 1, 100, 1002)))
day('quote-prices-99-100-200000-200001-and-0', '"away price neither 0 nor 100 to 200,000" (9)',
    'bid or offer 1, 99, 200,001, ffffffff get 9; 0, 100 and 200,000 pass without a line; a refused quote leaves the one before it (the last buy rests at 101)',
    (quote(1, 99, 0), F(9)),
    (quote(1, 0, 99), F(9)),
    (quote(1, 1, 0), F(9)),
    (quote(1, 0, 1), F(9)),
    (quote(1, 200001, 0), F(9)),
    (quote(1, 0, 200001), F(9)),
    (quote(1, 0xffffffff, 0), F(9)),
    (quote(1, 0, 0xffffffff), F(9)),
    (quote(1, 99, 200001), F(9)),
    (quote(1, 0, 0),),
    (quote(2, 100, 200000),),
    (quote(3, 200000, 100),),
    (quote(4, 100, 0),),
    (quote(5, 0, 200000),),
    (quote(6, 200000, 0),),
    (quote(7, 0, 102),),
    (quote(8, 0, 99), F(9)),
    (quote(8, 99, 150), F(9)),
    (buy(8, 10, 150), R(8, 10, 101)))

# ------------------------------------------------------------------ the walk
part('The walk and the rank')
day('execution-is-at-the-resting-price', '"Each execution is at the resting order\'s price" ("Executing at the incoming price"), which W6 keeps where no lock stands',
    'buy at 1005 executes at 1002; sell at 1000 executes at 1004',
    (sell(1, 100, 1002), R(1, 100, 1002)),
    (buy(2, 100, 1005), X(2, 1, 100, 1002)),
    (buy(3, 100, 1004), R(3, 100, 1004)),
    (sell(4, 100, 1000), X(4, 3, 100, 1004)))
day('execution-is-for-the-smaller-size', '"for the smaller of the two sizes"',
    'buy of 1 leaves 99; buy of 98 leaves 1; buy of 2 executes 1 and rests 1; the sell is no longer there',
    (sell(1, 100, 1002), R(1, 100, 1002)),
    (buy(2, 1, 1002), X(2, 1, 1, 1002)),
    (buy(3, 98, 1002), X(3, 1, 98, 1002)),
    (buy(4, 2, 1002), X(4, 1, 1, 1002), R(4, 1, 1002)),
    (cancel(5, 1), F(10)),
    (cancel(5, 4), K(4, 1, 1)))
day('walk-ends-at-the-limit', '"price beyond the limit"',
    'buy at 1002 executes the sells at 1001 and 1002, not the one at 1003, and rests its remainder at 1002; a sell at 1002 then executes against that remainder',
    (sell(1, 10, 1003), R(1, 10, 1003)),
    (sell(2, 10, 1002), R(2, 10, 1002)),
    (sell(3, 10, 1001), R(3, 10, 1001)),
    (buy(4, 40, 1002), X(4, 3, 10, 1001), X(4, 2, 10, 1002), R(4, 20, 1002)),
    (sell(5, 20, 1002), X(5, 4, 20, 1002)),
    (cancel(6, 1), K(1, 10, 1)))
day('buying-walk-ends-above-the-away-offer', '"unless ISO, above the away offer (buying)"',
    'away offer 1002: IOC buy of 30 at 1005 executes 10 at 1001, 10 at 1002, and its last 10 are cancelled, reason 2; the sell at 1003 still rests',
    (sell(1, 10, 1001), R(1, 10, 1001)),
    (sell(2, 10, 1002), R(2, 10, 1002)),
    (sell(3, 10, 1003), R(3, 10, 1003)),
    (quote(4, 0, 1002),),
    (buy(5, 30, 1005, IOC | D | PA), X(5, 1, 10, 1001), X(5, 2, 10, 1002), K(5, 10, 2)),
    (cancel(6, 3), K(3, 10, 1)))
day('selling-walk-ends-below-the-away-bid', '"or below the away bid (selling)"',
    'away bid 1002: IOC sell of 30 at 1000 executes 10 at 1003, 10 at 1002, and its last 10 are cancelled, reason 2; the buy at 1001 still rests',
    (buy(1, 10, 1001), R(1, 10, 1001)),
    (buy(2, 10, 1002), R(2, 10, 1002)),
    (buy(3, 10, 1003), R(3, 10, 1003)),
    (quote(4, 1002, 0),),
    (sell(5, 30, 1000, IOC | D | PA), X(5, 3, 10, 1003), X(5, 2, 10, 1002), K(5, 10, 2)),
    (cancel(6, 1), K(1, 10, 1)))
day('sells-by-price-then-displayed-then-number', '"better price first ...; at one price displayed before non-displayed; then lower number" (P11)',
    'IOC buy meets the hidden sell 5 at 1001 first, then at 1002 the displayed 2 and 3, then the hidden 1 and 4',
    (sell(1, 10, 1002, DAY | N | PA), R(1, 10, 1002)),
    (sell(2, 11, 1002), R(2, 11, 1002)),
    (sell(3, 12, 1002), R(3, 12, 1002)),
    (sell(4, 13, 1002, DAY | N | PA), R(4, 13, 1002)),
    (sell(5, 14, 1001, DAY | N | PA), R(5, 14, 1001)),
    (buy(6, 61, 1002, IOC | D | PA), X(6, 5, 14, 1001), X(6, 2, 11, 1002), X(6, 3, 12, 1002),
     X(6, 1, 10, 1002), X(6, 4, 13, 1002), K(6, 1, 2)))
day('buys-by-price-then-displayed-then-number', '"better price first (higher buy ...); ... displayed before non-displayed; then lower number"',
    'IOC sell meets the hidden buy 5 at 1003 first, then at 1002 the displayed 2 and 3, then the hidden 1 and 4',
    (buy(1, 10, 1002, DAY | N | PA), R(1, 10, 1002)),
    (buy(2, 11, 1002), R(2, 11, 1002)),
    (buy(3, 12, 1002), R(3, 12, 1002)),
    (buy(4, 13, 1002, DAY | N | PA), R(4, 13, 1002)),
    (buy(5, 14, 1003, DAY | N | PA), R(5, 14, 1003)),
    (sell(6, 61, 1002, IOC | D | PA), X(6, 5, 14, 1003), X(6, 2, 11, 1002), X(6, 3, 12, 1002),
     X(6, 1, 10, 1002), X(6, 4, 13, 1002), K(6, 1, 2)))
day('part-executed-order-keeps-its-rank', '"then lower number"',
    'sell 1 loses 4 of 10 and still comes before sell 2',
    (sell(1, 10, 1002), R(1, 10, 1002)),
    (sell(2, 10, 1002), R(2, 10, 1002)),
    (buy(3, 4, 1002), X(3, 1, 4, 1002)),
    (buy(4, 10, 1002), X(4, 1, 6, 1002), X(4, 2, 4, 1002)))
day('adjusted-order-ranks-at-its-adjusted-price', '"Rank within a side: better price first"',
    'buy 2, limit 1010, rests at 1001 by adjusting; buy 3 at 1001 comes after it, hidden buy 4 (at 1002) before it',
    (quote(1, 0, 1002),),
    (buy(2, 10, 1010), R(2, 10, 1001)),
    (buy(3, 10, 1001), R(3, 10, 1001)),
    (buy(4, 10, 1010, DAY | N | PA), R(4, 10, 1002)),
    (sell(5, 30, 1001, IOC | D | PA), X(5, 4, 10, 1002), X(5, 2, 10, 1001), X(5, 3, 10, 1001)))
day('one-buy-takes-64-sells', '"walk the opposite side in rank order"',
    '64 sells rest at 1064 down to 1001; a buy of 641 executes 64 times, from 1001 (order 64) up to 1064 (order 1), and rests 1',
    *[(sell(i, 10, 1065 - i), R(i, 10, 1065 - i)) for i in range(1, 65)],
    (buy(65, 641, 1064), *[X(65, 65 - k, 10, 1000 + k) for k in range(1, 65)], R(65, 1, 1064)))

# ------------------------------------------------------------------ FOK
part('Fill-or-Kill')
fk = FOK | D | PA
sells3 = [(sell(1, 40, 1002), R(1, 40, 1002)), (sell(2, 30, 1001), R(2, 30, 1001)), (sell(3, 30, 1003), R(3, 30, 1003))]
day('fok-exactly-fillable-executes', '"FOK: if the walk would leave a remainder" (P3: exactly fillable)',
    'FOK buy of 100 at 1003 executes 30 at 1001, 40 at 1002, 30 at 1003',
    *sells3,
    (buy(4, 100, 1003, fk), X(4, 2, 30, 1001), X(4, 1, 40, 1002), X(4, 3, 30, 1003)))
day('fok-one-share-too-many-executes-nothing', '"nothing executes and the whole order is cancelled, reason 3" (P2)',
    'FOK buy of 101 cancelled whole, reason 3; the 30, 40 and 30 still rest (an IOC buy takes them all)',
    *sells3,
    (buy(4, 101, 1003, fk), K(4, 101, 3)),
    (buy(5, 101, 1003, IOC | D | PA), X(5, 2, 30, 1001), X(5, 1, 40, 1002), X(5, 3, 30, 1003), K(5, 1, 2)))
day('fok-held-back-by-its-limit', '"FOK: if the walk would leave a remainder"',
    'FOK buy of 71 at 1002 gets reason 3 though 100 rest; 70 at 1002 executes',
    *sells3,
    (buy(4, 71, 1002, fk), K(4, 71, 3)),
    (buy(5, 70, 1002, fk), X(5, 2, 30, 1001), X(5, 1, 40, 1002)))
day('fok-held-back-by-the-away-offer', '"Judging a FOK by limit alone, the away price forgotten"',
    'away offer 1001: FOK buy of 31 at 1003 gets reason 3; 30 at 1003 executes at 1001',
    *sells3,
    (quote(4, 0, 1001),),
    (buy(5, 31, 1003, fk), K(5, 31, 3)),
    (buy(6, 30, 1003, fk), X(6, 2, 30, 1001)))
day('fok-sell-held-back-by-the-away-bid', '"Judging a FOK by limit alone, the away price forgotten", selling',
    'away bid 1002: FOK sell of 11 at 1000 gets reason 3; 10 executes at 1002; 10 more gets reason 3; after the quote is gone 10 at 1001 executes',
    (buy(1, 10, 1002), R(1, 10, 1002)),
    (buy(2, 10, 1001), R(2, 10, 1001)),
    (quote(3, 1002, 0),),
    (sell(4, 11, 1000, fk), K(4, 11, 3)),
    (sell(5, 10, 1000, fk), X(5, 1, 10, 1002)),
    (sell(6, 10, 1000, fk), K(6, 10, 3)),
    (quote(7, 0, 0),),
    (sell(8, 10, 1001, fk), X(8, 2, 10, 1001)))
day('fok-on-an-empty-book', '"the whole order is cancelled, reason 3"',
    'FOK buy and sell of 1 on the empty book: reason 3 each',
    (buy(1, 1, 1000, fk), K(1, 1, 3)),
    (sell(2, 1, 1000, fk), K(2, 1, 3)))

# ------------------------------------------------------------------ Post Only
part('Post Only')
po = STD | PO
day('post-only-buy-equal-to-the-sell-price', '"Post Only whose price from step 4 equals or passes any opposite resting price" (P9), which W6 keeps for displayed ones',
    'sell at 1002: Post Only buy at 1001 rests, at 1002 and at 1003 reason 6, nothing executed (the sell still has its 100)',
    (sell(1, 100, 1002), R(1, 100, 1002)),
    (buy(2, 10, 1001, po), R(2, 10, 1001)),
    (buy(3, 10, 1002, po), K(3, 10, 6)),
    (buy(4, 10, 1003, po), K(4, 10, 6)),
    (cancel(5, 1), K(1, 100, 1)))
day('post-only-sell-equal-to-the-buy-price', 'the same, selling',
    'buy at 1002: Post Only sell at 1003 rests, at 1002 and at 1001 reason 6, the buy still has its 100',
    (buy(1, 100, 1002), R(1, 100, 1002)),
    (sell(2, 10, 1003, po), R(2, 10, 1003)),
    (sell(3, 10, 1002, po), K(3, 10, 6)),
    (sell(4, 10, 1001, po), K(4, 10, 6)),
    (cancel(5, 1), K(1, 100, 1)))
day('post-only-meets-a-non-displayed-order', '"reason 6 only if it meets a displayed order or would pass a hidden one" (02, W6)',
    'hidden sell at 1002, displayed sell at 1005: Post Only buy at 1003 reason 6, at 1002 and at 1001 rests; after a cancel of the hidden sell, at 1004 rests, at 1005 reason 6',
    (sell(1, 10, 1002, DAY | N | PA), R(1, 10, 1002)),
    (sell(2, 10, 1005), R(2, 10, 1005)),
    (buy(3, 10, 1003, po), K(3, 10, 6)),
    (buy(4, 10, 1002, po), R(4, 10, 1002)),
    (buy(5, 10, 1001, po), R(5, 10, 1001)),
    (cancel(6, 1), K(1, 10, 1)),
    (buy(7, 10, 1004, po), R(7, 10, 1004)),
    (buy(8, 10, 1005, po), K(8, 10, 6)))
day('post-only-sell-meets-a-non-displayed-order', 'the same, selling',
    'hidden buy at 1002, displayed buy at 999: Post Only sell at 1001 reason 6, at 1002 and at 1003 rests; after a cancel of the hidden buy, at 1000 rests, at 999 reason 6',
    (buy(1, 10, 1002, DAY | N | PA), R(1, 10, 1002)),
    (buy(2, 10, 999), R(2, 10, 999)),
    (sell(3, 10, 1001, po), K(3, 10, 6)),
    (sell(4, 10, 1002, po), R(4, 10, 1002)),
    (sell(5, 10, 1003, po), R(5, 10, 1003)),
    (cancel(6, 1), K(1, 10, 1)),
    (sell(7, 10, 1000, po), R(7, 10, 1000)),
    (sell(8, 10, 999, po), K(8, 10, 6)))
day('post-only-tested-at-its-adjusted-price', '"Testing Post Only at its limit and not at its adjusted price" (P10)',
    'sell at 1002, Post Only buys at 1005: away offer 1003 gives 1002, reason 6; 1002 gives 1001, rests; 1004 gives 1003, reason 6',
    (sell(1, 100, 1002), R(1, 100, 1002)),
    (quote(2, 0, 1003),),
    (buy(3, 10, 1005, po), K(3, 10, 6)),
    (quote(4, 0, 1002),),
    (buy(5, 10, 1005, po), R(5, 10, 1001)),
    (quote(6, 0, 1004),),
    (buy(7, 10, 1005, po), K(7, 10, 6)))
day('post-only-sell-tested-at-its-adjusted-price', '"Post Only whose price from step 4", selling',
    'buy at 1002, Post Only sells at 999: away bid 1001 gives 1002, reason 6; 1002 gives 1003, rests; 1000 gives 1001, reason 6',
    (buy(1, 100, 1002), R(1, 100, 1002)),
    (quote(2, 1001, 0),),
    (sell(3, 10, 999, po), K(3, 10, 6)),
    (quote(4, 1002, 0),),
    (sell(5, 10, 999, po), R(5, 10, 1003)),
    (quote(6, 1000, 0),),
    (sell(7, 10, 999, po), K(7, 10, 6)))
day('post-only-with-cancel-back', 'step 4 ("Cancel Back cancels, reason 4") before step 5',
    'sell at 1002, away offer 1002: Post Only Cancel Back buy at 1002 reason 4, at 1001 rests; away offer 1003: at 1002 reason 6, at 1003 reason 4',
    (sell(1, 100, 1002), R(1, 100, 1002)),
    (quote(2, 0, 1002),),
    (buy(3, 10, 1002, DAY | D | CB | PO), K(3, 10, 4)),
    (buy(4, 10, 1001, DAY | D | CB | PO), R(4, 10, 1001)),
    (quote(5, 0, 1003),),
    (buy(6, 10, 1002, DAY | D | CB | PO), K(6, 10, 6)),
    (buy(7, 10, 1003, DAY | D | CB | PO), K(7, 10, 4)))
day('post-only-with-no-price-in-range', 'step 4 ("reason 5") before step 5',
    'sell rests at 100, away offer 100: Post Only buy at 100 reason 5, not 6',
    (sell(1, 10, 100), R(1, 10, 100)),
    (quote(2, 0, 100),),
    (buy(3, 10, 100, po), K(3, 10, 5)))

# ------------------------------------------------------------------ locks
part('Locks (02, W6): what the days of `days/w6` leave out')
day('post-only-where-hidden-meets-hidden', '"may rest at the price of an opposite non-displayed one"; "the hidden order doesn\'t execute at that price": a lock bars those opposite the displayed order, and no other',
    'hidden buy 1 and hidden sell 3 both at 1000: Post Only buy 5 rests there and a Post Only sell gets reason 6; an IOC buy at 1000 gets reason 2, at 1001 it executes against 3 at 1000.5; an IOC sell at 1000 executes against 5, then 1, at 1000, an IOC buy at 1000 against 3; a Post Only sell then rests there, and an IOC sell at 999 executes against 1 at 999.5',
    (buy(1, 10, 1000, DAY | N | PA), R(1, 10, 1000)),
    (sell(2, 10, 1000, po), R(2, 10, 1000)),
    (sell(3, 10, 1000, DAY | N | PA), R(3, 10, 1000)),
    (cancel(4, 2), K(2, 10, 1)),
    (buy(5, 10, 1000, po), R(5, 10, 1000)),
    (sell(6, 10, 1000, po), K(6, 10, 6)),
    (buy(7, 5, 1000, IOC | D | PA), K(7, 5, 2)),
    (buy(8, 4, 1001, IOC | D | PA), X(8, 3, 4, 1000.5)),
    (sell(9, 15, 1000, IOC | D | PA), X(9, 5, 10, 1000), X(9, 1, 5, 1000)),
    (buy(10, 3, 1000, IOC | D | PA), X(10, 3, 3, 1000)),
    (sell(11, 10, 1000, po), R(11, 10, 1000)),
    (sell(12, 6, 999, IOC | D | PA), X(12, 1, 5, 999.5), K(12, 1, 2)))
day('remainder-after-half-a-cent-seeks-its-price', '"The away test uses the true execution price"; "A Day remainder seeks its price"',
    'hidden buy of 100 and Post Only sell at 1000, away bid 999: a sell of 150 at 998 executes 100 at 999.5, its 50 rest at 1000, behind the Post Only one; under a next lock a Cancel Back sell of 40 at 999 executes 30 at 999.5, its last 10 are cancelled, reason 4',
    (buy(1, 100, 1000, DAY | N | PA), R(1, 100, 1000)),
    (sell(2, 10, 1000, po), R(2, 10, 1000)),
    (quote(3, 999, 0),),
    (sell(4, 150, 998), X(4, 1, 100, 999.5), R(4, 50, 1000)),
    (buy(5, 60, 1000, IOC | D | PA), X(5, 2, 10, 1000), X(5, 4, 50, 1000)),
    (buy(6, 30, 1000, DAY | N | PA), R(6, 30, 1000)),
    (sell(7, 10, 1000, po), R(7, 10, 1000)),
    (sell(8, 40, 999, DAY | D | CB), X(8, 6, 30, 999.5), K(8, 10, 4)))

# ------------------------------------------------------------------ minimums
part('Minimum execution quantity (02, W7): what the days of `days/w7` leave out')
day('the-reserve-does-not-come-before-the-minimum', '"the reserve behind every other order at that price" (02, W4), also behind one with a minimum; "any other gives the smaller of its holding and what is left"',
    'sell of 100 at 1000 with 10 shown, hidden sell of 50 at 1000 with a minimum of 50: an IOC buy of 110 takes the 10 shown, the 50 (100 were left) and 50 of the reserve; refilled to 10, 40 left in all (with the reserve first, 10 would be left and the 50 skipped)',
    (reserve(1, S, 100, 1000, 10), R(1, 100, 1000)),
    (minimum(2, S, 50, 1000, 50), R(2, 50, 1000)),
    (buy(3, 110, 1000, IOC | D | PA), X(3, 1, 10, 1000), X(3, 2, 50, 1000), X(3, 1, 50, 1000), M(1, 10, 1000)),
    (close(4), K(1, 40, 7)))
day('fok-fills-as-the-reserve-comes-behind-the-minimum', '"FOK is killed exactly if the walk in rank order falls short"',
    'the same two sells: a FOK buy of 110 executes all, as the IOC did (with the reserve first it would fall short by 10)',
    (reserve(1, S, 100, 1000, 10), R(1, 100, 1000)),
    (minimum(2, S, 50, 1000, 50), R(2, 50, 1000)),
    (buy(3, 110, 1000, fk), X(3, 1, 10, 1000), X(3, 2, 50, 1000), X(3, 1, 50, 1000), M(1, 10, 1000)),
    (close(4), K(1, 40, 7)))
day('refill-behind-a-skipped-order', '"it is skipped and the walk goes on"; "Refill is due when the shown part is used up" (02, W4)',
    'hidden sell of 50 at 1000 with a minimum of 50, behind it at 1001 a sell of 100 with 10 shown and a sell of 5: an IOC buy of 10 skips the 50 and takes the 10 shown, which are refilled; an IOC buy of 6 skips the 50 and takes the 5, then 1 of the refilled 10',
    (minimum(1, S, 50, 1000, 50), R(1, 50, 1000)),
    (reserve(2, S, 100, 1001, 10), R(2, 100, 1001)),
    (sell(3, 5, 1001), R(3, 5, 1001)),
    (buy(4, 10, 1001, IOC | D | PA), X(4, 2, 10, 1001), M(2, 10, 1001)),
    (buy(5, 6, 1001, IOC | D | PA), X(5, 3, 5, 1001), X(5, 2, 1, 1001)),
    (close(6), K(1, 50, 7), K(2, 89, 7)))
day('reason-8-by-the-best-of-two-skipped', '"A remainder that would still equal or pass an opposite order ... is cancelled, new reason 8": any opposite order, not the one skipped last',
    'hidden sells of 50 at 1000 and at 1001, both with a minimum of 50, away offer 1001: a buy of 20 at 1005 skips both and is set at 1000, below the second and equal to the first: reason 8',
    (minimum(1, S, 50, 1000, 50), R(1, 50, 1000)),
    (minimum(2, S, 50, 1001, 50), R(2, 50, 1001)),
    (quote(3, 0, 1001),),
    (buy(4, 20, 1005), K(4, 20, 8)),
    (close(5), K(1, 50, 7), K(2, 50, 7)))
day('a-lock-at-a-better-price-saves-nothing', '"save ... at W6\'s locked price": the price at which the remainder would rest, and no other',
    'hidden buy of 10 and Post Only sell at 1000, hidden buy of 100 at 999 with a minimum of 50: a sell of 30 at 999 executes 10 at 999.5 and skips the 100; its 20 would equal it at 999, where no lock stands: reason 8',
    (buy(1, 10, 1000, DAY | N | PA), R(1, 10, 1000)),
    (minimum(2, B, 100, 999, 50), R(2, 100, 999)),
    (sell(3, 5, 1000, po), R(3, 5, 1000)),
    (sell(4, 30, 999), X(4, 1, 10, 999.5), K(4, 20, 8)),
    (close(5), K(2, 100, 7), K(3, 5, 7)))
day('skipped-then-set-at-the-lock-is-saved', '"save ... at W6\'s locked price", though the walk has reached the locked order and skipped it',
    'hidden buy of 100 with a minimum of 50 and Post Only sell at 1000, away bid 999: a sell of 30 at 998 may take 999.5 and skips the 100; it is set at 1000 and rests there, behind the Post Only one',
    (minimum(1, B, 100, 1000, 50), R(1, 100, 1000)),
    (sell(2, 5, 1000, po), R(2, 5, 1000)),
    (quote(3, 999, 0),),
    (sell(4, 30, 998), R(4, 30, 1000)),
    (close(5), K(1, 100, 7), K(2, 5, 7), K(4, 30, 7)))

# ------------------------------------------------------------------ ISO
part('Intermarket sweep')
day('iso-goes-through-the-away-offer', '"unless ISO, above the away offer" (P4, P5)',
    'away offer 1001: plain IOC buy at 1005 cancelled, reason 2; ISO IOC buy of 150 executes 100 at 1002 and 50 at 1003; a next one executes 50 and its other 50 are cancelled, reason 2',
    (sell(1, 100, 1002), R(1, 100, 1002)),
    (sell(2, 100, 1003), R(2, 100, 1003)),
    (quote(3, 0, 1001),),
    (buy(4, 150, 1005, IOC | D | PA), K(4, 150, 2)),
    (buy(5, 150, 1005, IOC | D | PA | ISO), X(5, 1, 100, 1002), X(5, 2, 50, 1003)),
    (buy(6, 100, 1005, IOC | D | PA | ISO), X(6, 2, 50, 1003), K(6, 50, 2)))
day('iso-goes-through-the-away-bid', '"unless ISO, ... below the away bid (selling)"',
    'away bid 1003: plain IOC sell at 1000 cancelled, reason 2; ISO IOC sell executes 100 at 1002, 50 at 1001',
    (buy(1, 100, 1002), R(1, 100, 1002)),
    (buy(2, 100, 1001), R(2, 100, 1001)),
    (quote(3, 1003, 0),),
    (sell(4, 150, 1000, IOC | D | PA), K(4, 150, 2)),
    (sell(5, 150, 1000, IOC | D | PA | ISO), X(5, 1, 100, 1002), X(5, 2, 50, 1001)))
day('iso-is-still-held-by-its-limit', '"price beyond the limit, or, unless ISO, ..."',
    'ISO IOC buy at 1001 against a sell at 1002: cancelled whole, reason 2; at 1002 it executes',
    (sell(1, 100, 1002), R(1, 100, 1002)),
    (quote(2, 0, 1000),),
    (buy(3, 100, 1001, IOC | D | PA | ISO), K(3, 100, 2)),
    (buy(4, 100, 1002, IOC | D | PA | ISO), X(4, 1, 100, 1002)))
day('iso-day-remainder-rests-at-its-limit', '"ISO: its limit"',
    'away offer 1001: ISO Day buy of 150 at 1005 executes 100 at 1002 and rests 50 at 1005; hidden, Cancel Back and hidden Cancel Back ISO buys at 1005 rest at 1005; a sell at 1000 executes at 1005, displayed before hidden',
    (sell(1, 100, 1002), R(1, 100, 1002)),
    (quote(2, 0, 1001),),
    (buy(3, 150, 1005, STD | ISO), X(3, 1, 100, 1002), R(3, 50, 1005)),
    (buy(4, 10, 1005, DAY | N | PA | ISO), R(4, 10, 1005)),
    (buy(5, 10, 1005, DAY | D | CB | ISO), R(5, 10, 1005)),
    (buy(6, 10, 1005, DAY | N | CB | ISO), R(6, 10, 1005)),
    (sell(7, 80, 1000), X(7, 3, 50, 1005), X(7, 5, 10, 1005), X(7, 4, 10, 1005), X(7, 6, 10, 1005)))
day('iso-day-sell-remainder-rests-at-its-limit', '"ISO: its limit", selling',
    'away bid 1000: ISO Day sell of 150 at 995 executes 100 at 998 and rests 50 at 995; away bid 200,000: ISO sell at 200,000 rests there (no reason 5)',
    (buy(1, 100, 998), R(1, 100, 998)),
    (quote(2, 1000, 0),),
    (sell(3, 150, 995, STD | ISO), X(3, 1, 100, 998), R(3, 50, 995)),
    (quote(4, 200000, 0),),
    (sell(5, 10, 200000, STD | ISO), R(5, 10, 200000)))

# ------------------------------------------------------------------ market and IOC
part('Market and Immediate-or-Cancel')
mi, mf = IOC | D | PA | MK, FOK | D | PA | MK
day('market-order-has-no-limit', '"limit and market orders"; "price beyond the limit" cannot stop it',
    'market IOC buy of 30 executes 10 at 1002, 10 at 200,000, 10 cancelled, reason 2; market IOC sell of 30 executes 10 at 1001, 10 at 100, 10 cancelled, reason 2',
    (sell(1, 10, 200000), R(1, 10, 200000)),
    (sell(2, 10, 1002), R(2, 10, 1002)),
    (buy(3, 10, 100), R(3, 10, 100)),
    (buy(4, 10, 1001), R(4, 10, 1001)),
    (buy(5, 30, 0, mi), X(5, 2, 10, 1002), X(5, 1, 10, 200000), K(5, 10, 2)),
    (sell(6, 30, 0, mi), X(6, 4, 10, 1001), X(6, 3, 10, 100), K(6, 10, 2)))
day('market-order-stops-at-the-away-price', '"unless ISO, above the away offer (buying) or below the away bid (selling)"',
    'away 1000 by 1002: market IOC buy of 20 executes 10 at 1002 and not at 1003, 10 cancelled, reason 2; market IOC sell executes 10 at 1000 and not at 999',
    (sell(1, 10, 1002), R(1, 10, 1002)),
    (sell(2, 10, 1003), R(2, 10, 1003)),
    (buy(3, 10, 1000), R(3, 10, 1000)),
    (buy(4, 10, 999), R(4, 10, 999)),
    (quote(5, 1000, 1002),),
    (buy(6, 20, 0, mi), X(6, 1, 10, 1002), K(6, 10, 2)),
    (sell(7, 20, 0, mi), X(7, 3, 10, 1000), K(7, 10, 2)))
day('market-fill-or-kill', '"Market needs IOC or FOK"; "FOK: if the walk would leave a remainder"',
    'sells 10 at 1002 and 10 at 1003: market FOK buy of 21 reason 3; with away offer 1002 11 reason 3; 10 executes; without quote 10 executes at 1003',
    (sell(1, 10, 1002), R(1, 10, 1002)),
    (sell(2, 10, 1003), R(2, 10, 1003)),
    (buy(3, 21, 0, mf), K(3, 21, 3)),
    (quote(4, 0, 1002),),
    (buy(5, 11, 0, mf), K(5, 11, 3)),
    (buy(6, 10, 0, mf), X(6, 1, 10, 1002)),
    (quote(7, 0, 0),),
    (buy(8, 10, 0, mf), X(8, 2, 10, 1003)))
day('market-ioc-on-an-empty-book', 'P12 "Market IOC buy 50, empty book: cancelled 50, reason 2", and selling',
    'buy 50 and sell 50 cancelled, reason 2; FOK ones reason 3',
    (buy(1, 50, 0, mi), K(1, 50, 2)),
    (sell(2, 50, 0, mi), K(2, 50, 2)),
    (buy(3, 50, 0, mf), K(3, 50, 3)),
    (sell(4, 50, 0, mf), K(4, 50, 3)))
day('ioc-remainder-is-cancelled-whatever-its-words', '"A remainder of IOC is cancelled, reason 2"',
    'IOC remainders that lock or cross away offer 1002 get reason 2 (not 4 or 5): displayed, hidden, Price Adjust and Cancel Back; away offer 100 too',
    (quote(1, 0, 1002),),
    (buy(2, 10, 1002, IOC | D | PA), K(2, 10, 2)),
    (buy(3, 10, 1003, IOC | N | PA), K(3, 10, 2)),
    (buy(4, 10, 1002, IOC | D | CB), K(4, 10, 2)),
    (buy(5, 10, 1003, IOC | N | CB), K(5, 10, 2)),
    (quote(6, 0, 100),),
    (buy(7, 10, 100, IOC | D | PA), K(7, 10, 2)))

# ------------------------------------------------------------------ full sides
part('Full sides (refusal 11)')
day('256-sells-one-more-resting-sell-refused-11', '"the rules would rest a remainder and that side holds 64", with W5 256, selling',
    '256 rested lines, then 11; the number is still free: a buy takes it and rests',
    *full_sells,
    (sell(L + 1, 10, 1000), F(11)),
    (buy(L + 1, 10, 999), R(L + 1, 10, 999)))
day('256-sells-one-filled-whole-is-taken', '"one filled whole is taken", selling',
    '256 sells and a buy of 50 rest; a Day sell of 50 executes 50 against the buy at 999; one more resting sell gets 11',
    *full_sells,
    (buy(L + 1, 50, 999), R(L + 1, 50, 999)),
    (sell(L + 2, 50, 999), X(L + 2, L + 1, 50, 999)),
    (sell(L + 3, 10, 1000), F(11)))
day('full-side-part-filled-order-refused-whole', '"the rules would rest a remainder"; "book and output bytes are untouched"',
    '256 buys and a sell of 30 rest; a Day buy of 31 at 1001 gets 11 and executes nothing; IOC buy of 31 executes 30 and 1 is cancelled, reason 2',
    *full_buys,
    (sell(L + 1, 30, 1001), R(L + 1, 30, 1001)),
    (buy(L + 2, 31, 1001), F(11)),
    (buy(L + 2, 31, 1001, IOC | D | PA), X(L + 2, L + 1, 30, 1001), K(L + 2, 1, 2)))
day('full-side-remainders-that-would-not-rest', '"Given exactly when ... the rules would rest a remainder"',
    '256 buys rest: IOC reason 2, FOK 3, Post Only 6, Cancel Back 4, no price in range 5 are all taken; a buy that would rest gets 11',
    *full_buys,
    (sell(L + 1, 50, 1001), R(L + 1, 50, 1001)),
    (buy(L + 2, 20, 1000, IOC | D | PA), K(L + 2, 20, 2)),
    (buy(L + 3, 51, 1001, fk), K(L + 3, 51, 3)),
    (buy(L + 4, 5, 1001, po), K(L + 4, 5, 6)),
    (quote(L + 5, 0, 1000),),
    (buy(L + 6, 5, 1000, DAY | D | CB), K(L + 6, 5, 4)),
    (quote(L + 7, 0, 100),),
    (buy(L + 8, 5, 100), K(L + 8, 5, 5)),
    (quote(L + 9, 0, 0),),
    (buy(L + 10, 5, 1000), F(11)),
    (buy(L + 10, 5, 999), F(11)),
    (buy(L + 10, 5, 1000, po), F(11)),
    (buy(L + 10, 5, 1000, DAY | N | CB), F(11)),
    (buy(L + 10, 5, 1000, STD | ISO), F(11)))
day('full-side-freed-place-used-at-once', '"A freed place can be used at once"',
    '256 buys rest; a sell executes order 1 away and a next buy rests; 11; cancel of 2 and a next buy rests; 11; a sell takes one buy whole and 9 of the 10 of another: one place is free, a buy rests, the next gets 11',
    *full_buys,
    (sell(L + 1, 10, 1000), X(L + 1, 1, 10, 1000)),
    (buy(L + 2, 5, 1000), R(L + 2, 5, 1000)),
    (buy(L + 3, 5, 1000), F(11)),
    (cancel(L + 3, 2), K(2, 10, 1)),
    (buy(L + 4, 5, 1001), R(L + 4, 5, 1001)),
    (buy(L + 5, 5, 1000), F(11)),
    (sell(L + 5, 14, 1000), X(L + 5, L + 4, 5, 1001), X(L + 5, 3, 9, 1000)),
    (buy(L + 6, 5, 1000), R(L + 6, 5, 1000)),
    (buy(L + 7, 5, 1000), F(11)))
day('full-side-refused-order-leaves-a-reserve-as-it-was', '"A refusal hands back the same book" (11), with a reserve (02, W4)',
    '256 buys and a sell of 200 that shows 100 rest; a buy of 201 at 1001 gets 11; a buy of 150 executes 100 and 50, and the 50 left are shown',
    *full_buys,
    (reserve(L + 1, S, 200, 1001, 100), R(L + 1, 200, 1001)),
    (buy(L + 2, 201, 1001), F(11)),
    (buy(L + 2, 150, 1001), X(L + 2, L + 1, 100, 1001), X(L + 2, L + 1, 50, 1001), M(L + 1, 50, 1001)))
day('full-side-of-reserves-takes-one-more-after-a-fill', '"Such an order takes one place" (02, W4); "A freed place can be used at once"',
    '256 sells of 2 that show 1 rest, the last at 1000; one more gets 11; a buy takes both parts of the last, and the next sell rests; one more gets 11',
    *[(reserve(i, S, 2, 1001, 1), R(i, 2, 1001)) for i in range(1, L)],
    (reserve(L, S, 2, 1000, 1), R(L, 2, 1000)),
    (sell(L + 1, 10, 1001), F(11)),
    (buy(L + 1, 2, 1000), X(L + 1, L, 1, 1000), X(L + 1, L, 1, 1000)),
    (sell(L + 2, 10, 1001), R(L + 2, 10, 1001)),
    (sell(L + 3, 10, 1001), F(11)))
day('full-side-and-a-hidden-order-opposite', '"Given exactly when ... the rules would rest a remainder", with what rests at a hidden price (02, W6)',
    '256 buys and a hidden sell of 30 at 1001: a Post Only buy at 1002 reason 6, at 1001 11; after a cancel it rests there and the side is full again; a Day and a Post Only buy at 1001 get 11, an IOC buy reason 2; a Day buy of 31 at 1002 gets 11 and executes nothing, one of 30 executes 30 at 1001.5',
    *full_buys,
    (sell(L + 1, 30, 1001, DAY | N | PA), R(L + 1, 30, 1001)),
    (buy(L + 2, 5, 1002, po), K(L + 2, 5, 6)),
    (buy(L + 3, 5, 1001, po), F(11)),
    (cancel(L + 3, 1), K(1, 10, 1)),
    (buy(L + 4, 5, 1001, po), R(L + 4, 5, 1001)),
    (buy(L + 5, 5, 1001), F(11)),
    (buy(L + 5, 5, 1001, po), F(11)),
    (buy(L + 5, 5, 1001, IOC | D | PA), K(L + 5, 5, 2)),
    (buy(L + 6, 31, 1002), F(11)),
    (buy(L + 6, 30, 1002), X(L + 6, L + 1, 30, 1001.5)))
day('full-sides-of-256-and-256-and-their-close', '"Up to 64 resting orders a side", with W5 256; "Close cancels all buys in rank order, then all sells"',
    '256 buys and 256 sells rest; one more of each gets 11; the close cancels 1 to 256, then 257 to 512, reason 7',
    *full_buys,
    *[(sell(L + i, 10, 1001), R(L + i, 10, 1001)) for i in range(1, L + 1)],
    (buy(2 * L + 1, 10, 1000), F(11)),
    (sell(2 * L + 1, 10, 1001), F(11)),
    (close(2 * L + 1), *[K(i, 10, 7) for i in range(1, 2 * L + 1)]))

# ------------------------------------------------------------------ cancel and close
part('Cancel and close')
day('cancel-of-a-number-that-is-not-resting-gets-10', '"cancel of a number that isn\'t resting" (10)',
    '10 for: any number on the fresh book (0, 1, its own, ffffffff), an order executed whole, an incoming order filled, IOC and FOK orders, a quote\'s number, an order already cancelled, a number not yet given',
    (cancel(1, 0), F(10)),
    (cancel(1, 1), F(10)),
    (cancel(1, 2), F(10)),
    (cancel(1, 0xffffffff), F(10)),
    (sell(1, 100, 1002), R(1, 100, 1002)),
    (buy(2, 100, 1002), X(2, 1, 100, 1002)),
    (cancel(3, 1), F(10)),
    (cancel(3, 2), F(10)),
    (buy(3, 10, 1000, IOC | D | PA), K(3, 10, 2)),
    (cancel(4, 3), F(10)),
    (buy(4, 10, 1000, fk), K(4, 10, 3)),
    (cancel(5, 4), F(10)),
    (quote(5, 990, 1010),),
    (cancel(6, 5), F(10)),
    (buy(6, 10, 1000), R(6, 10, 1000)),
    (cancel(7, 6), K(6, 10, 1)),
    (cancel(8, 6), F(10)),
    (cancel(8, 7), F(10)),
    (cancel(8, 8), F(10)),
    (cancel(8, 0), F(10)))
day('cancel-tells-the-order-own-number-and-shares-left', '"The number in `12` and `13` is the order\'s own, never the cancelling command\'s"',
    'sell 1 of 100 loses 40; cancel command 3 gives number 1, 60, reason 1; buys are found too, also in the middle',
    (sell(1, 100, 1002), R(1, 100, 1002)),
    (buy(2, 40, 1002), X(2, 1, 40, 1002)),
    (cancel(3, 1), K(1, 60, 1)),
    (buy(4, 10, 1001), R(4, 10, 1001)),
    (buy(5, 20, 1000), R(5, 20, 1000)),
    (buy(6, 30, 999), R(6, 30, 999)),
    (cancel(7, 5), K(5, 20, 1)),
    (sell(8, 40, 999), X(8, 4, 10, 1001), X(8, 6, 30, 999)))
day('close-cancels-buys-then-sells-in-rank-order', '"Close cancels all buys in rank order, then all sells, and closes"',
    'buys 1003 (5), 1002 displayed (2), 1002 hidden (1), 900 (6); then sells 1004 (8), 1005 displayed (4), 1005 hidden (3), 2000 (7), all reason 7',
    (buy(1, 11, 1002, DAY | N | PA), R(1, 11, 1002)),
    (buy(2, 12, 1002), R(2, 12, 1002)),
    (sell(3, 13, 1005, DAY | N | PA), R(3, 13, 1005)),
    (sell(4, 14, 1005), R(4, 14, 1005)),
    (buy(5, 15, 1003), R(5, 15, 1003)),
    (buy(6, 16, 900), R(6, 16, 900)),
    (sell(7, 17, 2000), R(7, 17, 2000)),
    (sell(8, 18, 1004), R(8, 18, 1004)),
    (close(9), K(5, 15, 7), K(2, 12, 7), K(1, 11, 7), K(6, 16, 7), K(8, 18, 7), K(4, 14, 7), K(3, 13, 7), K(7, 17, 7)))
day('close-of-an-empty-book', '"Close cancels all buys ..., and closes"',
    'no line for the close; the repeat gets 4, the next number 6',
    (close(1),),
    (close(1), F(4)),
    (close(2), F(6)))

# ------------------------------------------------------------------ refusals 4..7
part('Refusals 4 to 7')
day('number-repeated-gets-4', '"number at or below the last: already seen" (4); "letting a repeat through because its time is newer"',
    'number 0 on the fresh book 4; the repeat of 1 at the same and at a newer time 4; after 2, cancels 1 and 2, quote 2, closes 2 and 0 get 4; 3 is taken',
    (buy(0, 10, 1000), F(4)),
    (buy(1, 10, 1000), R(1, 10, 1000)),
    (buy(1, 10, 1000), F(4)),
    (buy(1, 10, 1000, t=T0 + 1000), F(4)),
    (buy(2, 10, 1000), R(2, 10, 1000)),
    (cancel(1, 1), F(4)),
    (cancel(2, 1), F(4)),
    (quote(2, 0, 0), F(4)),
    (close(2), F(4)),
    (close(0), F(4)),
    (cancel(3, 1), K(1, 10, 1)))
day('number-skipped-gets-5', '"number above the last plus one" (5)',
    'numbers 2 and ffffffff on the fresh book 5; 1 is taken; 3 of every kind 5; 2 is taken',
    (buy(2, 10, 1000), F(5)),
    (buy(0xffffffff, 10, 1000), F(5)),
    (buy(1, 10, 1000), R(1, 10, 1000)),
    (buy(3, 10, 1000), F(5)),
    (cancel(3, 1), F(5)),
    (quote(3, 0, 0), F(5)),
    (close(3), F(5)),
    (buy(2, 10, 1000), R(2, 10, 1000)))
day('number-is-read-most-significant-byte-first', '"most significant byte first"',
    'IOC buys 1 to 257 on the empty book, each cancelled, reason 2 (the number passes 00ff, 0100, 0101)',
    *[(buy(i, 1, 1000, IOC | D | PA), K(i, 1, 2)) for i in range(1, 258)])
day('after-the-close-gets-6', '"book closed" (6)',
    'after close 2, order, cancel, quote and close numbered 3 all get 6',
    (buy(1, 10, 1000), R(1, 10, 1000)),
    (close(2), K(1, 10, 7)),
    (buy(3, 10, 1000), F(6)),
    (cancel(3, 1), F(6)),
    (quote(3, 0, 0), F(6)),
    (close(3), F(6)),
    (close(3, 57600000), F(6)))
day('time-34199999-refused-34200000-taken', '"below 34,200,000" (7)',
    'order, cancel, quote and close at 34,199,999 get 7, also at 0; an order at 34,200,000 rests',
    (buy(1, 10, 1000, t=34199999), F(7)),
    (cancel(1, 1, t=34199999), F(7)),
    (quote(1, 0, 0, t=34199999), F(7)),
    (close(1, t=34199999), F(7)),
    (buy(1, 10, 1000, t=0), F(7)),
    (buy(1, 10, 1000, t=34200000), R(1, 10, 1000)))
day('close-at-34200000', '"below 34,200,000" (7)',
    'close at 34,199,999 gets 7, at 34,200,000 is taken (no line), then order 2 gets 6',
    (close(1, t=34199999), F(7)),
    (close(1, t=34200000),),
    (buy(2, 10, 1000), F(6)))
day('time-57599999-taken-57600000-refused', '"at or above 57,600,000" (7)',
    'order at 57,599,999 rests; order, cancel and quote at 57,600,000 get 7, so do orders at 57,600,001 and ffffffff; cancel and quote at 57,599,999 are taken',
    (buy(1, 10, 1000, t=57600000), F(7)),
    (buy(1, 10, 1000, t=57599999), R(1, 10, 1000)),
    (buy(2, 10, 1000, t=57600000), F(7)),
    (cancel(2, 1, t=57600000), F(7)),
    (quote(2, 0, 0, t=57600000), F(7)),
    (buy(2, 10, 1000, t=57600001), F(7)),
    (buy(2, 10, 1000, t=0xffffffff), F(7)),
    (cancel(2, 1, t=57599999), K(1, 10, 1)),
    (quote(3, 0, 0, t=57599999),))
day('close-at-57600000-taken-57600001-refused', '"a close may be at 57,600,000"',
    'closes at 57,600,001 and ffffffff get 7; the close at 57,600,000 cancels the buy, reason 7; an order after it 6',
    (buy(1, 10, 1000), R(1, 10, 1000)),
    (close(2, t=57600001), F(7)),
    (close(2, t=0xffffffff), F(7)),
    (close(2, t=57600000), K(1, 10, 7)),
    (buy(3, 10, 1000, t=57600000), F(6)))
day('close-at-57599999', '"a close may be at 57,600,000"',
    'the close at 57,599,999 cancels the sell, reason 7',
    (sell(1, 10, 1000), R(1, 10, 1000)),
    (close(2, t=57599999), K(1, 10, 7)))
day('time-before-the-last-accepted-gets-7', '"time before the last accepted time" (7)',
    'after 34,200,005: 34,200,004 gets 7 for every kind, the same time is taken; a refused later command does not move the time; quotes and cancels do',
    (buy(1, 10, 1000, t=34200005), R(1, 10, 1000)),
    (buy(2, 10, 1000, t=34200004), F(7)),
    (cancel(2, 1, t=34200004), F(7)),
    (quote(2, 0, 0, t=34200004), F(7)),
    (close(2, t=34200004), F(7)),
    (buy(2, 10, 1000, t=34200005), R(2, 10, 1000)),
    (buy(3, 0, 1000, t=40000000), F(9)),
    (cancel(3, 9, t=40000000), F(10)),
    (buy(3, 10, 1000, t=34200005), R(3, 10, 1000)),
    (quote(4, 0, 0, t=34200010),),
    (buy(5, 10, 1000, t=34200009), F(7)),
    (cancel(5, 1, t=34200020), K(1, 10, 1)),
    (buy(6, 10, 1000, t=34200019), F(7)),
    (buy(6, 10, 1000, t=34200020), R(6, 10, 1000)))
day('refused-number-is-still-free', '"the command number is still free"; "Using up the number of a refused command"',
    'number 1 is refused 3, 7, 8, 9, 10 in turn (2 gets 5) and then taken; so is 2 after a 9',
    (buy(1, 10, 1000) + '0', F(3)),
    (buy(2, 10, 1000), F(5)),
    (buy(1, 10, 1000, t=34199999), F(7)),
    (buy(1, 10, 1000, 0), F(8)),
    (buy(1, 0, 1000), F(9)),
    (cancel(1, 1), F(10)),
    (buy(1, 10, 1000), R(1, 10, 1000)),
    (quote(2, 99, 0), F(9)),
    (cancel(2, 1), K(1, 10, 1)))
day('lowest-refusal-number-is-given', '"The lowest number that applies is given"',
    'one command wrong in many ways, mended from the top: 3, 4, 5, 7, 8, 9; cancel 7 then 10; quote 7 then 9; full side 7, 8, 9 before 11; after the close 4, 5, 6',
    ('05' + order(0, 2, 0, 0, 0, 0)[2:], F(3)),
    (order(0, 2, 0, 0, 0, 0), F(4)),
    (order(2, 2, 0, 0, 0, 0), F(5)),
    (order(1, 2, 0, 0, 0, 0), F(7)),
    (order(1, 2, 0, 0, 0, T0), F(8)),
    (order(1, 2, 0, 0, STD, T0), F(9)),
    (cancel(0, 9, t=0), F(4)),
    (cancel(2, 9, t=0), F(5)),
    (cancel(1, 9, t=0), F(7)),
    (cancel(1, 9), F(10)),
    (quote(0, 99, 99, t=0), F(4)),
    (quote(2, 99, 99, t=0), F(5)),
    (quote(1, 99, 99, t=0), F(7)),
    (quote(1, 99, 99), F(9)),
    *full_buys,
    (order(L + 1, B, 99, 0, 0, 0), F(7)),
    (order(L + 1, B, 99, 0, 0, T0), F(8)),
    (order(L + 1, B, 99, 10, STD, T0), F(9)),
    (order(L + 1, B, 1000, 0, STD, T0), F(9)),
    (order(L + 1, B, 1000, 10, STD, T0), F(11)),
    (order(L, B, 1000, 10, STD, T0), F(4)),
    (close(L + 1), *[K(i, 10, 7) for i in range(1, L + 1)]),
    (order(L + 1, 2, 0, 0, 0, 0), F(4)),
    (order(L + 3, 2, 0, 0, 0, 0), F(5)),
    (order(L + 2, 2, 0, 0, 0, 0), F(6)),
    (cancel(L + 2, 1, t=0), F(6)),
    (quote(L + 2, 99, 99, t=0), F(6)),
    (close(L + 2, t=0), F(6)),
    (close(L + 2, t=57600001), F(6)))

# ------------------------------------------------------------------ refusal 8
part('Refusal 8: unlawful words')
def bad(*words): return [(order(1, B, 1000, 10, w), F(8)) for w in words]
good1 = (buy(1, 10, 1000), R(1, 10, 1000))
day('word-with-no-or-two-times-in-force', '"exactly one of the three time-in-force bits is set"',
    '8 for none, IOC+FOK, IOC+Day, FOK+Day, all three; then Day rests',
    *bad(D | PA, IOC | FOK | D | PA, IOC | DAY | D | PA, FOK | DAY | D | PA, IOC | FOK | DAY | D | PA), good1)
day('word-with-neither-or-both-display-bits', '"one of bits 3 and 4"',
    '8 for neither and both, with Day, IOC and FOK; then Displayed rests',
    *bad(DAY | PA, DAY | D | N | PA, IOC | PA, IOC | D | N | PA, FOK | PA, FOK | D | N | CB), good1)
day('word-with-neither-or-both-price-bits', '"one of bits 5 and 6"',
    '8 for neither and both, with Day, IOC and FOK; then Price Adjust rests',
    *bad(DAY | D, DAY | D | PA | CB, IOC | D, IOC | D | PA | CB, FOK | N, FOK | N | PA | CB), good1)
day('word-post-only-needs-day-displayed-no-iso', '"Post Only needs Day and Displayed ... and no ISO"',
    '8 for Post Only with IOC, FOK, Non-Displayed, ISO, Market; Post Only Price Adjust and Cancel Back rest',
    *bad(IOC | D | PA | PO, FOK | D | PA | PO, DAY | N | PA | PO, DAY | N | CB | PO, STD | PO | ISO, DAY | D | CB | PO | ISO,
         IOC | D | PA | PO | ISO, IOC | D | PA | PO | MK, FOK | D | PA | PO | MK, STD | PO | MK),
    (buy(1, 10, 1000, STD | PO), R(1, 10, 1000)),
    (buy(2, 10, 1000, DAY | D | CB | PO), R(2, 10, 1000)))
day('word-iso-excludes-fok-and-market', '"ISO excludes FOK (source document 001) and Market"',
    '8 for ISO with FOK and with Market; ISO IOC is cancelled, reason 2, ISO Day rests',
    *bad(FOK | D | PA | ISO, FOK | N | CB | ISO, IOC | D | PA | ISO | MK, FOK | D | PA | ISO | MK, STD | ISO | MK),
    (buy(1, 10, 1000, IOC | D | PA | ISO), K(1, 10, 2)),
    (buy(2, 10, 1000, STD | ISO), R(2, 10, 1000)))
day('word-market-needs-ioc-or-fok', '"Market needs IOC or FOK"',
    '8 for Market Day at price 1000 and at price 0 (8 comes before 9); market IOC reason 2, FOK reason 3',
    *bad(STD | MK, DAY | N | PA | MK, DAY | D | CB | MK),
    (buy(1, 10, 0, STD | MK), F(8)),
    (buy(1, 10, 0, D | PA | MK), F(8)),
    (buy(1, 10, 0, mi), K(1, 10, 2)),
    (buy(2, 10, 0, mf), K(2, 10, 3)))
day('word-bits-10-to-15-must-be-zero', '"10 to 15 zero"',
    '8 for each of bits 10 to 15 set in a lawful word, for 0000 and ffff; then the word without them rests',
    *bad(STD | 1 << 10, STD | 1 << 11, STD | 1 << 12, STD | 1 << 13, STD | 1 << 14, STD | 1 << 15, 0, 0xffff, 0xfc00 | STD), good1)
LAWFUL = []
steps = []
n = 0
for tif, end in ((IOC, 2), (FOK, 3), (DAY, 0)):
    for disp in (D, N):
        for pr in (PA, CB):
            extras = [0]
            if tif == DAY and disp == D: extras.append(PO)
            if tif != FOK: extras.append(ISO)
            if tif != DAY: extras.append(MK)
            for x in extras:
                n += 1
                w = tif | disp | pr | x
                LAWFUL.append(w)
                steps.append((buy(n, 10, 0 if x == MK else 1000, w), K(n, 10, end) if end else R(n, 10, 1000)))
HAND = [0x29, 0x49, 0x31, 0x51, 0x2a, 0x4a, 0x32, 0x52, 0x2c, 0x4c, 0x34, 0x54, 0xac, 0xcc,
        0x129, 0x149, 0x131, 0x151, 0x12c, 0x14c, 0x134, 0x154,
        0x229, 0x249, 0x231, 0x251, 0x22a, 0x24a, 0x232, 0x252]
assert n == 30 and sorted(LAWFUL) == sorted(HAND)
day('word-all-30-lawful-words', '"Lawful words", every one',
    '30 buys on a book without sells: the 12 IOC ones reason 2, the 8 FOK ones reason 3, the 10 Day ones rest at 1000',
    *steps)
steps, n = [], 1
for w in range(1024):
    if w in LAWFUL:
        e = K(n, 10, 2) if w & IOC else K(n, 10, 3) if w & FOK else R(n, 10, 1000)
        steps.append((buy(n, 10, 0 if w & MK else 1000, w), e)); n += 1
    else:
        steps.append((buy(n, 10, 1000, w), F(8)))
day('word-every-word-of-bits-0-to-9', '"Lawful words": the 30 and no other',
    '1,024 words in turn: 994 times 8, the 30 lawful ones as in the day before',
    *steps)

# ------------------------------------------------------------------ refusal 9
part('Refusal 9: fields out of range')
day('shares-edges-on-both-sides-and-in-execution', '"shares outside 1 to 1,000,000" (9)',
    'sells of 0, 1,000,001 and ffffffff, an IOC buy of 0, a FOK buy of 1,000,001, market buys of 0 and 1,000,001 get 9; sells of 1 and 1,000,000 rest; an IOC buy of 1,000,000 takes the 1 and 999,999; the last 1 is cancelled by command',
    (sell(1, 0, 1000), F(9)),
    (sell(1, 1000001, 1000), F(9)),
    (sell(1, 0xffffffff, 1000), F(9)),
    (buy(1, 0, 1000, IOC | D | PA), F(9)),
    (buy(1, 1000001, 1000, fk), F(9)),
    (buy(1, 0, 0, mi), F(9)),
    (buy(1, 1000001, 0, mi), F(9)),
    (sell(1, 1, 1000), R(1, 1, 1000)),
    (sell(2, 1000000, 1000), R(2, 1000000, 1000)),
    (buy(3, 1000000, 1000, IOC | D | PA), X(3, 1, 1, 1000), X(3, 2, 999999, 1000)),
    (cancel(4, 2), K(2, 1, 1)))
day('price-99-and-200001-refused-100-and-200000-pass', '"limit price outside 100 to 200,000" (9)',
    'buy and sell at 0, 99, 200,001 and ffffffff get 9; buy at 100 and sell at 200,000 rest; buy at 200,000 executes at 200,000, sell at 100 executes at 100; buy at 200,000 rests and sell at 100 executes at 200,000; sell at 100 rests',
    (buy(1, 10, 99), F(9)),
    (buy(1, 10, 200001), F(9)),
    (buy(1, 10, 0), F(9)),
    (buy(1, 10, 0xffffffff), F(9)),
    (sell(1, 10, 99), F(9)),
    (sell(1, 10, 200001), F(9)),
    (sell(1, 10, 0), F(9)),
    (sell(1, 10, 0xffffffff), F(9)),
    (sell(1, 10, 0, fk), F(9)),
    (buy(1, 10, 99, IOC | D | PA), F(9)),
    (buy(1, 10, 200001, IOC | D | PA | ISO), F(9)),
    (buy(1, 10, 100), R(1, 10, 100)),
    (sell(2, 10, 200000), R(2, 10, 200000)),
    (buy(3, 10, 200000), X(3, 2, 10, 200000)),
    (sell(4, 10, 100), X(4, 1, 10, 100)),
    (buy(5, 10, 200000), R(5, 10, 200000)),
    (sell(6, 10, 100), X(6, 5, 10, 200000)),
    (sell(7, 10, 100), R(7, 10, 100)))
day('side-2-gets-9', '"side not 0 or 1" (9)',
    'side 2, 16, 128, 255 get 9 (with an unlawful word 8); sides 0 and 1 pass',
    (order(1, 2, 1000, 10), F(9)),
    (order(1, 16, 1000, 10), F(9)),
    (order(1, 128, 1000, 10), F(9)),
    (order(1, 255, 1000, 10), F(9)),
    (order(1, 2, 0, 10, mi), F(9)),
    (order(1, 2, 1000, 10, STD | ISO | PO), F(8)),
    (order(1, 0, 1000, 10), R(1, 10, 1000)),
    (order(2, 1, 1001, 10), R(2, 10, 1001)))
day('market-with-a-price-gets-9', '"market price not 0" (9)',
    'market orders priced 1, 100, 1000, 1002 and ffffffff get 9; priced 0 one executes at 1002',
    (sell(1, 10, 1002), R(1, 10, 1002)),
    (buy(2, 10, 1002, mi), F(9)),
    (buy(2, 10, 1, mi), F(9)),
    (buy(2, 10, 100, mf), F(9)),
    (sell(2, 10, 1000, mf), F(9)),
    (buy(2, 10, 0xffffffff, mi), F(9)),
    (buy(2, 10, 0, mi), X(2, 1, 10, 1002)))

# ------------------------------------------------------------------ refusal 3
part('Refusal 3: not one of the four forms')
R1 = (ok, R(1, 100, 1000))
day('line-of-41-digits', '"a line over 41 bytes" (3)',
    'an order with one digit more at the end or at the front gets 3; the order itself rests',
    (ok + 'a', F(3)),
    ('0' + ok, F(3)),
    R1)
day('empty-lines-between-and-at-the-end', '"An empty line ... one `1f03`"',
    '3, 3, order 1 rests, 3, cancelled by 2, 3',
    ('', F(3)),
    ('', F(3)),
    R1,
    ('', F(3)),
    (cancel(2, 1), K(1, 100, 1)),
    ('', F(3)))
day('only-an-empty-line', '"An empty line ... one `1f03`"', '3', ('', F(3)))
day('last-line-without-line-feed-alone', '"a last line with no line feed ... one `1f03`"',
    '3 for the whole input of one lawful order', tail=(ok.encode(), F(3)))
day('last-line-of-one-digit-without-line-feed', '"a last line with no line feed ... one `1f03`"',
    'order 1 rests, 3 for the lone digit', R1, tail=(b'0', F(3)))
day('last-line-over-41-bytes-without-line-feed', '"a line over 41 bytes and a last line with no line feed each give one"',
    'order 1 rests, one 3 for a last line of 200 digits', R1, tail=((ok * 5).encode(), F(3)))
day('last-close-without-line-feed', '"a last line with no line feed ... one `1f03`"',
    'order 1 rests; the close without line feed gets 3, so nothing is cancelled', R1, tail=(close(2).encode(), F(3)))
day('uppercase-digit', '"A line is lowercase hexadecimal"',
    'orders and a quote with one uppercase digit, a close with two, get 3; all lowercase rests 100 at 1002',
    ('01000000010209d9c000002c000003Ea00000064', F(3)),
    ('01000000010209d9c000002c000003eA00000064', F(3)),
    ('01000000010209D9c000002c000003ea00000064', F(3)),
    ('01000000010209d9c000002C000003ea00000064', F(3)),
    ('03000000010209d9C00000000000000000', F(3)),
    ('04000000010209D9C0', F(3)),
    ('01000000010209d9c000002c000003ea00000064', R(1, 100, 1002)))
day('trailing-space-tab-or-carriage-return', '"ended by one line feed"',
    'a space, a tab or a carriage return before the line feed gets 3 for each of the four kinds; also in place of the last digit; then order 1 rests',
    *[(c + x, F(3)) for c in (ok, cancel(1, 1), quote(1, 0, 0), close(1)) for x in (' ', '\t', '\r')],
    *[(ok[:-1] + x, F(3)) for x in (' ', '\t', '\r')],
    (' ' + ok, F(3)),
    (' ', F(3)),
    ('\r', F(3)),
    R1)
day('bytes-that-are-no-digits', '"lowercase hexadecimal"',
    'the neighbours of the digits (slash, colon, backquote, g), x, minus, a zero byte and byte ff in an order each get 3; then order 1 rests',
    *[(ok[:20].encode() + x + ok[21:].encode(), F(3)) for x in (b'/', b':', b'`', b'g', b'x', b'-', b'\x00', b'\xff', b'@', b'G')],
    *[(x + ok[1:].encode(), F(3)) for x in (b'g', b'\x00', b'\xb0')],
    *[(ok[:-1].encode() + x, F(3)) for x in (b'g', b'\x00', b'\xb4')],
    R1)
day('unknown-kinds', '"the line is not one of the four forms" (3)',
    'kinds 00 and 07 in the lengths of kinds 01 to 04 and of 06, kinds 0f, 10, 11, 12, 13, 1f, 40, 81, ff in that of 01 get 3, and so do kinds 05 and 06 (02, W4 and W7), known but longer, in the lengths of 01 to 04; then order 1 rests',
    *[(k + c[2:], F(3)) for k in ('05', '06') for c in (ok, cancel(1, 1), quote(1, 0, 0), close(1))],
    *[(k + c[2:], F(3)) for k in ('00', '07') for c in (ok, cancel(1, 1), quote(1, 0, 0), close(1), minimum(1, B, 100, 1000, 50))],
    *[(k + ok[2:], F(3)) for k in ('0f', '10', '11', '12', '13', '1f', '40', '81', 'ff')],
    R1)
forms = [ok, cancel(1, 1), quote(1, 0, 0), close(1)]
st = []
for c in forms:
    for d in (-2, -1, 1, 2): st.append(((c + '00')[:len(c) + d], F(3)))
for c in forms:
    for l in (18, 26, 34, 40):
        if l != len(c): st.append(((c + '0' * 40)[:l], F(3)))
for l in (1, 2, 10, 17): st.append((ok[:l], F(3)))
day('lengths-that-do-not-fit-the-kind', 'the table of digits: 40, 26, 34, 18',
    'each kind one and two digits short and over, and in the lengths of the three other kinds, 3; beginnings of an order of 1, 2, 10, 17 digits, 3; then order 1 rests',
    *st, R1)

# ------------------------------------------------------------------ write
rows, days, lin, lout = [], 0, 0, 0
for d in DAYS:
    if d[0] is None:
        rows += ['', '## ' + d[1], '', '| Day | Shows | What comes out |', '|---|---|---|']; continue
    name, quoted, words, i, o = d
    open(os.path.join(HERE, name + '.in'), 'wb').write(i)
    open(os.path.join(HERE, name + '.out'), 'wb').write(o)
    rows.append('| %s | %s | %s |' % (name, quoted, words))
    days += 1; lin += i.count(b'\n') + (not i.endswith(b'\n') and i != b''); lout += o.count(b'\n')
head = ['# Days for the order book', '',
        'Each day is NAME.in (the whole input of the program) and NAME.out (its whole output). They were derived by hand from paper 01, and where the table names it from paper 02; `write-days.py` only spells the lines. %d days, %d lines in, %d lines out. "3" in the last column stands for the line `1f03`, "11" for `1f0b`, and so on.' % (days, lin, lout), '',
        'Prices in these tables are cents, as in the command lines. Event lines count half cents (02, W6), so a price stands there doubled: 1002 as 2,004, `000007d4`, and 1001.5 as 2,003, `000007d3`.']
open(os.path.join(HERE, 'README.md'), 'w').write('\n'.join(head + rows) + '\n')
print(days, 'days', lin, 'in', lout, 'out')
