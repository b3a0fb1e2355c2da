#!/usr/bin/env python3
# Writes the days derived by hand (NAME.in, NAME.out, for some NAME.tally) and README.md. It knows how a line is spelt and
# nothing of the rules: what must come out of each command is written behind it, after ->, by hand.
#
# Commands: `q BID/OFFER`, `cancel NUMBER`, `close`, `raw LINE`, and orders as `WORD SIDE SHARES@PRICE`, where WORD is D displayed,
# N non-displayed, both Day and Price Adjust; c Cancel Back, p Post Only, I behind it ISO; I IOC, F FOK, M market IOC.
# A command has the next number and the time 34,200,000, unless `=NUMBER` or `at TIME` stand in front; a refused one leaves its
# number free. Lines that come out: `11 INCOMING RESTING PRICE SHARES`, `12` or `14 NUMBER PRICE SHARES`,
# `13 NUMBER SHARES REASON`, `1fNN`; prices in cents, as before W6.
import pathlib
import re

HOME = pathlib.Path(__file__).resolve().parent
WORDS = dict(D=0x2c, Dc=0x4c, Dp=0xac, N=0x34, Nc=0x54, DI=0x12c, DcI=0x14c, NI=0x134, NcI=0x154, I=0x29, M=0x229, F=0x2a)
TABLE = []


def command(text, number):
    """The line of a command."""
    time = 34200000
    if found := re.match(r'=(\d+) ', text):
        number, text = int(found[1]), text[found.end():]
    if found := re.match(r'at (\d+) ', text):
        time, text = int(found[1]), text[found.end():]
    header = f'{number:08x}{time:08x}'
    kind, _, rest = text.partition(' ')
    if kind == 'raw':
        return rest
    if kind == 'q':
        bid, offer = map(int, rest.split('/'))
        return f'03{header}{bid:08x}{offer:08x}'
    if kind == 'cancel':
        return f'02{header}{int(rest):08x}'
    if kind == 'close':
        return f'04{header}'
    side, size = rest.split()
    shares, price = map(int, size.split('@'))
    return f'01{header}{["buy", "sell"].index(side):02x}{WORDS[kind]:04x}{price:08x}{shares:08x}'


def event(text):
    """A line that comes out."""
    kind, *fields = text.split()
    if kind.startswith('1f'):
        return kind
    assert len(fields) == {'11': 4, '12': 3, '13': 3, '14': 3}[kind], text
    widths = [8, 8, 2] if kind == '13' else [8] * len(fields)
    return kind + ''.join(f'{int(field):0{width}x}' for field, width in zip(fields, widths))


def day(name, shows, comes, text, tally=''):
    """A day; `tally`: order number, shares executed, shares cancelled, three by three."""
    number, given, wanted = 1, '', ''
    for line in text.strip().splitlines():
        left, _, right = line.partition('->')
        events = [part.strip() for part in right.split(';') if part.strip()]
        given += command(left.strip(), number) + '\n'
        wanted += ''.join(event(part) + '\n' for part in events)
        if not (events and events[0].startswith('1f')):
            number += 1
    (HOME / f'{name}.in').write_text(given)
    (HOME / f'{name}.out').write_text(wanted)
    if tally:
        rows = ''.join(row.strip() + '\n' for row in tally.split(';'))
        (HOME / f'{name}.tally').write_text('# order number, shares executed, shares cancelled\n' + rows)
    TABLE.append((SECTION, name, shows, comes, given.count('\n'), wanted.count('\n')))


def section(title):
    global SECTION
    SECTION = title


section('The worked examples of the sources')
day('source-e22', 'E22: hidden buy at 27.00 under 24.00 x 26.00, then 24.00 x 25.00; never moved back up', 'rests at 2600; the offer of 2500 sets it at 2500; the offer of 2600 again moves nothing; it executes at 2500', '''
q 2400/2600
N buy 100@2700 -> 12 2 2600 100
q 2400/2500 -> 14 2 2500 100
q 2400/2600
I sell 100@2400 -> 11 5 2 2500 100
''')
day('source-e22-cancel-back', 'E22 with Cancel Back', 'rests at 2600; the offer of 2500 cancels it, reason 4; a cancel of it then gets 10', '''
q 2400/2600
Nc buy 100@2600 -> 12 2 2600 100
q 2400/2500 -> 13 2 100 4
cancel 2 -> 1f0a
''')
day('source-e22b', 'E22b: hidden buy at 10.11 under 10.00 x 10.10; the offer rises', 'rests at 1010; the offers of 1011 and 1012 move nothing; it executes at 1010', '''
q 1000/1010
N buy 100@1011 -> 12 2 1010 100
q 1000/1011
q 1010/1012
I sell 100@1010 -> 11 5 2 1010 100
''')

section('Which orders a quote moves')
day('a-cent-short-of-at-and-past-the-away-offer', '"would now cross": equal is not beyond; "One with Cancel Back is cancelled, reason 4"', 'away offer 1000: of hidden buys at 1001, 1000 and 999 the first alone is set at 1000; of Cancel Back ones the first alone is cancelled; an IOC sell meets 3, 4, 1 at 1000, then 5, 6 at 999', '''
N buy 10@1001 -> 12 1 1001 10
Nc buy 10@1001 -> 12 2 1001 10
N buy 10@1000 -> 12 3 1000 10
Nc buy 10@1000 -> 12 4 1000 10
N buy 10@999 -> 12 5 999 10
Nc buy 10@999 -> 12 6 999 10
q 0/1000 -> 14 1 1000 10; 13 2 10 4
I sell 60@900 -> 11 8 3 1000 10; 11 8 4 1000 10; 11 8 1 1000 10; 11 8 5 999 10; 11 8 6 999 10; 13 8 10 2
''')
day('a-cent-short-of-at-and-past-the-away-bid', 'the mirror of it, selling', 'away bid 1000: of hidden sells at 999, 1000 and 1001 the first alone is set at 1000, or cancelled with Cancel Back; an IOC buy meets 3, 4, 1 at 1000, then 5, 6 at 1001', '''
N sell 10@999 -> 12 1 999 10
Nc sell 10@999 -> 12 2 999 10
N sell 10@1000 -> 12 3 1000 10
Nc sell 10@1000 -> 12 4 1000 10
N sell 10@1001 -> 12 5 1001 10
Nc sell 10@1001 -> 12 6 1001 10
q 1000/0 -> 14 1 1000 10; 13 2 10 4
I buy 60@1100 -> 11 8 3 1000 10; 11 8 4 1000 10; 11 8 1 1000 10; 11 8 5 1001 10; 11 8 6 1001 10; 13 8 10 2
''')
day('an-absent-away-price-moves-nothing', '0 for none; the Locking Price is the away offer for a buy, the away bid for a sell', 'hidden buy at 1005, hidden sell at 1010: quotes 0/0, 1009/0, 0/1006 and 1010/1005 move nothing; 0/1004 moves the buy alone, 1011/0 the sell alone, 0/0 neither', '''
N buy 10@1005 -> 12 1 1005 10
N sell 10@1010 -> 12 2 1010 10
q 0/0
q 1009/0
q 0/1006
q 1010/1005
q 0/1004 -> 14 1 1004 10
q 1011/0 -> 14 2 1011 10
q 0/0
close -> 13 1 10 7; 13 2 10 7
''')
day('the-away-price-of-its-own-side-moves-nothing', 'the Locking Price is the away offer for a buy, the away bid for a sell', 'hidden buys at 1000, plain and Cancel Back: bids of 1000, 1005 and 200,000 move nothing; hidden sells at 1010: offers of 1010, 1005 and 100 move nothing (the buys are gone by then)', '''
N buy 10@1000 -> 12 1 1000 10
Nc buy 10@1000 -> 12 2 1000 10
q 1000/0
q 1005/0
q 200000/0
q 0/0
I sell 20@1000 -> 11 7 1 1000 10; 11 7 2 1000 10
N sell 10@1010 -> 12 8 1010 10
Nc sell 10@1010 -> 12 9 1010 10
q 0/1010
q 0/1005
q 0/100
q 0/0
I buy 20@1010 -> 11 14 8 1010 10; 11 14 9 1010 10
''')
day('displayed-buys-stay', '"Non-displayed orders and a moved quote": displayed ones stay, crossed or not, also with Cancel Back', 'away offer 1000: displayed buys at 1003, plain and Cancel Back, and at 1000 stay; the hidden ones at 1003 and 1002 go to 1000 or are cancelled; an IOC sell meets 1, 2 at 1003, then at 1000 the displayed 5 before the hidden 3, 6', '''
D buy 10@1003 -> 12 1 1003 10
Dc buy 10@1003 -> 12 2 1003 10
N buy 10@1003 -> 12 3 1003 10
Nc buy 10@1002 -> 12 4 1002 10
D buy 10@1000 -> 12 5 1000 10
N buy 10@1002 -> 12 6 1002 10
q 0/1000 -> 14 3 1000 10; 13 4 10 4; 14 6 1000 10
I sell 50@1000 -> 11 8 1 1003 10; 11 8 2 1003 10; 11 8 5 1000 10; 11 8 3 1000 10; 11 8 6 1000 10
''')
day('displayed-sells-stay', 'the same of sells', 'away bid 1003: displayed sells at 1000, plain and Cancel Back, and at 1003 stay; the hidden ones at 1000 and 1001 go to 1003 or are cancelled; an IOC buy meets 1, 2 at 1000, then at 1003 the displayed 5 before the hidden 3, 6', '''
D sell 10@1000 -> 12 1 1000 10
Dc sell 10@1000 -> 12 2 1000 10
N sell 10@1000 -> 12 3 1000 10
Nc sell 10@1001 -> 12 4 1001 10
D sell 10@1003 -> 12 5 1003 10
N sell 10@1001 -> 12 6 1001 10
q 1003/0 -> 14 3 1003 10; 13 4 10 4; 14 6 1003 10
I buy 50@1003 -> 11 8 1 1000 10; 11 8 2 1000 10; 11 8 5 1003 10; 11 8 3 1003 10; 11 8 6 1003 10
''')
day('a-hidden-buy-behind-a-displayed-one-that-stays', 'displayed ones stay; those behind them are still judged', 'displayed buys at 1005, 1004 and 1003, a hidden buy a cent behind each: away offer 1003 moves the hidden one at 1004 alone, 1001 all three of them', '''
D buy 10@1005 -> 12 1 1005 10
N buy 10@1004 -> 12 2 1004 10
D buy 10@1004 -> 12 3 1004 10
N buy 10@1003 -> 12 4 1003 10
D buy 10@1003 -> 12 5 1003 10
N buy 10@1002 -> 12 6 1002 10
q 0/1003 -> 14 2 1003 10
q 0/1001 -> 14 4 1001 10; 14 2 1001 10; 14 6 1001 10
close -> 13 1 10 7; 13 3 10 7; 13 5 10 7; 13 4 10 7; 13 2 10 7; 13 6 10 7
''')
day('both-sides-by-one-crossed-quote', '"buys first, in former rank order"', 'away 1010 by 1000: buys at 1005 and 1004 go to 1000, then sells at 1006 and 1007 to 1010; after quote 0/0, which moves nothing back, they execute there', '''
N sell 10@1007 -> 12 1 1007 10
N buy 10@1004 -> 12 2 1004 10
N sell 10@1006 -> 12 3 1006 10
N buy 10@1005 -> 12 4 1005 10
q 1010/1000 -> 14 4 1000 10; 14 2 1000 10; 14 3 1010 10; 14 1 1010 10
q 0/0
I sell 20@1000 -> 11 7 4 1000 10; 11 7 2 1000 10
I buy 20@1010 -> 11 8 3 1010 10; 11 8 1 1010 10
''')
day('one-quote-moves-and-cancels-on-both-sides', '"Quote writes `14` ... or `13`, buys first, in former rank order"', 'away 1020 by 990: the lines of each side come in former rank order, `14` and `13` mixed; displayed ones stay', '''
Nc sell 1@1012 -> 12 1 1012 1
N sell 2@1011 -> 12 2 1011 2
Nc sell 3@1011 -> 12 3 1011 3
D sell 4@1011 -> 12 4 1011 4
Nc buy 5@1000 -> 12 5 1000 5
N buy 6@1001 -> 12 6 1001 6
Nc buy 7@1002 -> 12 7 1002 7
N buy 8@1000 -> 12 8 1000 8
D buy 9@1001 -> 12 9 1001 9
N sell 10@1013 -> 12 10 1013 10
q 1020/990 -> 13 7 7 4; 14 6 990 6; 13 5 5 4; 14 8 990 8; 14 2 1020 2; 13 3 3 4; 13 1 1 4; 14 10 1020 10
close -> 13 9 9 7; 13 6 6 7; 13 8 8 7; 13 4 4 7; 13 2 2 7; 13 10 10 7
''', tally='1 0 1; 2 0 2; 3 0 3; 4 0 4; 5 0 5; 6 0 6; 7 0 7; 8 0 8; 9 0 9; 10 0 10; 11 0 0; 12 0 0')
day('a-locked-quote-moves-one-side', '"would now cross": locked is not crossed', 'hidden buy at 1001, hidden sell at 1004: away 1001 by 1001 and 1004 by 1004 leave the one at that price; 1000 by 1000 moves the buy (1004 by 1004 has moved nothing), 1005 by 1005 the sell', '''
N buy 10@1001 -> 12 1 1001 10
N sell 10@1004 -> 12 2 1004 10
q 1001/1001
q 1004/1004
q 1000/1000 -> 14 1 1000 10
q 1005/1005 -> 14 2 1005 10
close -> 13 1 10 7; 13 2 10 7
''')
day('moved-to-the-edges-of-the-price-range', 'away prices 100 to 200,000: the Locking Price is in range, reason 5 does not come', 'away offer 100: hidden buy at 101 goes to 100, the one at 100 stays; away bid 200,000: hidden sell at 199,999 goes to 200,000, the one at 200,000 stays', '''
N buy 10@101 -> 12 1 101 10
N buy 10@100 -> 12 2 100 10
N sell 10@199999 -> 12 3 199999 10
N sell 10@200000 -> 12 4 200000 10
q 200000/100 -> 14 1 100 10; 14 3 200000 10
q 0/0
M sell 20@0 -> 11 7 2 100 10; 11 7 1 100 10
M buy 20@0 -> 11 8 4 200000 10; 11 8 3 200000 10
''')
day('moved-across-the-whole-price-range', 'away prices 100 to 200,000', 'hidden buy at 200,000 goes to 100 at one quote; hidden sell at 100 to 200,000', '''
N buy 1000000@200000 -> 12 1 200000 1000000
q 0/100 -> 14 1 100 1000000
cancel 1 -> 13 1 1000000 1
q 0/0
N sell 1@100 -> 12 5 100 1
q 200000/0 -> 14 5 200000 1
close -> 13 5 1 7
''')

section('Rank after a move')
day('moved-buys-keep-former-rank-order', '"Such orders keep their order": former rank, not entry; those already at the Locking Price stay ahead', 'hidden buys 2 at 2500, 3 at 2550, 4 at 2600, 5 at 2500, away offer 2500: `14` for 4, then 3; an IOC sell meets 2, 5, 4, 3', '''
q 2400/0
N buy 10@2500 -> 12 2 2500 10
N buy 10@2550 -> 12 3 2550 10
N buy 10@2600 -> 12 4 2600 10
N buy 10@2500 -> 12 5 2500 10
q 2400/2500 -> 14 4 2500 10; 14 3 2500 10
I sell 40@2400 -> 11 7 2 2500 10; 11 7 5 2500 10; 11 7 4 2500 10; 11 7 3 2500 10
''')
day('moved-sells-keep-former-rank-order', '"Such orders keep their order", selling', 'hidden sells 2 at 2500, 3 at 2450, 4 at 2400, 5 at 2500, away bid 2500: `14` for 4, then 3; an IOC buy meets 2, 5, 4, 3', '''
q 0/2600
N sell 10@2500 -> 12 2 2500 10
N sell 10@2450 -> 12 3 2450 10
N sell 10@2400 -> 12 4 2400 10
N sell 10@2500 -> 12 5 2500 10
q 2500/2600 -> 14 4 2500 10; 14 3 2500 10
I buy 40@2600 -> 11 7 2 2500 10; 11 7 5 2500 10; 11 7 4 2500 10; 11 7 3 2500 10
''')
day('a-moved-order-has-a-new-stamp', '"with a new time stamp"; "At one price rank reads displayed, then stamp"', 'hidden buy 1, moved by quote 3 to 1000, comes behind buy 2, which stood there, and before buy 4, which came later', '''
N buy 10@1005 -> 12 1 1005 10
N buy 10@1000 -> 12 2 1000 10
q 0/1000 -> 14 1 1000 10
N buy 10@1000 -> 12 4 1000 10
I sell 15@1000 -> 11 5 2 1000 10; 11 5 1 1000 5
I sell 15@1000 -> 11 6 1 1000 5; 11 6 4 1000 10
''')
day('a-moved-sell-has-a-new-stamp', '"with a new time stamp", selling', 'hidden sell 1, moved by quote 3 to 1005, comes behind sell 2, which stood there, and before sell 4, which came later', '''
N sell 10@1000 -> 12 1 1000 10
N sell 10@1005 -> 12 2 1005 10
q 1005/0 -> 14 1 1005 10
N sell 10@1005 -> 12 4 1005 10
I buy 15@1005 -> 11 5 2 1005 10; 11 5 1 1005 5
I buy 15@1005 -> 11 6 1 1005 5; 11 6 4 1005 10
''')
day('a-later-displayed-order-comes-before-a-moved-one', '"rank reads displayed, then stamp"', 'hidden buy 1 moved to 1001; after quote 0/0 the displayed buy 4 rests at 1001 and executes first; the same of sells', '''
N buy 10@1005 -> 12 1 1005 10
q 0/1001 -> 14 1 1001 10
q 0/0
D buy 10@1001 -> 12 4 1001 10
I sell 20@1001 -> 11 5 4 1001 10; 11 5 1 1001 10
N sell 10@1000 -> 12 6 1000 10
q 1004/0 -> 14 6 1004 10
q 0/0
D sell 10@1004 -> 12 9 1004 10
I buy 20@1004 -> 11 10 9 1004 10; 11 10 6 1004 10
''')
day('orders-moved-twice', '"would now cross", each time anew; "former rank order" is that of the stamps', 'buys 1 at 1005 and 2 at 1003: offer 1004 moves 1; offer 1003 moves 1 behind 2; offer 1002 moves 2, then 1; a sell meets 2, 1', '''
N buy 10@1005 -> 12 1 1005 10
N buy 10@1003 -> 12 2 1003 10
q 0/1004 -> 14 1 1004 10
q 0/1003 -> 14 1 1003 10
q 0/1002 -> 14 2 1002 10; 14 1 1002 10
I sell 20@1002 -> 11 6 2 1002 10; 11 6 1 1002 10
''')
day('places-among-the-moves-of-one-quote', '"a place among that command\'s moves": it is the rank afterwards', 'buys 1 to 4 at 1003, 1005, 1004, 1005: offer 1002 moves 2, 4, 3, 1; offer 1001 moves them in that order again; they close so', '''
N buy 10@1003 -> 12 1 1003 10
N buy 10@1005 -> 12 2 1005 10
N buy 10@1004 -> 12 3 1004 10
N buy 10@1005 -> 12 4 1005 10
q 0/1002 -> 14 2 1002 10; 14 4 1002 10; 14 3 1002 10; 14 1 1002 10
q 0/1001 -> 14 2 1001 10; 14 4 1001 10; 14 3 1001 10; 14 1 1001 10
close -> 13 2 10 7; 13 4 10 7; 13 3 10 7; 13 1 10 7
''')
day('sells-moved-after-buys-keep-their-places', '"a place among that command\'s moves", counted over both sides', 'one quote moves buys 1 and 2, then sells 6, 5, 4 to 1020; sell 3 stood there; a buy meets 3, 6, 5, 4', '''
N buy 10@1000 -> 12 1 1000 10
N buy 10@999 -> 12 2 999 10
N sell 10@1020 -> 12 3 1020 10
N sell 10@1012 -> 12 4 1012 10
N sell 10@1011 -> 12 5 1011 10
N sell 10@1010 -> 12 6 1010 10
q 1020/990 -> 14 1 990 10; 14 2 990 10; 14 6 1020 10; 14 5 1020 10; 14 4 1020 10
q 0/0
I buy 40@1020 -> 11 9 3 1020 10; 11 9 6 1020 10; 11 9 5 1020 10; 11 9 4 1020 10
''')
day('cancel-back-among-moved-orders', '"One with Cancel Back is cancelled, reason 4": in its turn; equal is not beyond', 'buys 1 to 5 at 1005, 1004, 1003, 1002, 1002, of which 2 and 4 are Cancel Back: offer 1002 gives `14` 1, `13` 2, `14` 3; a sell meets 4, 5, 1, 3', '''
N buy 10@1005 -> 12 1 1005 10
Nc buy 20@1004 -> 12 2 1004 20
N buy 30@1003 -> 12 3 1003 30
Nc buy 40@1002 -> 12 4 1002 40
N buy 50@1002 -> 12 5 1002 50
q 0/1002 -> 14 1 1002 10; 13 2 20 4; 14 3 1002 30
I sell 130@1002 -> 11 7 4 1002 40; 11 7 5 1002 50; 11 7 1 1002 10; 11 7 3 1002 30
''', tally='1 10 0; 2 0 20; 3 30 0; 4 40 0; 5 50 0; 6 0 0; 7 130 0')

section('Intermarket sweeps')
day('a-hidden-iso-buy-is-moved-at-the-next-quote', '"ISO remainders are treated alike": not at entry, at the next quote, changed or not', 'away offer 1000: hidden ISO buys at 1005, plain and Cancel Back, rest there; the same quote again sets the one at 1000 and cancels the other; a third time nothing', '''
q 0/1000
NI buy 10@1005 -> 12 2 1005 10
NcI buy 20@1005 -> 12 3 1005 20
q 0/1000 -> 14 2 1000 10; 13 3 20 4
q 0/1000
I sell 10@1000 -> 11 6 2 1000 10
''')
day('a-hidden-iso-sell-is-moved-at-the-next-quote', '"ISO remainders are treated alike", selling', 'away bid 1000: hidden ISO sells at 995, plain and Cancel Back, rest there; the same quote again sets the one at 1000 and cancels the other; a third time nothing', '''
q 1000/0
NI sell 10@995 -> 12 2 995 10
NcI sell 20@995 -> 12 3 995 20
q 1000/0 -> 14 2 1000 10; 13 3 20 4
q 1000/0
I buy 10@1000 -> 11 6 2 1000 10
''')
day('a-quote-that-changes-one-side-judges-both', '"would now cross": also where that away price is the same as before', 'away offer 1000, hidden ISO buy at 1003: quote 990/1000 moves it; away bid 990, hidden ISO sell at 985 moved by quote 990/1001', '''
q 0/1000
NI buy 10@1003 -> 12 2 1003 10
q 990/1000 -> 14 2 1000 10
cancel 2 -> 13 2 10 1
NI sell 10@985 -> 12 5 985 10
q 990/1001 -> 14 5 990 10
close -> 13 5 10 7
''')
day('a-displayed-iso-remainder-stays', '"ISO remainders are treated alike": the non-displayed ones', 'away offer 1000: displayed ISO buys at 1005, plain and Cancel Back, rest there and stay there at the next quotes; a sell executes at 1005', '''
q 0/1000
DI buy 10@1005 -> 12 2 1005 10
DcI buy 10@1005 -> 12 3 1005 10
q 0/1000
q 0/999
I sell 20@1000 -> 11 6 2 1005 10; 11 6 3 1005 10
''')
day('an-iso-remainder-after-executions-is-moved', '"ISO remainders": what is left of a hidden ISO', 'away offer 1001: hidden ISO buy of 50 at 1005 executes 30 at 1002 and rests 20 at 1005; away offer 1003 sets the 20 at 1003', '''
D sell 30@1002 -> 12 1 1002 30
q 0/1001
NI buy 50@1005 -> 11 3 1 1002 30; 12 3 1005 20
q 0/0
q 0/1003 -> 14 3 1003 20
close -> 13 3 20 7
''')

section('What follows a move')
day('a-moved-order-shows-the-shares-left', '`14`: number, price, shares (those left)', 'hidden buy of 100 loses 40 at 1005; moved to 1000 it shows 60; it loses 10 there and moves on with 50, keeping its rank before buy 6', '''
N buy 100@1005 -> 12 1 1005 100
I sell 40@1005 -> 11 2 1 1005 40
q 0/1000 -> 14 1 1000 60
I sell 10@1000 -> 11 4 1 1000 10
q 0/0
N buy 10@1000 -> 12 6 1000 10
q 0/999 -> 14 1 999 50; 14 6 999 10
cancel 1 -> 13 1 50 1
cancel 6 -> 13 6 10 1
''', tally='1 50 50; 2 40 0; 3 0 0; 4 10 0; 5 0 0; 6 0 10; 7 0 0')
day('cancel-finds-a-moved-order-by-its-own-number', '"The number in `12` and `13` is the order\'s own"; a stamp is no number', 'after quote 2 has moved buy 1, cancels of 2 and 3 get 10, a cancel of 1 is taken, the next gets 10', '''
N buy 10@1005 -> 12 1 1005 10
q 0/1000 -> 14 1 1000 10
cancel 2 -> 1f0a
cancel 3 -> 1f0a
cancel 1 -> 13 1 10 1
cancel 1 -> 1f0a
''')
day('fok-is-judged-at-the-moved-price', 'a moved order stands at its new price alone', 'hidden buy moved from 1005 to 1000: a FOK sell at 1001 gets reason 3, at 1000 it executes', '''
N buy 10@1005 -> 12 1 1005 10
q 0/1000 -> 14 1 1000 10
F sell 10@1001 -> 13 3 10 3
F sell 10@1000 -> 11 4 1 1000 10
''')
day('post-only-is-tested-at-the-moved-price', 'a moved order stands at its new price alone', 'hidden buy at 1005: a Post Only sell at 1003 would pass it and gets reason 6; moved to 1002: at 1003 it rests, at 1001 it gets reason 6, at 1002 it rests (W6: at a hidden price)', '''
N buy 10@1005 -> 12 1 1005 10
Dp sell 10@1003 -> 13 2 10 6
q 0/1002 -> 14 1 1002 10
Dp sell 10@1003 -> 12 4 1003 10
Dp sell 10@1001 -> 13 5 10 6
Dp sell 10@1002 -> 12 6 1002 10
''')
day('a-sell-goes-where-buys-were-before-a-quote', 'no order crosses after the move', 'hidden buys at 1005 and 1004 moved to 1000: sells rest at 1003 (displayed) and at 1001 (hidden); a buy at 1003 meets 5, then 4', '''
N buy 10@1005 -> 12 1 1005 10
N buy 10@1004 -> 12 2 1004 10
q 0/1000 -> 14 1 1000 10; 14 2 1000 10
D sell 10@1003 -> 12 4 1003 10
N sell 10@1001 -> 12 5 1001 10
q 0/0
I buy 20@1003 -> 11 7 5 1001 10; 11 7 4 1003 10
''')
day('a-refused-quote-moves-nothing', '"A refusal ...; book and output bytes are untouched"', 'hidden buy at 1005: quotes with offer 1000 refused 9 (bid 99), 4, 5, 7 and 3 move nothing; the next is taken and moves it; after the close 6', '''
N buy 10@1005 -> 12 1 1005 10
q 99/1000 -> 1f09
q 200001/1000 -> 1f09
=1 q 0/1000 -> 1f04
=3 q 0/1000 -> 1f05
at 34199999 q 0/1000 -> 1f07
at 57600000 q 0/1000 -> 1f07
raw 03000000020209d9c000000000000003e -> 1f03
q 0/1000 -> 14 1 1000 10
close -> 13 1 10 7
q 0/900 -> 1f06
''', tally='1 0 10; 2 0 0')
day('a-place-freed-by-a-quote-is-used-at-once', '"A freed place can be used at once"; refusal 11', '256 buys, the last of them hidden Cancel Back: one more gets 11; the quote cancels that one; the next buy rests, one more gets 11', '\n'.join(
    [f'D buy 10@900 -> 12 {n} 900 10' for n in range(1, 256)] + ['Nc buy 10@1005 -> 12 256 1005 10', 'D buy 10@900 -> 1f0b', 'q 0/1000 -> 13 256 10 4', 'D buy 10@900 -> 12 258 900 10', 'D buy 10@900 -> 1f0b']))
day('a-moved-order-keeps-its-place', 'refusal 11: "that side holds 64", with W5 256', '256 buys, the last of them hidden: the quote moves it; one more buy gets 11 still; a sell side has room', '\n'.join(
    [f'D buy 10@900 -> 12 {n} 900 10' for n in range(1, 256)] + ['N buy 10@1005 -> 12 256 1005 10', 'q 0/1000 -> 14 256 1000 10', 'D buy 10@900 -> 1f0b', 'D sell 10@1001 -> 12 258 1001 10']))
day('one-quote-moves-128-orders', '"buys first, in former rank order": many of both sides', 'hidden buys 1 to 64 at 1001 up to 1064, hidden sells 65 to 128 at 1199 down to 1136: away 2000 by 500 gives `14` for 64 down to 1 at 500, then for 128 down to 65 at 2000; they close in that order', '\n'.join(
    [f'N buy {n}@{1000 + n} -> 12 {n} {1000 + n} {n}' for n in range(1, 65)] + [f'N sell {n}@{1264 - n} -> 12 {n} {1264 - n} {n}' for n in range(65, 129)]
    + ['q 2000/500 -> ' + '; '.join([f'14 {n} 500 {n}' for n in range(64, 0, -1)] + [f'14 {n} 2000 {n}' for n in range(128, 64, -1)])]
    + ['close -> ' + '; '.join([f'13 {n} {n} 7' for n in range(64, 0, -1)] + [f'13 {n} {n} 7' for n in range(128, 64, -1)])]), tally='1 0 1; 2 0 2; 64 0 64; 65 0 65; 128 0 128; 129 0 0')
day('one-quote-cancels-128-orders', '"One with Cancel Back is cancelled, reason 4": both sides whole', 'hidden Cancel Back buys 1 to 64 at 1064 down to 1001, sells 65 to 128 at 1136 up to 1199: away 2000 by 500 cancels 1 to 64, then 65 to 128; both sides are empty: a market order each way finds nothing, a buy and a sell rest', '\n'.join(
    [f'Nc buy {n}@{1065 - n} -> 12 {n} {1065 - n} {n}' for n in range(1, 65)] + [f'Nc sell {n}@{1071 + n} -> 12 {n} {1071 + n} {n}' for n in range(65, 129)]
    + ['q 2000/500 -> ' + '; '.join([f'13 {n} {n} 4' for n in range(1, 129)])]
    + ['q 0/0', 'M buy 10@0 -> 13 131 10 2', 'M sell 10@0 -> 13 132 10 2', 'D buy 10@1000 -> 12 133 1000 10', 'D sell 10@1001 -> 12 134 1001 10']))
day('a-moved-line-is-no-command', '14 is no kind of command; `14` is an event', 'an event line 14 as input gets 3, so does 14 with the body of an order or of a quote; then order 1 rests', '''
raw 1400000001000003e80000000a -> 1f03
raw 14000000010209d9c000002c000003e80000000a -> 1f03
raw 14000000010209d9c000000000000003e8 -> 1f03
N buy 10@1000 -> 12 1 1000 10
''')

days, given, wanted = len(TABLE), sum(row[4] for row in TABLE), sum(row[5] for row in TABLE)
text = f'''# Days at the rules with W2

`plain-*` are outside vectors, copied byte for byte (four more, `nasty-7201` to `nasty-7204`, are gone: the last went with W4, since one of its lines is now a well-formed command of kind 05 and its given output calls it refusal 3, the others with W5, since their given outputs have refusal 11 at 64 orders a side); the other days were derived by hand from papers 01 and 02 and our readings of them, and `write-days.py` only spells their lines, as in `days/examples`: {days} days, {given} lines in, {wanted} lines out. "3" in the last column stands for the line `1f03`, "11" for `1f0b`, and so on.

Prices in these tables are cents, and so are those of NAME.out, as before W6: whoever compares doubles them first (`tools/in_half_cents.py`).

NAME.tally has shares executed and shares cancelled of some orders, as summed by hand from NAME.out: a line `14` counts for neither.
'''
heading = ''
for title, name, shows, comes, _, _ in TABLE:
    if title != heading:
        text += f'\n## {title}\n\n| Day | Shows | What comes out |\n|---|---|---|\n'
        heading = title
    text += f'| {name} | {shows} | {comes} |\n'
(HOME / 'README.md').write_text(text)
print(f'{days} days, {given} lines in, {wanted} lines out')
