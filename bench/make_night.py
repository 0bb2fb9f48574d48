#!/usr/bin/env python3
"""Makes what came in on a night: interchanges of purchase orders (850) and ship notices (856) for the bundled guides and setup.

usage: bench/make_night.py MB FILE     (the same bytes for the same number)

ACME sends orders and notices to BOLT, BOLT orders to ACME, each with its own delimiters. An interchange has one to three groups of
ten to eighty sets, an order two to thirty lines, a notice one to four orders of packs and items. One set in a hundred has a fault,
one in four hundred the number of the set before it, and one interchange in fifty came before.
"""
import random
import sys

KINDS = 1500
ROADS = ('MAIN STREET', 'HIGH ROAD', 'MILL LANE', 'HARBOUR WAY', 'STATION ROAD')
TOWNS = ('NORTHTOWN', 'SOUTHTOWN', 'EASTBURY', 'WESTFIELD')
GOODS = ('BLUE CHAIR', 'OAK TABLE 120 CM', 'DESK LAMP', 'STEEL SHELF, 5 TIERS', 'PAPER A4 80 G', 'WALL CLOCK')
SENDERS = {'ACME': (b'01', b'BOLT', b'*', b'>', b'~'), 'BOLT': (b'ZZ', b'ACME', b'|', b':', b'!')}


def date(draw):
    return f'2026{draw.randint(1, 12):02}{draw.randint(1, 28):02}'


def order(draw):
    lines = draw.randint(2, 30)
    body = [f'BEG*00*SA*PO{draw.randint(10000, 9999999)}**{date(draw)}', f'REF*DP*{draw.randint(1, 999)}*SALES',
            f'REF*IA*{draw.randint(10000, 99999)}', f'DTM*002*{date(draw)}*0900']
    if draw.random() < 0.3:
        body += [f'N9*ZZ*{draw.randint(1, 99)}', 'MSG*DELIVER TO THE REAR ENTRANCE, HANDLE WITH CARE']
    for kind in ('ST', 'BT')[:draw.randint(1, 2)]:
        body += [f'N1*{kind}*STORE {draw.randint(1, 400)}*92*{draw.randint(1, 400):04}',
                 f'N3*{draw.randint(1, 200)} {draw.choice(ROADS)}', f'N4*{draw.choice(TOWNS)}*NY*{draw.randint(10000, 99999)}*US']
    for k in range(1, lines + 1):
        code = draw.randint(10 ** 11, 10 ** 12 - 1)
        body += [f'PO1*{k}*{draw.randint(1, 500)}*{draw.choice(("EA", "CA"))}*{draw.randint(1, 99)}.{draw.randint(10, 99)}**UP*{code}',
                 f'PID*F*08***{draw.choice(GOODS)}']
    return body + [f'CTT*{lines}']


def notice(draw):
    number = draw.randint(10000, 9999999)
    body = [f'BSN*00*SH{number}*{date(draw)}*{draw.randint(0, 23):02}{draw.randint(0, 59):02}*0001', 'HL*1**S*1',
            f'TD5**2*UPSN*{draw.choice("MA")}', f'REF*BM*{number}', f'DTM*011*{date(draw)}',
            f'N1*ST*STORE {draw.randint(1, 400)}*92*{draw.randint(1, 400):04}']
    level = 1
    for _ in range(draw.randint(1, 4)):
        level += 1
        body += [f'HL*{level}*1*O*1', f'PRF*PO{draw.randint(10000, 9999999)}']
        above = level
        for _ in range(draw.randint(1, 3)):
            level += 1
            pack = level
            body += [f'HL*{pack}*{above}*P*1', f'MAN*GM*00{draw.randint(10 ** 17, 10 ** 18 - 1)}']
            for k in range(draw.randint(1, 4)):
                level += 1
                body += [f'HL*{level}*{pack}*I*0', f'LIN*{k + 1}*UP*{draw.randint(10 ** 11, 10 ** 12 - 1)}',
                         f'SN1*{k + 1}*{draw.randint(1, 500)}*EA']
    return body


def spoiled(draw, body):
    """The same body with a fault of one kind or another."""
    body, at = list(body), draw.randrange(1, len(body))
    kind = draw.randrange(5)
    if kind == 0:
        body[0] = body[0].replace('*00*', '*99*', 1)
    elif kind == 1:
        body.insert(at, 'QQ*1')
    elif kind == 2:
        del body[0]
    elif kind == 3:
        body[at] += '*' * 12 + 'X'
    else:
        body[0] = body[0].replace('2026', '2O26')
    return body


def bodies(draw, make, fields):
    """So many bodies, each as its bytes and the number of its segments; `fields` changes the delimiters."""
    made = []
    for k in range(KINDS):
        body = make(draw)
        if k % 100 == 99:
            body = spoiled(draw, body)
        made.append((''.join(seg + '~' for seg in body).encode().translate(fields), len(body)))
    return made


class Sender:
    """A partner that sends, with the sets that it draws from and the numbers that it gives."""

    def __init__(self, draw, name):
        self.draw, self.name = draw, name.encode()
        self.qualifier, self.to, element, component, terminator = SENDERS[name]
        self.delims = bytes.maketrans(b'*>~', element + component + terminator)
        self.number = self.group = 0
        self.kinds = {b'850': bodies(draw, order, self.delims)}
        if name == 'ACME':
            self.kinds[b'856'] = bodies(draw, notice, self.delims)

    def groups(self):
        for _ in range(self.draw.randint(1, 3)):
            self.group += 1
            kind = self.draw.choice(list(self.kinds))
            made, number = [], 0
            for _ in range(self.draw.randint(10, 80)):
                number += self.draw.random() >= 0.0025
                body, count = self.draw.choice(self.kinds[kind])
                made.append(b'ST*%s*%04d~'.translate(self.delims) % (kind, number) + body
                            + b'SE*%d*%04d~'.translate(self.delims) % (count + 2, number))
            yield (b'GS*%s*%s*%s*20260228*0900*%d*X*005010~' % (b'PO' if kind == b'850' else b'SH', self.name, self.to, self.group)
                   ).translate(self.delims) + b''.join(made) + (b'GE*%d*%d~' % (len(made), self.group)).translate(self.delims)

    def interchange(self):
        self.number += 1
        head = (b'ISA*00*          *00*          *%s*%-15s*ZZ*HUB            *260228*0900*^*00501*%09d*0*P*>~'
                % (self.qualifier, self.name, self.number)).translate(self.delims)
        groups = list(self.groups())
        return head + b''.join(groups) + (b'IEA*%d*%09d~' % (len(groups), self.number)).translate(self.delims)


def night(size):
    """The interchanges of a night of at least so many bytes."""
    draw = random.Random(20260228)
    senders = [Sender(draw, name) for name in ('ACME', 'BOLT')]
    made, came = 0, []
    while made < size:
        if came and draw.random() < 0.02:
            text = draw.choice(came)
        else:
            text = draw.choice(senders).interchange()
            came = (came + [text])[-20:]
        made += len(text)
        yield text


def write_night(path, megabytes):
    with open(path, 'wb') as out:
        out.writelines(night(megabytes * 1_000_000))


if __name__ == '__main__':
    write_night(sys.argv[2], int(sys.argv[1]))
