"""Random guides, with hierarchies and dependencies and without, and random transaction sets; and the exhaustive small ones."""
import itertools
import random

from elements import IK403, random_conditions, random_element, random_reference, random_row, row_text
from set_rules import IK304, element, is_loop, numbered, slots_of

BOUNDS = [(0, 0), (0, 1), (0, 1), (1, 1), (1, 1), (0, 2), (1, 2), (2, 2), (2, 3), (0, 9)]
IDS = ['AAA', 'BB', 'CD', 'DDD', 'EE', 'FGH', 'GG', '4HX']
LEVELS = [b'S', b'O', b'P', b'I', b'T', b'A1']
EACH = 40
RULED_EACH = 20


def random_slot(draw, trigger=False):
    rows = [random_row(draw) for _ in range(draw.randint(1, 3))]
    least, most = (1, 1) if trigger else draw.choice(BOUNDS)
    pick = [] if draw.random() < .6 else [(1, draw.choice([[b'A'], [b'B'], [b'A', b'B']]))]
    return {'seg': draw.choice(IDS), 'min': least, 'max': most, 'pick': pick, 'rows': rows,
            'conditions': random_conditions(draw, len(rows)) if draw.random() < .3 else []}


def random_nodes(draw, depth, trigger):
    nodes = [random_slot(draw, True)] if trigger else []
    for _ in range(draw.randint(0 if trigger else 1, 3)):
        if depth and draw.random() < .45:
            least, most = draw.choice(BOUNDS)
            nodes.append({'loop': draw.choice(['LA', 'LB', 'N']), 'min': least, 'max': most, 'nodes': random_nodes(draw, depth - 1, True)})
        else:
            nodes.append(random_slot(draw))
    return nodes


def random_guide(draw):
    guide = {'nodes': random_nodes(draw, 3, False), 'dictionary': draw.sample(['XX', 'YYY', 'BB'], draw.randint(0, 2)),
             'convention': draw.choice(['', '', 'CONV']), 'hl': None, 'depends': []}
    numbered(guide['nodes'])
    return guide


def tolerance(draw):
    """Which faults a guide tolerates: none, some, or all but a few."""
    segments, elements = [code for code in IK304 if code != '8'], IK403
    share = draw.choice([0, 0, .3, .6, .9, 1])
    return {'tolerate_segment': [code for code in segments if draw.random() < share],
            'tolerate_element': [code for code in elements if draw.random() < share]}


def node_text(node):
    if is_loop(node):
        inner = ', '.join(node_text(it) for it in node['nodes'])
        return f'{{loop="{node["loop"]}", min={node["min"]}, max={node["max"]}, nodes=[{inner}]}}'
    rows = ', '.join(f'"{row_text(row)}"' for row in node['rows'])
    told = ', '.join(f'"{letter}{"".join("%02d" % p for p in positions)}"' for letter, positions in node['conditions'])
    picks = ', '.join(f'"{k} {b" ".join(codes).decode()}"' for k, codes in node['pick'])
    label = f' label="{node["label"]}",' if node.get('label') else ''
    return (f'{{seg="{node["seg"]}",{label} min={node["min"]}, max={node["max"]}, pick=[{picks}], elements=[{rows}], '
            f'conditions=[{told}]}}')


def listed(words):
    return '[' + ', '.join(f'"{word}"' for word in words) + ']'


def rules_text(guide):
    text = ''
    if guide['hl']:
        pairs = sorted(f'{(parent or b"").decode()}/{level.decode()}' for parent, level in guide['hl']['pairs'])
        text += f'hl = {{pairs={listed(pairs)}, sequential={str(guide["hl"]["sequential"]).lower()}}}\n'
    if guide['depends']:
        text += 'depends = [\n' + ',\n'.join(
            f'{{kind="{it["kind"]}", slot="{it["slot"]}", at={it["at"]}, codes={listed(code.decode() for code in it["codes"])}, '
            f'target="{it["target"]}", element={it["element"]}}}' for it in guide['depends']) + ']\n'
    return text


def guide_text(guide):
    convention = f'convention = "{guide["convention"]}"\n' if guide['convention'] else ''
    return (f'name = "BENCH"\ngroup = "PO"\nset = "850"\nversion = "005010"\n{convention}dictionary = {listed(guide["dictionary"])}\n'
            f'tolerate_segment = {listed(guide["tolerate_segment"])}\ntolerate_element = {listed(guide["tolerate_element"])}\n'
            f'{rules_text(guide)}nodes = [\n'
            + ',\n'.join(node_text(node) for node in guide['nodes']) + '\n]\n')


def segment_for(draw, slot):
    parts = [slot['seg'].encode()]
    for k, row in enumerate(slot['rows'], 1):
        picked = [codes for position, codes in slot['pick'] if position == k]
        parts.append(draw.choice(picked[0]) if picked and draw.random() < .9 else random_element(draw))
    return b'*'.join(parts)


def likely_body(draw, nodes, made=segment_for):
    body = []
    for node in nodes:
        least, most = node['min'], min(node['max'], node['min'] + 2)
        for _ in range(draw.randint(least, most)):
            body += likely_body(draw, node['nodes'], made) if is_loop(node) else [made(draw, node)]
    return body


def random_body(draw, guide):
    body = likely_body(draw, guide['nodes'])[:25]
    slots = list(slots_of(guide['nodes']))
    for _ in range(draw.choice([0, 0, 1, 2, 4])):
        at = draw.randint(0, len(body))
        made = draw.randint(0, 4)
        if made == 0 and body:
            del body[min(at, len(body) - 1)]
        elif made == 1 and body:
            body.insert(at, draw.choice(body))
        elif made == 2:
            body.insert(at, segment_for(draw, draw.choice(slots)))
        elif made == 3:
            body.insert(at, draw.choice([b'XX*1', b'YYY', b'QQ*1', b'BB*C', b'AAA*B', b'TA1*1']))
        else:
            draw.shuffle(body)
    return body


def random_set(draw, guide, body_of=random_body):
    body = body_of(draw, guide)
    control = draw.choice([b'0001', b'0001', b'0001', b'12', b'ABC123'])
    convention = draw.choice([b'', b'', b'*CONV', b'*OTHER'])
    header = b'ST*850*' + control + convention
    trailer = None
    if draw.random() < .9:
        count = draw.choice([len(body) + 2] * 6 + [len(body) + 1, 0])
        trailer = b'SE*' + draw.choice([b'%d', b'%d', b'%04d']) % count + b'*' + draw.choice([control, control, control, b'0002'])
    return header, body, trailer


# guides with a hierarchy or dependencies, and sets for them

def simple(draw, kind, least, most, used=(), unused=()):
    return {'kind': 'simple', 'ref': random_reference(draw), 'needed': draw.random() < .4, 'repeat': draw.choice([1, 1, 1, 1, 2]),
            'wide': False, 'type': kind, 'min': least, 'max': most, 'used': list(used), 'unused': list(unused)}


def hierarchy_slot(draw, least, most, count):
    """A slot HL with so many rows: of its four elements mostly likely ones, sometimes rows of another kind."""
    some = draw.sample(LEVELS, 4)
    likely = [simple(draw, draw.choice(['AN', 'AN', 'N0']), 1, draw.choice([1, 3, 12])), simple(draw, 'AN', 1, 12),
              draw.choice([simple(draw, 'ID', 1, 2), simple(draw, 'ID', 1, 2, some[:3], some[3:]), simple(draw, 'ID', 1, 1)]),
              draw.choice([simple(draw, 'ID', 1, 1), simple(draw, 'ID', 1, 1, [b'0', b'1']), simple(draw, 'AN', 1, 5)]), random_row(draw)]
    rows = [row if draw.random() < .9 else random_row(draw) for row in likely[:count]]
    pick = [(3, draw.sample(LEVELS, draw.randint(1, 3)))] if count >= 3 and draw.random() < .3 else []
    return {'seg': 'HL', 'min': least, 'max': most, 'pick': pick, 'rows': rows,
            'conditions': random_conditions(draw, len(rows)) if draw.random() < .15 else []}


def with_hierarchy(draw, guide):
    slots = list(slots_of(guide['nodes']))
    chosen = draw.sample(slots, min(len(slots), draw.choice([1, 1, 2, 2, 3])))
    for n, slot in enumerate(chosen):
        bounds = (1, 1) if (slot['min'], slot['max']) == (1, 1) else draw.choice([(0, 9), (1, 9), (0, 3), (slot['min'], slot['max'])])
        slot.update(hierarchy_slot(draw, *bounds, draw.choice([4, 4, 4, 5] if n == 0 else [0, 1, 3, 4, 4])))
    pairs = {(draw.choice([None, *LEVELS]), draw.choice(LEVELS)) for _ in range(draw.randint(3, 14))}
    guide['hl'] = {'pairs': pairs | {(None, draw.choice(LEVELS))}, 'sequential': draw.random() < .5}


def codes_for(draw, slot, at):
    """The codes of a dependency at an element: its row's or its picks', others, and such as hold or are separators."""
    known = [code for k, codes in slot['pick'] if k == at for code in codes]
    known += slot['rows'][at - 1].get('used', []) + slot['rows'][at - 1].get('unused', [])
    known += {('HL', 3): LEVELS, ('HL', 1): [b'1', b'2', b'3'], ('HL', 2): [b'1', b'2'], ('HL', 4): [b'0', b'1']}.get((slot['seg'], at), [])
    others = [b'A', b'B', b'AB', b'0', b'12', b'20260228', b'A>', b'>', b'A^B', b'A>B', b'0^']
    return [draw.choice(known if known and draw.random() < .7 else others) for _ in range(draw.randint(1, 3))]


def with_dependencies(draw, guide):
    slots = list(slots_of(guide['nodes']))
    triggers = [slot for slot in slots if slot['rows']]
    chosen = draw.sample(triggers, min(len(triggers), 3))
    guide['depends'] = []
    for _ in range(draw.choice([1, 1, 2, 3, 5])):
        slot, optional = draw.choice(chosen), [slot for slot in slots if slot['min'] == 0]
        target = slot if draw.random() < .1 else draw.choice(optional if optional and draw.random() < .5 else slots)
        for one in (slot, target):
            one['label'] = f'L{one["number"]}'
        at = draw.randint(1, len(slot['rows']))
        guide['depends'].append({
            'kind': draw.choice(['need', 'ban']), 'slot': slot['label'], 'at': at, 'codes': codes_for(draw, slot, at),
            'target': target['label'], 'element': 0 if draw.random() < .5 else draw.randint(0, len(target['rows']))})


def ruled_guide(draw):
    guide = random_guide(draw)
    guide['nodes'] += random_nodes(draw, 1, False)
    is_lenient = draw.random() < .6
    # most ids differ, so that fewer guides are ambiguous
    for number, slot in enumerate(list(slots_of(guide['nodes']))):
        slot['seg'] = f'S{number:02}' if draw.random() < .7 else slot['seg']
        if is_lenient:
            slot['rows'] = [row if draw.random() < .1 else simple(draw, 'AN', 1, 12) for row in slot['rows']]
            slot['conditions'] = []
    numbered(guide['nodes'])
    guide.update(tolerance(draw))
    made = draw.choice(['hl', 'depends', 'both', 'both'])
    if made != 'depends':
        with_hierarchy(draw, guide)
    if made != 'hl':
        with_dependencies(draw, guide)
    return guide


def good_value(draw, row):
    """A value that meets its row."""
    if row['used']:
        return draw.choice(row['used'])
    if row['type'] == 'DT':
        return b'20260228'
    if row['type'] == 'TM':
        return draw.choice([b'0900', b'2359'])
    return b'1' * draw.randint(row['min'], row['max'])


def good_element(draw, row):
    if row['kind'] == 'unused' or not row['needed'] and draw.random() < .3:
        return b''
    if row['kind'] == 'simple':
        return good_value(draw, row)
    return b'>'.join(b'' if part['kind'] == 'unused' else good_value(draw, part) for part in row['components'])


def good_segment(draw, slot):
    parts = [slot['seg'].encode()] + [good_element(draw, row) for row in slot['rows']]
    for k, codes in slot['pick']:
        parts[k] = draw.choice(codes)
    return b'*'.join(parts)


def replaced(segment, k, value):
    parts = segment.split(b'*')
    parts += [b''] * (k + 1 - len(parts))
    parts[k] = value
    return b'*'.join(parts).rstrip(b'*')


def triggered(draw, guide, body, share):
    """The body with the codes of dependencies put into some segments that have the id of their slot."""
    slots = {slot['label']: slot for slot in slots_of(guide['nodes']) if slot.get('label')}
    body = list(body)
    for it in guide['depends']:
        name = slots[it['slot']]['seg'].encode()
        for at, segment in enumerate(body):
            if segment.split(b'*')[0] == name and draw.random() < share:
                body[at] = replaced(segment, it['at'], draw.choice(it['codes']))
    return body


def planted(draw, guide, body):
    """The body with its HL segments made a tree: numbers counted, parents at the wanted levels, HL04 as it is."""
    pairs = sorted(guide['hl']['pairs'], key=str)
    body, made = list(body), []
    for at, segment in enumerate(body):
        if segment.split(b'*')[0] == b'HL':
            level = element(segment, 3)
            above = [(own, over) for own, over, _ in made if (over, level) in pairs]
            if (None, level) in pairs and (not above or draw.random() < .3):
                above = [(b'', None)]
            elif not above:
                above = [(b'', None)] if not made else [draw.choice(made)[:2]]
                fitting = [below for over, below in pairs if over == above[0][1]]
                level = draw.choice(fitting) if fitting else level
            number = b'%d' % (len(made) + 1) if guide['hl']['sequential'] or draw.random() < .7 else b'N%d' % (len(made) * 7 % 50)
            made.append((number, level, at))
            for k, value in ((3, level), (2, draw.choice(above)[0]), (1, number)):
                body[at] = replaced(body[at], k, value)
    named = {element(body[at], 2) for _, _, at in made}
    for own, _, at in made:
        if element(body[at], 4) or draw.random() < .5:
            body[at] = replaced(body[at], 4, b'1' if own in named else b'0')
    return body


def uprooted(draw, body, share):
    """The body with single elements of its HL segments made odd: repeated, unknown, later, empty, with separators."""
    body = list(body)
    odd = {1: [b'', b'>', b'1', b'01', b'1>', b'2^', b'X', b'7', b'1234567890123'],
           2: [b'', b'^', b'>', b'1', b'2', b'9', b'X', b'1>', b'01'],
           3: [b'', b'>', b'S', b'O', b'T', b'S>', b'O^', b'S>O', b'ZZ'], 4: [b'', b'0', b'1', b'1>', b'0^', b'2', b'01', b'>']}
    for at, segment in enumerate(body):
        while segment.split(b'*')[0] == b'HL' and draw.random() < share:
            k = draw.randint(1, 4)
            other = draw.choice([it for it in body if it.split(b'*')[0] == b'HL'])
            value = element(other, draw.choice([1, k])) if draw.random() < .4 else draw.choice(odd[k])
            segment = body[at] = replaced(segment, k, value)
    return body


def ruled_body(draw, guide):
    is_good = draw.random() < .5
    body = likely_body(draw, guide['nodes'], good_segment)[:25] if is_good else random_body(draw, guide)
    body = triggered(draw, guide, body, draw.choice([0, .2, .5]))
    for _ in range(0 if is_good else draw.choice([0, 0, 1, 2])):
        slots = [slot for slot in slots_of(guide['nodes']) if slot['seg'] == 'HL'] or list(slots_of(guide['nodes']))
        body.insert(draw.randint(0, len(body)), good_segment(draw, draw.choice(slots)))
    if guide['hl']:
        body = planted(draw, guide, body) if draw.random() < .8 else body
        body = uprooted(draw, body, draw.choice([0, 0, .1, .4]))
        if draw.random() < .1:
            body.insert(draw.randint(0, len(body)), draw.choice([b'HL', b'HL*1', b'HL*1**S*0', b'HL*2*1*O']))
    return body


SMALL = [
    [{'seg': 'AB', 'min': 1, 'max': 1}, {'loop': 'L', 'min': 0, 'max': 2, 'nodes': [{'seg': 'BC', 'min': 1, 'max': 1},
                                                                                    {'seg': 'CD', 'min': 0, 'max': 1}]}],
    [{'loop': 'L', 'min': 1, 'max': 1, 'nodes': [{'seg': 'AB', 'min': 1, 'max': 1}, {'loop': 'M', 'min': 2, 'max': 3, 'nodes': [
        {'seg': 'BC', 'min': 1, 'max': 1}]}, {'seg': 'CD', 'min': 1, 'max': 1}]}],
    [{'seg': 'AB', 'min': 0, 'max': 0}, {'seg': 'BC', 'min': 2, 'max': 2}, {'loop': 'L', 'min': 0, 'max': 0, 'nodes': [
        {'seg': 'CD', 'min': 1, 'max': 1}]}],
]


def filled(nodes):
    for node in nodes:
        if is_loop(node):
            filled(node['nodes'])
        else:
            node.update({'pick': [], 'rows': [], 'conditions': []})
    return nodes


def small_cases():
    for nodes in SMALL:
        guide = {'nodes': filled(nodes), 'dictionary': ['DE'], 'convention': '', 'hl': None, 'depends': [],
                 'tolerate_segment': ['3', '5', '1'], 'tolerate_element': []}
        numbered(guide['nodes'])
        bodies = [list(body) for length in range(6) for body in itertools.product([b'AB', b'BC', b'CD', b'DE', b'EF'], repeat=length)]
        yield guide, [(b'ST*850*0001', body, b'SE*%d*0001' % (len(body) + 2)) for body in bodies]


def random_cases(count):
    draw, other = random.Random(5010), random.Random(999)
    for _ in range(count // EACH):
        guide = random_guide(draw)
        guide.update(tolerance(other))
        yield guide, [random_set(draw, guide) for _ in range(EACH)]
        if draw.random() < .05:
            yield None, [random_set(draw, guide) for _ in range(EACH)]


def ruled_cases(count):
    """Sets under guides with a hierarchy, dependencies or both; fewer under each, so that there are many guides."""
    draw = random.Random(856)
    for _ in range(count // RULED_EACH):
        guide = ruled_guide(draw)
        yield guide, [random_set(draw, guide, ruled_body) for _ in range(RULED_EACH)]
