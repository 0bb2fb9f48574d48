"""What is wrong with a transaction set by its guide, worked out from the rules as they are worded: its faults, codes and verdict.

Places come from the list of all that may follow; structural faults from counts over the whole placing; hierarchies and dependencies
from tables over the whole set. Nothing here is a copy of the program or of its definitions."""
import itertools

from elements import IK403, element_faults, empty

IK304 = ['1', '2', '3', '4', '5', '6', '7', '8', 'I4', 'I6', 'I7', 'I8', 'I9']


def is_loop(node):
    return 'nodes' in node


def first_slot(node):
    return node['nodes'][0] if is_loop(node) else node


def numbered(nodes, count=0):
    for node in nodes:
        count += 1
        node['number'] = count
        if is_loop(node):
            count = numbered(node['nodes'], count)
    return count


def slots_of(nodes):
    for node in nodes:
        if is_loop(node):
            yield from slots_of(node['nodes'])
        else:
            yield node


def element(segment, k):
    parts = segment.split(b'*')
    return parts[k] if k < len(parts) else b''


def fits(slot, segment):
    return segment.split(b'*')[0] == slot['seg'].encode() and all(element(segment, k) in codes for k, codes in slot['pick'])


# a place is a tuple of (child, use); the places that may follow one, as the rule words it

def begun(nodes, place):
    """A place completed by first ones, and the slot that it leads to."""
    node = node_at(nodes, place)
    return (place + ((0, 0),), node['nodes'][0]) if is_loop(node) else (place, node)


def node_at(nodes, place):
    node = None
    for child, _ in place:
        node = nodes[child]
        nodes = node.get('nodes', [])
    return node


def nodes_in(nodes, place):
    return nodes if not place else node_at(nodes, place)['nodes']


def following(nodes, last):
    if last is None:
        return [begun(nodes, ((k, 0),)) for k in range(len(nodes))]
    found = []
    for depth in range(len(last)):
        common, (child, use) = last[:depth], last[depth]
        for k in range(child + 1, len(nodes_in(nodes, common))):
            found.append(begun(nodes, common + ((k, 0),)))
        if depth == 0 or child > 0:
            found.append(begun(nodes, common + ((child, use + 1),)))
    return found


def places_in(nodes, before=()):
    """Each place of a slot, with first repetitions alone."""
    for child, node in enumerate(nodes):
        place = before + ((child, 0),)
        yield from places_in(node['nodes'], place) if is_loop(node) else [place]


def is_ambiguous(nodes):
    """Whether from some place, or the beginning, two places may follow whose slots one segment can fit both."""
    def can_share(one, other):
        picks = dict(one['pick'])
        return one['seg'] == other['seg'] and all(set(codes) & set(picks.get(k, codes)) for k, codes in other['pick'])
    return any(can_share(one, other) for last in (None, *places_in(nodes))
               for (_, one), (_, other) in itertools.combinations(following(nodes, last), 2))


def placing(nodes, body):
    last, given = None, []
    for segment in body:
        fitting = [(place, slot) for place, slot in following(nodes, last) if fits(slot, segment)]
        assert len(fitting) <= 1, (fitting, segment)
        given.append(fitting[0] if fitting else None)
        if fitting:
            last = fitting[0][0]
    return given


# structural faults, by counts over the whole placing

def parents(nodes, places):
    """Each repetition of a loop that there is, and the guide itself, with the id of the loop and its nodes."""
    found = {(): ('', nodes)}
    for place in places:
        for depth in range(1, len(place)):
            loop = node_at(nodes, place[:depth])
            found[place[:depth]] = (loop['loop'], loop['nodes'])
    return found


def structural_faults(nodes, dictionary, body, given):
    places = [None if it is None else it[0] for it in given]
    end = len(body) + 2
    found = set()

    def tell(position, code, name, loop_id, node):
        found.add((position, code, name, loop_id, node['number'] if node else 0))

    for parent, (outer, inner) in parents(nodes, [p for p in places if p]).items():
        for child, node in enumerate(inner):
            name, inside = first_slot(node)['seg'], node['loop'] if is_loop(node) else outer
            begins = {}
            for at, place in enumerate(places):
                if place and place[:len(parent)] == parent and len(place) > len(parent) and place[len(parent)][0] == child:
                    begins.setdefault(place[len(parent)][1], at)
            for count, use in enumerate(sorted(begins)):
                if count >= node['max']:
                    code = 'I4' if node['max'] == 0 else '4' if is_loop(node) else '5'
                    tell(begins[use] + 2, code, name, inside, node)
            if len(begins) < node['min']:
                code = '3' if not begins else 'I7' if is_loop(node) else 'I8'
                behind = [at for at, place in enumerate(places) if place and place > parent + ((child, float('inf')),)]
                tell(behind[0] + 2 if behind else end, code, name, inside, node)
    for at, segment in enumerate(body):
        if places[at] is None:
            name = segment.split(b'*')[0].decode('latin-1')
            known = [slot for slot in slots_of(nodes) if slot['seg'] == name]
            if known:
                code = '7' if any(fits(slot, segment) for slot in known) else '2'
            else:
                code = '6' if name in dictionary else '1'
            tell(at + 2, code, name, '', None)
    return [(*it, None) for it in found]


# hierarchies and dependencies, by tables over the placed segments of the whole set

def reference(slot, k):
    return slot['rows'][k - 1]['ref'] if k <= len(slot['rows']) else b''


def hierarchy_faults(hl, values):
    """Of HL segments, each as its elements from HL01 on: which of them has a fault, at which element, and its code."""
    first, named_last = {}, {}
    for n, (own, parent, _, _) in enumerate(values):
        first.setdefault(own, n)
        if not empty(parent):
            named_last[parent] = n
    for n, (own, parent, level, children) in enumerate(values):
        if not empty(own) and (first[own] < n or hl['sequential'] and own != b'%d' % (n + 1)):
            yield n, 1, 'I12'
        above, is_root = first.get(parent, n), empty(parent)
        if not is_root and above >= n:
            yield n, 2, 'I12'
        elif (None if is_root else values[above][2], level) not in hl['pairs']:
            yield n, 3, 'I6'
        if children == (b'0' if named_last.get(own, -1) > n else b'1'):
            yield n, 4, 'I12'


def dependency_faults(guide, uses, end):
    """Position, IK304, slot and element of each: the element is None where the whole slot is asked for or banned."""
    labelled = {slot['label']: slot for slot in slots_of(guide['nodes']) if slot.get('label')}
    used = {}
    for position, slot, segment in uses:
        used.setdefault(slot['number'], []).append((position, segment))
    for asked in guide['depends']:
        slot, target, k = labelled[asked['slot']], labelled[asked['target']], asked['element']
        if not any(element(segment, asked['at']) in asked['codes'] for _, segment in used.get(slot['number'], [])):
            continue
        found, is_need = used.get(target['number'], []), asked['kind'] == 'need'
        if k == 0:
            yield from [(end, 'I6', target, None)] if is_need and not found else []
            yield from [] if is_need else [(position, 'I9', target, None) for position, _ in found]
            continue
        for position, segment in found:
            value = element(segment, k)
            if is_need and empty(value):
                yield position, '8', target, (k, 0, 0, 'I9', reference(target, k), b'')
            if not is_need and not empty(value):
                yield position, '8', target, (k, 0, 0, 'I13', reference(target, k), value)


def rule_faults(guide, uses, end):
    if guide['hl']:
        trees = [use for use in uses if use[1]['seg'] == 'HL']
        for n, k, code in hierarchy_faults(guide['hl'], [[element(segment, k) for k in (1, 2, 3, 4)] for _, _, segment in trees]):
            position, slot, segment = trees[n]
            yield position, '8', slot, (k, 0, 0, code, reference(slot, k), element(segment, k))
    yield from dependency_faults(guide, uses, end)


def loops_of(nodes, loop_id=''):
    """The loop in which each slot stands, by its number."""
    found = {}
    for node in nodes:
        found.update(loops_of(node['nodes'], node['loop']) if is_loop(node) else {node['number']: loop_id})
    return found


def key_of(fault):
    told = fault[5]
    return (fault[0], IK304.index(fault[1]), fault[4]) + ((told[0], told[1], told[2], IK403.index(told[3])) if told else (0,) * 4)


def faults_of(guide, body):
    nodes, loops = guide['nodes'], loops_of(guide['nodes'])
    given = placing(nodes, body)
    uses = [(at + 2, it[1], body[at]) for at, it in enumerate(given) if it is not None]
    found = structural_faults(nodes, guide['dictionary'], body, given)
    for position, slot, segment in uses:
        for told in element_faults(slot['rows'], slot['conditions'], segment):
            found.append((position, '8', slot['seg'], loops[slot['number']], slot['number'], told))
    kept = {key_of(fault): fault for fault in found}
    assert len(kept) == len(found), found
    for position, code, slot, told in rule_faults(guide, uses, len(body) + 2):
        fault = (position, code, slot['seg'], loops[slot['number']], slot['number'], told)
        kept.setdefault(key_of(fault), fault)
    return [kept[key] for key in sorted(kept)]


def is_count(text, count):
    return 1 <= len(text) <= 10 and text.isdigit() and int(text) == count


def codes_of(guide, faults, header, body, trailer, earlier):
    telling = [fault[5][3] if fault[5] else fault[1] for fault in faults]
    codes = []
    if any(not code.startswith('I') for code in telling):
        codes.append('5')
    if any(code.startswith('I') for code in telling):
        codes.append('I5')
    if guide is None:
        codes.append('1')
    if trailer is None:
        codes.append('2')
    else:
        if element(trailer, 2) != element(header, 2):
            codes.append('3')
        if not is_count(element(trailer, 1), len(body) + 2):
            codes.append('4')
    if len(element(header, 2)) < 4:
        codes.append('7')
    if earlier:
        codes.append('23')
    given = element(header, 3)
    if guide and guide['convention'] and not empty(given) and given != guide['convention'].encode():
        codes.append('I6')
    return codes[:5]


def verdict_of(guide, faults, codes):
    if not faults and not codes:
        return 'A'
    tolerated = all(told[3] in guide['tolerate_element'] if told else code in guide['tolerate_segment']
                    for _, code, _, _, _, told in faults)
    return 'E' if tolerated and set(codes) <= {'5', 'I5'} else 'R'
