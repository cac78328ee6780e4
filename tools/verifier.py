"""The rules of docs/VERIFIER.md, read a second time: what is known at each slot of a well-formed text, and its refusal.

A kind is a tuple: ('scalar', low, high, d), ('context', k), ('stack', k), ('value', map, low, high, d), ('maybe', map,
call) or ('name', map); of an unset register it is None. Eight bytes of the stack are ('kept', kind), or a number whose
bits are those that are written. A description is a tuple of eleven kinds and a tuple of 64 such."""
from instructions import CALL, JA, JUMPS, STX, computed, kind_of, wide_number

FULL = 2**64
FAR = 65536
OUTSIDE = {'context': 16, 'stack': 17, 'value': 19}
OPPOSITE = {'==': '!=', '!=': '==', '>': '<=', '>=': '<', '<': '>=', '<=': '>'}


class Broken(Exception):
    """A rule that a slot breaks."""

    def __init__(self, *rules):
        self.rule = min(rules)


def dividing(number):
    return next(d for d in (8, 4, 2, 1) if number % d == 0)


def normal(low, high, d):
    """The range from low to high of which d divides each number; None where that is empty."""
    low, high = -(-low // d) * d, high // d * d
    if low > high:
        return None
    return low, high, dividing(low) if low == high else d


def scalar(low, high, d):
    ends = normal(low, high, d)
    return ends and ('scalar', *ends)


def const(number):
    return scalar(number, number, 1)


def is_const(kind):
    return kind[1] == kind[2]


def is_pointer(kind):
    return kind is not None and kind[0] != 'scalar'


def join(a, b):
    """The least kind above both."""
    if a == b:
        return a
    if a and b and a[0] == b[0] and a[0] in ('scalar', 'value') and a[:-3] == b[:-3]:
        return (*a[:-3], min(a[-3], b[-3]), max(a[-2], b[-2]), min(a[-1], b[-1]))
    return None


def bytes_of(eight):
    """The bytes of a stack slot that may be read one by one."""
    if isinstance(eight, int):
        return eight
    return 0 if is_pointer(eight[1]) else 255


def join_eight(a, b):
    if not isinstance(a, int) and not isinstance(b, int):
        kind = join(a[1], b[1])
        return ('kept', kind) if kind else 0
    return bytes_of(a) & bytes_of(b)


def join_all(known, coming):
    if known is None:
        return coming
    return tuple(map(join, known[0], coming[0])), tuple(map(join_eight, known[1], coming[1]))


START = ((None, ('context', 0), *[None] * 8, ('stack', 0)), (0,) * 64)


def moved(name, pointer, number):
    """A pointer that a number is added to, or subtracted from."""
    if name == 'sub' and not is_const(number) or pointer[0] in ('context', 'stack') and not is_const(number):
        raise Broken(15)
    low, high = number[1:3]
    if is_const(number) and low >= FULL // 2:
        low = high = low - FULL
    if name == 'sub':
        low, high = -low, -high
    if pointer[0] != 'value':
        ends = (pointer[1] + low,)
    else:
        ends = normal(pointer[2] + low, pointer[3] + high, min(pointer[4], number[3]))
    if any(abs(end) > FAR for end in ends[:2]):
        raise Broken(OUTSIDE[pointer[0]])
    return (*pointer[:1], *ends) if pointer[0] != 'value' else (*pointer[:2], *ends)


def ranged(insn, a, b):
    """The range of arithmetic on two ranges, of which one is no constant; of one operand `b` is None."""
    name, width, _ = kind_of(insn.opcode)
    top = 1 << width
    full = lambda d: (0, top - 1, d)
    if name == 'end':
        return 0, (1 << insn.imm) - 1, 1
    if name in ('neg', 'arsh') or name in ('div', 'mod', 'mov') and insn.offset:
        return full(1)
    if name == 'mov':
        return b[1:]
    (low, high, d), (low2, high2, d2) = a[1:], b[1:]
    least = min(d, d2)
    ones = (1 << max(high, high2).bit_length()) - 1
    if name == 'add':
        return (low + low2, high + high2, least) if high + high2 < top else full(least)
    if name == 'sub':
        return (low - high2, high - low2, least) if low >= high2 else full(least)
    if name == 'mul':
        return (low * low2, high * high2, min(8, d * d2)) if high * high2 < top else full(min(8, d * d2))
    if name == 'div':
        return (low // high2, high // low2, 1) if low2 >= 1 else (0, high, 1)
    if name == 'mod':
        return (0, min(high, high2 - 1), 1) if low2 >= 1 else (0, high, 1)
    if name == 'and':
        return 0, min(high, high2), max(d, d2)
    if name == 'or':
        return max(low, low2), ones, least
    if name == 'xor':
        return 0, ones, least
    count = low2 % width if is_const(b) else None
    if name == 'lsh':
        if count is None:
            return full(d)
        shifted = min(8, d << count)
        return (low << count, high << count, shifted) if high << count < top else full(shifted)
    return (0, high, 1) if count is None else (low >> count, high >> count, 1)


def arithmetic(insn, a, b):
    """What arithmetic makes of what dst and the operand hold."""
    name, width, is_register = kind_of(insn.opcode)
    if name == 'mov' and width == 64 and is_register and not insn.offset:
        return b
    operands = ([a] if name != 'mov' else []) + ([b] if name not in ('neg', 'end') else [])
    if any(kind[0] == 'maybe' for kind in operands):
        raise Broken(21)
    if any(map(is_pointer, operands)):
        if name in ('add', 'sub') and width == 64 and a[0] in OUTSIDE and b[0] == 'scalar':
            return moved(name, a, b)
        raise Broken(15)
    top = 1 << width
    cut = lambda kind: scalar(0, top - 1, kind[3]) if kind and kind[2] >= top else kind
    a, b = cut(a) if a and a[0] == 'scalar' else a, cut(b)
    if all(map(is_const, ([a] if name != 'mov' else []) + ([b] if name not in ('neg', 'end') else []))):
        return const(computed(insn, a[1] if name != 'mov' else 0, b[1] if b else 0))
    return scalar(*ranged(insn, a, b))


def refined(sign, a, b):
    """What a range is where a comparison holds; None where that is none."""
    (low, high, d), (low2, high2, d2) = a[1:], b[1:]
    if sign == '==':
        return scalar(max(low, low2), min(high, high2), max(d, d2))
    if sign == '!=':
        if is_const(b):
            low, high = low + (low == low2), high - (high == low2)
        return scalar(low, high, d)
    if sign in ('>', '>='):
        return scalar(max(low, low2 + (sign == '>')), high, d)
    return scalar(low, min(high, high2 - (sign == '<')), d)


class Text:
    """A well-formed text, the sizes of its maps' values by number (None where there is none), and its context's."""

    def __init__(self, program, slots, shapes, context_size):
        self.program, self.slots, self.shapes, self.context_size = program, slots, shapes, context_size

    def value_size(self, number):
        there = 0 <= number < len(self.shapes) and self.shapes[number]
        return there[0] if there else None

    def reads(self, slot, regs):
        """The registers that an instruction reads."""
        insn = self.program[slot]
        name, _, is_register = kind_of(insn.opcode)
        if name == 'call':
            return {1: (1, 2), 2: (1, 2, 3, 4), 3: (1, 2)}.get(insn.imm, ())
        if name in ('wide', 'ja'):
            return ()
        if name == 'exit':
            return (0,)
        if name in ('load', 'load signed'):
            return (insn.src,)
        return (*(() if name == 'mov' else (insn.dst,)), *((insn.src,) if is_register and name not in ('neg', 'end') else ()))

    def targets(self, slot):
        """The rules that targets break, and the slots to which the instruction leads."""
        insn = self.program[slot]
        name = kind_of(insn.opcode)[0]
        rules, goals = [], {}
        if name in ('ja', 'jump'):
            goal = slot + 1 + (insn.imm if name == 'ja' and insn.opcode != JA else insn.offset)
            rules += [11] if goal <= slot else [12] if goal not in self.program else []
            goals['taken'] = goal
        if name not in ('ja', 'exit'):
            goals['next'] = slot + (2 if name == 'wide' else 1)
            rules += [13] if goals['next'] >= self.slots else []
        return rules, goals

    def flow(self, slot, known):
        """What flows from a slot, by the slot to which it flows; or `Broken`."""
        insn = self.program[slot]
        rules, goals = self.targets(slot)
        if any(known[0][register] is None for register in self.reads(slot, known[0])):
            rules.append(14)
        name = kind_of(insn.opcode)[0]
        if name not in ('jump', 'ja', 'store', 'call', 'exit') and insn.dst == 10:
            rules.append(22)
        try:
            onward = self.effect(slot, insn, name, known)
        except Broken as broken:
            rules.append(broken.rule)
        if rules:
            raise Broken(*rules)
        return [(goals[way], description) for way, description in onward.items() if description]

    def effect(self, slot, insn, name, known):
        """What an instruction makes of a description, by way."""
        regs, stack = known
        put = lambda number, kind: ((*regs[:number], kind, *regs[number + 1:]), stack)
        if any(regs[register] is None for register in self.reads(slot, regs)) and name not in ('load', 'load signed', 'store', 'call'):
            raise Broken(14)
        if name == 'wide':
            return {'next': put(insn.dst, self.wide(insn))}
        if name == 'ja':
            return {'taken': known}
        if name == 'jump':
            return self.jump(insn, known)
        if name == 'exit':
            if is_pointer(regs[0]):
                raise Broken(25)
            return {}
        if name == 'call':
            return {'next': self.call(slot, insn, known)}
        if name in ('load', 'load signed'):
            return {'next': put(insn.dst, self.load(insn, name, known))}
        if name == 'store':
            return {'next': (regs, self.store(insn, known))}
        width, is_register = kind_of(insn.opcode)[1:]
        operand = regs[insn.src] if is_register and name != 'end' else const(insn.imm % (1 << width))
        return {'next': put(insn.dst, arithmetic(insn, regs[insn.dst], operand))}

    def wide(self, insn):
        if insn.src == 0:
            return const(wide_number(insn))
        size = self.value_size(insn.imm)
        if size is None:
            raise Broken(24)
        if insn.src == 1:
            return ('name', insn.imm)
        offset = insn.next_imm % 2**32
        if offset >= size:
            raise Broken(19)
        return ('value', insn.imm, *normal(offset, offset, 1))

    def jump(self, insn, known):
        regs, stack = known
        _, width, is_register = kind_of(insn.opcode)
        sign, a = JUMPS[insn.opcode >> 4], regs[insn.dst]
        b = regs[insn.src] if is_register else const(insn.imm % (1 << width))
        if a[0] == 'maybe' and width == 64 and sign in ('==', '!=') and not is_register and insn.imm == 0:
            there, none = self.checked(known, a, ('value', a[1], 0, 0, 8)), self.checked(known, a, ('scalar', 0, 0, 8))
            return {'taken': none, 'next': there} if sign == '==' else {'taken': there, 'next': none}
        if 'maybe' in (a[0], b[0]):
            raise Broken(21)
        if is_pointer(a) or is_pointer(b):
            raise Broken(15)
        if sign not in OPPOSITE or width == 32 and max(a[2], b[2]) >= 2**32:
            return {'taken': known, 'next': known}
        onward = {}
        for way, holding in (('taken', sign), ('next', OPPOSITE[sign])):
            kind = refined(holding, a, b)
            onward[way] = kind and ((*regs[:insn.dst], kind, *regs[insn.dst + 1:]), stack)
        return onward

    def checked(self, known, maybe, kind):
        """A description in which what a lookup answered is this."""
        regs, stack = known
        same = lambda it: kind if it and it[0] == 'maybe' and it[2] == maybe[2] else it
        return tuple(map(same, regs)), tuple(it if isinstance(it, int) else ('kept', same(it[1])) for it in stack)

    def within(self, base, offset, size):
        """The rule that an access breaks by its range."""
        if base[0] == 'context':
            is_within = 0 <= base[1] + offset and base[1] + offset + size <= self.context_size
        elif base[0] == 'stack':
            is_within = -512 <= base[1] + offset and base[1] + offset + size <= 0
        else:
            is_within = 0 <= base[2] + offset and base[3] + offset + size <= self.value_size(base[1])
        return [] if is_within else [OUTSIDE[base[0]]]

    def reached(self, base, offset, size):
        """The rules that an access through a base breaks by its range and alignment."""
        if base is None:
            raise Broken(14)
        if base[0] not in OUTSIDE:
            raise Broken(21 if base[0] == 'maybe' else 15)
        if base[0] == 'value' and base[2] != base[3]:
            is_aligned = base[4] % size == 0 and offset % size == 0
        else:
            is_aligned = (base[1 if base[0] != 'value' else 2] + offset) % size == 0
        return self.within(base, offset, size) + ([] if is_aligned else [20])

    def load(self, insn, name, known):
        size, base = kind_of(insn.opcode)[1], known[0][insn.src]
        rules = self.reached(base, insn.offset, size)
        if rules:
            raise Broken(*rules)
        number = scalar(0, FULL - 1, 1) if name == 'load signed' else scalar(0, (1 << 8 * size) - 1, 1)
        if base[0] != 'stack':
            return number
        at = 512 + base[1] + insn.offset
        eight, mask = known[1][at // 8], ((1 << size) - 1) << at % 8
        if not isinstance(eight, int):
            if size == 8:
                return eight[1]
            if is_pointer(eight[1]):
                raise Broken(25)
        if bytes_of(eight) & mask != mask:
            raise Broken(18)
        return number

    def store(self, insn, known):
        size, base = kind_of(insn.opcode)[1], known[0][insn.dst]
        value = known[0][insn.src] if insn.opcode & 7 == STX else const(insn.imm % FULL)
        if base is None or value is None:
            raise Broken(14)
        rules = [15] if base[0] == 'context' else self.reached(base, insn.offset, size)
        if base[0] == 'value' and is_pointer(value):
            rules.append(25)
        if rules:
            raise Broken(*rules)
        if base[0] != 'stack':
            return known[1]
        at, stack = 512 + base[1] + insn.offset, known[1]
        if size == 8:
            eight = ('kept', value)
        elif is_pointer(value):
            raise Broken(25)
        else:
            eight = bytes_of(stack[at // 8]) | ((1 << size) - 1) << at % 8
        return (*stack[:at // 8], eight, *stack[at // 8 + 1:])

    def call(self, slot, insn, known):
        regs, stack = known
        if insn.imm not in (1, 2, 3):
            raise Broken(23)
        rules = []
        wrong = lambda kind: 14 if kind is None else 21 if kind[0] == 'maybe' else 15
        is_named = regs[1] is not None and regs[1][0] == 'name'
        if not is_named:
            rules.append(wrong(regs[1]))
        for register, size in [(2, 4)] + ([(3, self.value_size(regs[1][1]) if is_named else None)] if insn.imm == 2 else []):
            if regs[register] is None or regs[register][0] not in ('context', 'stack'):
                rules.append(wrong(regs[register]))
            elif size is not None:
                rules += self.read_by_helper(regs[register], size, 4 if register == 2 else 1, stack)
        if insn.imm == 2 and (regs[4] is None or regs[4][0] != 'scalar'):
            rules.append(wrong(regs[4]))
        if rules:
            raise Broken(*rules)
        answer = ('maybe', regs[1][1], slot) if insn.imm == 1 else scalar(0, FULL - 1, 1)
        return (answer, *[None] * 5, *regs[6:]), stack

    def read_by_helper(self, base, size, align, stack):
        """The rules that the bytes break which a helper reads."""
        rules = self.within(base, 0, size)
        if not rules and base[0] == 'stack':
            for at in range(512 + base[1], 512 + base[1] + size):
                eight = stack[at // 8]
                if not isinstance(eight, int) and is_pointer(eight[1]):
                    rules.append(25)
                elif not bytes_of(eight) >> at % 8 & 1:
                    rules.append(18)
        return rules + ([20] if base[1] % align else [])

    def table(self):
        """What is known at each slot that is reached, up to the first that breaks a rule, and that refusal."""
        known = {0: START}
        for slot in self.program:
            if slot not in known:
                continue
            try:
                onward = self.flow(slot, known[slot])
            except Broken as broken:
                return known, (broken.rule, slot)
            for goal, description in onward:
                known[goal] = join_all(known.get(goal), description)
        return known, None

    def further(self):
        """Each slot that breaks a rule, where nothing flows on from one that does."""
        known, rules = {0: START}, []
        for slot in self.program:
            try:
                onward = self.flow(slot, known[slot]) if slot in known else []
            except Broken as broken:
                rules.append((broken.rule, slot))
                continue
            for goal, description in onward:
                known[goal] = join_all(known.get(goal), description)
        return rules

    def costs(self, known):
        """By slot what a store or an update may take, and which map it writes."""
        found = {}
        for slot, insn in self.program.items():
            if slot in known:
                regs, name = known[slot][0], kind_of(insn.opcode)[0]
                if name == 'store' and regs[insn.dst][0] == 'value':
                    found[slot] = 1, regs[insn.dst][1]
                elif insn.opcode == CALL and insn.imm == 2:
                    number = regs[1][1]
                    found[slot] = (1 if 4096 % stride(self.shapes[number][0]) == 0 else 2), number
        return found


def stride(value_size):
    return -(-value_size // 8) * 8


def pages(shape):
    return -(-stride(shape[0]) * shape[1] // 4096)


def is_shape(shape):
    return 1 <= shape[0] <= 4096 and 1 <= shape[1] <= 65536 and pages(shape) <= 256


def is_context_size(size):
    return size <= 256 and size % 8 == 0
