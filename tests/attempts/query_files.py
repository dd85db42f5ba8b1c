"""Query files that no compiler writes, made field by field: the largest programs, patterns and pools."""
LARGEST = 16 << 20
MOST_INSTRUCTIONS = MOST_ENTRIES = LONGEST_TEXT = 65_535
MOST_POSTINGS, DIGITS, VALUE_DIGITS = 4_000_000, 20, 28
TRUE, NOT, IS_NULL = b"\x00", b"\x26", b"\x27"
FIRST = 4
SLOTS = 64
# How deep the stack of `waiting_states` is: it is cleared into a slot, an instruction for each value.
DEEP = 250


def word(number):
    return number.to_bytes(2, "big")


def text(value):
    return word(len(value)) + value


def store(slot):
    return b"\x05" + bytes([slot])


def jump_if_false(place):
    return b"\x31" + word(place)


def constant(index):
    return b"\x02" + word(index)


def load_column(column):
    return b"\x03" + bytes([column])


def load_aggregate(index):
    return b"\x07" + bytes([index])


def match(index):
    return b"\x40" + word(index)


def text_entry(value):
    return b"\x01" + text(value)


def pattern_entry(value):
    return b"\x04" + text(value)


def section(instructions):
    return word(len(instructions)) + b"".join(instructions)


def query_file(filtering, row, last, pool=(), aggregates=(FIRST,)):
    """A program that groups without keys and shows one column, of the first input that a group has."""
    return b"".join([
        b"BQLC", word(2), MOST_POSTINGS.to_bytes(4, "big"), bytes([DIGITS, VALUE_DIGITS]), b"\x01", bytes(3),
        b"\x01", text(b"x"), bytes(3), bytes([len(aggregates), *aggregates]),
        word(len(pool)), *pool, section(filtering), section(row), section(last)])


def with_filter(filtering, pool=()):
    return query_file(filtering, [TRUE], [load_aggregate(0)], pool)


def full_sections():
    """Three sections of 65,535 instructions each."""
    logic = [NOT] * (MOST_INSTRUCTIONS - 1)
    return query_file([TRUE, *logic], [TRUE, *logic], [load_aggregate(0), *logic])


def waiting_states():
    """A filter with as many jumps as may be, each to a place of its own, over a deep stack and all slots."""
    filled = [instruction for slot in range(SLOTS) for instruction in (TRUE, store(slot))]
    ahead, behind = [TRUE] * DEEP + filled, [store(0)] * (DEEP - 1)
    jumps = (MOST_INSTRUCTIONS - len(ahead) - len(behind)) // 3
    landing = len(ahead) + 2 * jumps
    leaps = [instruction for jump in range(jumps) for instruction in (TRUE, jump_if_false(landing + jump))]
    return ahead + leaps + [NOT] * jumps + behind


def pool_of(entry, most=MOST_ENTRIES):
    """As many entries as a file of 16 MiB, or a pool, has room for, of one each."""
    return [entry] * min(most, (LARGEST - 1_000) // len(entry))
