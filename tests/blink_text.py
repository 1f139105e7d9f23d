"""What `blink show` and `blink read` say of the values of blink_bytes, worked out with Python's own dates and floats."""
import datetime
import struct

from blink_bytes import (BINARY, BOOL, DATE, DECIMAL, DYNAMIC, ENUMERATION, F64, FIXED, I8, I16, I32, I64, MILLI_OF_DAY, MILLITIME,
                         NANO_OF_DAY, NANOTIME, OBJECT, STATIC, STRING, U8, U16, U32, U64, text_bytes)

NAMES = {U8: 'u8', I8: 'i8', U16: 'u16', I16: 'i16', U32: 'u32', I32: 'i32', U64: 'u64', I64: 'i64', F64: 'f64', DECIMAL: 'decimal',
         BOOL: 'bool', DATE: 'date', MILLITIME: 'millitime', NANOTIME: 'nanotime', MILLI_OF_DAY: 'timeOfDayMilli',
         NANO_OF_DAY: 'timeOfDayNano', STRING: 'string', BINARY: 'binary', FIXED: 'fixed', ENUMERATION: 'enumeration',
         STATIC: 'static group', DYNAMIC: 'dynamic group', OBJECT: 'object'}

# TEXT

# Characters that are not seen, that turn the text around, or that are none: they are shown by their numbers.
HIDDEN = [(0x0, 0x1f), (0x7f, 0x9f), (0xad, 0xad), (0x61c, 0x61c), (0x180e, 0x180e), (0x200b, 0x200f), (0x2028, 0x202e),
          (0x2060, 0x206f), (0xd800, 0xdfff), (0xfeff, 0xfeff), (0xfff9, 0xfffb), (0xe0000, 0xe007f)]
HIDDEN_CODES = frozenset(code for first, last in HIDDEN for code in range(first, last + 1))


def character(c):
    if ord(c) in HIDDEN_CODES:
        return '\\u{%x}' % ord(c)
    return '\\' + c if c in '"\\' else c


def bare(text):
    return ''.join(map(character, text))


def quoted(text):
    return '"%s"' % bare(text)


def file_name(name):
    """A file's name, which is bytes, in an answer's line."""
    return ''.join('\\x{%02x}' % (ord(c) - 0xdc00) if 0xdc80 <= ord(c) <= 0xdcff else character(c)
                   for c in name.decode('utf-8', 'surrogateescape'))


# DATES AND TIMES

CYCLE = 146097  # the days of 400 years
EPOCH = (datetime.date(2000, 1, 1) - datetime.date(1970, 1, 1)).days


def day(days):
    """A day by its number, counted from 2000-01-01. Python has the years 1 to 9999: the others are worked out from 2000 to 2399."""
    cycles, rest = divmod(days, CYCLE)
    at = datetime.date(2000, 1, 1) + datetime.timedelta(rest)
    year = at.year + 400 * cycles
    sign = '-' if year < 0 else '+' if year > 9999 else ''
    return '%s%04d-%02d-%02d' % (sign, abs(year), at.month, at.day)


def clock(count, digits):
    """A time of day, counted in units of which a second has ten to `digits`."""
    seconds, fraction = divmod(count, 10 ** digits)
    return '%02d:%02d:%02d.%0*d' % (seconds // 3600, seconds // 60 % 60, seconds % 60, digits, fraction)


def moment(count, digits):
    """The same, counted from the start of 1970."""
    days, rest = divmod(count, 86400 * 10 ** digits)
    return '%sT%sZ' % (day(days - EPOCH), clock(rest, digits))


# NUMBERS

def real(bits):
    """Python's repr without the .0 of a whole number, and with a plain exponent."""
    text = repr(struct.unpack('<d', struct.pack('<Q', bits))[0])
    digits, mark, exponent = text.partition('e')
    if digits.endswith('.0'):
        digits = digits[:-2]
    return digits + (mark and 'e%d' % int(exponent))


READABLE = {F64: lambda bits: '%s (%016x)' % (real(bits), bits),
            DATE: lambda days: '%s (%d)' % (day(days), days),
            MILLITIME: lambda count: '%s (%d)' % (moment(count, 3), count),
            NANOTIME: lambda count: '%s (%d)' % (moment(count, 9), count),
            MILLI_OF_DAY: lambda count: '%s (%d)' % (clock(count, 3), count),
            NANO_OF_DAY: lambda count: '%s (%d)' % (clock(count, 9), count),
            BOOL: lambda value: 'true' if value else 'false',
            DECIMAL: lambda value: '%de%d' % value,
            STRING: lambda text: quoted(text if isinstance(text, str) else text.decode('utf-8', 'surrogatepass')),
            BINARY: lambda value: text_bytes(value).hex(),
            FIXED: lambda value: value.hex()}


def value_text(kind, value):
    """A value behind its type's name, as `read` says it."""
    return '%s %s' % (NAMES[kind], READABLE.get(kind, str)(value))


# SHOW

def item_lines(table, field, label, value, depth):
    if field.type == STATIC:
        return ['%s%s static group' % ('  ' * depth, label)] + fields_lines(
            table, table.groups[field.reference].fields, value, depth + 1)
    if field.type in (DYNAMIC, OBJECT):
        return group_lines(table, value, depth, label + ' ')
    return ['%s%s %s' % ('  ' * depth, label, value_text(field.type, value))]


def field_lines(table, field, number, value, depth):
    start = '%s%d %s ' % ('  ' * depth, number, NAMES[field.type])
    if value is None:
        return [start + 'absent']
    if not field.sequence:
        return item_lines(table, field, str(number), value, depth)
    lines = [start + 'sequence of %d' % len(value)]
    for at, item in enumerate(value):
        lines += item_lines(table, field, '%d[%d]' % (number, at), item, depth)
    return lines


def fields_lines(table, fields, values, depth):
    return [line for number, (field, value) in enumerate(zip(fields, values))
            for line in field_lines(table, field, number, value, depth)]


def group_lines(table, message, depth, label=''):
    group = table.groups[message.group]
    lines = ['%s%sgroup %d' % ('  ' * depth, label, group.type_id)]
    lines += fields_lines(table, group.fields, message.values, depth + 1)
    if message.extension:
        lines.append('%sextension of %d' % ('  ' * (depth + 1), len(message.extension)))
    for further in message.extension:
        if isinstance(further, bytes):
            lines.append('%sunknown group %s' % ('  ' * (depth + 2), further[4:].hex()))
        else:
            lines += group_lines(table, further, depth + 2)
    return lines


def show_lines(table, message):
    """All that `blink show` says of an accepted message."""
    return ['accepted'] + group_lines(table, message, 0)
