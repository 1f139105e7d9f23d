"""Tables, messages, sheets and settings stores as bytes, made from plain Python values by document 01's rules alone.

A table is a Table: its groups, and its enumerations, each a list of symbols. A message is a Dynamic: the number of its group in the
table, a value for each field, and the groups of its extension. A value is

    an int                  integers, dates and times, enumerations; of an f64 its bits
    (mantissa, exponent)    decimal
    a bool                  bool
    a str or bytes          string
    bytes                   binary, fixed; in an extension, a group of unknown type with its size word
    a list of values        static group: one for each field
    a Dynamic               dynamic group, object

A sequence is a list of these, and an absent field None. What is written is a message's one form, so that rewriting changes nothing.
"""
import struct
from typing import NamedTuple, Optional

(U8, I8, U16, I16, U32, I32, U64, I64, F64, DECIMAL, BOOL, DATE, MILLITIME, NANOTIME, MILLI_OF_DAY, NANO_OF_DAY,
 STRING, BINARY, FIXED, ENUMERATION, STATIC, DYNAMIC, OBJECT) = range(1, 24)

FORMATS = {U8: 'B', I8: 'b', U16: 'H', I16: 'h', U32: 'I', I32: 'i', U64: 'Q', I64: 'q', F64: 'Q', BOOL: '?', DATE: 'i',
           MILLITIME: 'q', NANOTIME: 'q', MILLI_OF_DAY: 'I', NANO_OF_DAY: 'Q', ENUMERATION: 'i'}


class Field(NamedTuple):
    type: int
    optional: bool = False
    sequence: bool = False
    size: int = 0
    reference: int = 0


class Group(NamedTuple):
    type_id: Optional[int]
    fields: list
    above: Optional[int] = None  # the number of its super group


class Table(NamedTuple):
    groups: list
    enumerations: list = []


class Dynamic(NamedTuple):
    group: int
    values: list
    extension: list = []


def u16(n):
    return struct.pack('<H', n)


def u32(n):
    return struct.pack('<I', n)


def u64(n):
    return struct.pack('<Q', n)


def float_bits(x):
    return struct.unpack('<Q', struct.pack('<d', x))[0]


def text_bytes(value):
    """A string's bytes. Halves of pairs are text by document 01's table of forms."""
    return value if isinstance(value, bytes) else value.encode('utf-8', 'surrogatepass')


def plain_bytes(field, value):
    """The wire bytes of a value that stands in its field and has no parts."""
    if field.type == DECIMAL:
        mantissa, exponent = value
        return struct.pack('<bq', exponent, mantissa)
    if field.type == FIXED:
        assert len(value) == field.size
        return value
    return struct.pack('<' + FORMATS[field.type], value)


# WIDTHS

def item_width(table, field):
    """Without the flag of an optional field, and not as a sequence."""
    if field.type == STATIC:
        return group_width(table, field.reference)
    if field.type in (DYNAMIC, OBJECT):
        return 4
    if field.type in (STRING, BINARY):
        return field.size + 1 if field.size else 4
    if field.type == FIXED:
        return field.size
    if field.type == DECIMAL:
        return 9
    return struct.calcsize('<' + FORMATS[field.type])


def field_width(table, field):
    return (4 if field.sequence else item_width(table, field)) + field.optional


def group_width(table, number):
    return sum(field_width(table, field) for field in table.groups[number].fields)


# TABLES

def record(mark, contents):
    return (mark + contents).ljust(16, b'\0')


def field_record(field):
    return record(b'FD', bytes([field.type, field.optional, field.sequence, field.size]) + u16(field.reference))


def group_record(table, number, widths):
    group = table.groups[number]
    contents = u64(group.type_id or 0) + bytes([group.type_id is not None])
    contents += u16(0 if group.above is None else group.above + 1) + bytes([len(group.fields)])
    if widths:
        return record(b'GW', contents + u16(group_width(table, number)))
    return record(b'GR', contents)


def table_bytes(table, widths=False):
    records = []
    for symbols in table.enumerations:
        records.append(record(b'EN', u16(len(symbols))))
        records += [record(b'SY', struct.pack('<i', symbol)) for symbol in symbols]
    for number, group in enumerate(table.groups):
        records.append(group_record(table, number, widths))
        records += [field_record(field) for field in group.fields]
    return b''.join(records)


# MESSAGES

def write_offset(room, at):
    """What the offset leads to comes straight after all that is written."""
    room[at:at + 4] = u32(len(room) - at)


def write_item(table, field, value, room, at):
    if field.type == STATIC:
        write_fields(table, table.groups[field.reference].fields, value, room, at)
    elif field.type in (DYNAMIC, OBJECT):
        write_offset(room, at)
        room += value if isinstance(value, bytes) else message_bytes(table, value)
    elif field.type in (STRING, BINARY):
        contents = text_bytes(value)
        if field.size:
            assert len(contents) <= field.size
            room[at:at + 1 + len(contents)] = bytes([len(contents)]) + contents
        else:
            write_offset(room, at)
            room += u32(len(contents)) + contents
    else:
        contents = plain_bytes(field, value)
        room[at:at + len(contents)] = contents


def write_sequence(table, field, items, room, at):
    width = item_width(table, field)
    write_offset(room, at)
    room += u32(len(items))
    first = len(room)
    room += bytes(width * len(items))
    for number, item in enumerate(items):
        write_item(table, field, item, room, first + width * number)


def write_fields(table, fields, values, room, at):
    assert len(fields) == len(values)
    for field, value in zip(fields, values):
        start = at
        at += field_width(table, field)
        if field.optional:
            if value is None:
                continue
            room[start] = 1
            start += 1
        if field.sequence:
            write_sequence(table, field, value, room, start)
        else:
            write_item(table, field, value, room, start)


def message_bytes(table, message):
    group = table.groups[message.group]
    room = bytearray(16 + group_width(table, message.group))
    write_fields(table, group.fields, message.values, room, 16)
    if message.extension:
        write_sequence(table, Field(OBJECT, sequence=True), message.extension, room, 12)
    room[0:4] = u32(len(room) - 4)
    room[4:12] = u64(group.type_id)
    return bytes(room)


# SHEETS

def item_sheet(table, field, value):
    if field.type == STATIC:
        return b'SG' + fields_sheet(table, table.groups[field.reference].fields, value)
    if field.type in (DYNAMIC, OBJECT):
        return sheet_bytes(table, value)
    if field.type in (STRING, BINARY):
        contents = text_bytes(value)
        return b'ST' + u32(len(contents)) + contents
    return b'VA' + plain_bytes(field, value)


def field_sheet(table, field, value):
    if value is None:
        return b'NO'
    if field.sequence:
        return b'SQ' + u32(len(value)) + b''.join(item_sheet(table, field, item) for item in value)
    return item_sheet(table, field, value)


def fields_sheet(table, fields, values):
    return b''.join(field_sheet(table, field, value) for field, value in zip(fields, values))


def extension_sheet(table, groups):
    if not groups:
        return b''
    return b'XT' + u32(len(groups)) + b''.join(
        b'XU' + group if isinstance(group, bytes) else sheet_bytes(table, group) for group in groups)


def sheet_bytes(table, message):
    group = table.groups[message.group]
    return (b'GB' + u64(group.type_id) + fields_sheet(table, group.fields, message.values)
            + extension_sheet(table, message.extension) + b'GE')


# SETTINGS

def store_bytes(records, free=0):
    """Records of customer, version and the faults to ignore, and room for some more."""
    return b''.join(b'CS' + u16(customer) + u16(version) + bytes(fault in ignored for fault in (4, 6, 8))
                    for customer, version, ignored in records) + bytes(9 * free)
