// A tape of blanks as Blink messages and the same blanks as FlatBuffers, each with its size before it, end to end: all are
// checked, and the good ones counted.
//
//     tape TABLE SCHEMA TAPE
//
// TABLE is samples/blank.table, SCHEMA what `flatc -b --schema` makes of blank.fbs, TAPE what bench/src/bin/tape.rs leaves
// in a file. Where that has a bad message, a FlatBuffer stands whose barcode runs past its end, which the verifier finds. Of
// what the messages here are refused for it finds offsets and lengths, but not UTF-8, symbols and flags.
#include "blank_generated.h"
#include "blink_native.h"
#include "timing.h"

#include <flatbuffers/reflection.h>

#include <string>

extern "C" std::size_t tape_count_accepted(const std::uint8_t *table, std::size_t table_length, const std::uint8_t *store,
                                           std::size_t store_length, std::uint16_t customer, const std::uint8_t *tape,
                                           std::size_t tape_length, std::uint8_t *scratch, std::size_t scratch_length);

namespace {

struct Count {
    std::size_t accepted, all;
};

// The barcode's length passes the end.
Bytes damaged(Bytes flat) {
    auto *barcode = flatbuffers::GetSizePrefixedRoot<Blank>(flat.data())->barcode();
    flatbuffers::WriteScalar<flatbuffers::uoffset_t>(const_cast<flatbuffers::String *>(barcode), BLINK_LONGEST_MESSAGE);
    return flat;
}

// A table, and messages end to end that are read under it.
struct Messages {
    const Bytes &table, &tape;
    Bytes scratch = Bytes(BLINK_LONGEST_MESSAGE);

    BlinkStep step(std::uint64_t at) {
        return blink_next_message(table.data(), table.size(), nullptr, 0, 0, tape.data(), tape.size(), at, scratch.data(), scratch.size());
    }

    Count steps() {
        Count count{};
        for (auto next = step(0); !next.ended; next = step(next.next)) {
            count.accepted += next.number == 0;
            count.all++;
        }
        return count;
    }

    std::size_t loop() {
        return tape_count_accepted(table.data(), table.size(), nullptr, 0, 0, tape.data(), tape.size(), scratch.data(), scratch.size());
    }

    std::uint64_t number(const std::uint8_t *message, std::size_t length, std::uint64_t field) {
        auto value = blink_read_number(table.data(), table.size(), nullptr, 0, 0, message, length, scratch.data(), scratch.size(), field, 0);
        if (value.number != 0) {
            fail("a number is refused");
        }
        return value.bits;
    }

    BlinkPart text(const std::uint8_t *message, std::size_t length, std::uint64_t field) {
        return blink_read_bytes(table.data(), table.size(), nullptr, 0, 0, message, length, scratch.data(), scratch.size(), field, 0);
    }

    // An accepted message's blank.
    Bytes flat(const std::uint8_t *message, std::size_t length) {
        flatbuffers::FlatBufferBuilder builder;
        auto create = [&](const BlinkPart &part) { return builder.CreateString(reinterpret_cast<const char *>(message) + part.offset, part.length); };
        auto barcode = create(text(message, length, 0));
        auto part = text(message, length, 4);
        auto note = part.number == BLINK_FAULT_FIELD_ABSENT ? flatbuffers::Offset<flatbuffers::String>() : create(part);
        auto word = [&](std::uint64_t field) { return static_cast<std::uint32_t>(number(message, length, field)); };
        builder.FinishSizePrefixed(CreateBlank(builder, barcode, word(1), word(2), static_cast<Grade>(word(3)), note));
        return Bytes(builder.GetBufferPointer(), builder.GetBufferPointer() + builder.GetSize());
    }

    // The tape's blanks as FlatBuffers; a bad one is the blank before it, damaged.
    Bytes flats() {
        Bytes flats, last;
        for (auto next = step(0); !next.ended; next = step(next.next)) {
            if (next.number == 0) {
                last = flat(tape.data() + next.offset, next.length);
            }
            auto one = next.number == 0 ? last : damaged(last);
            flats.insert(flats.end(), one.begin(), one.end());
        }
        return flats;
    }
};

// FlatBuffers end to end: those that `verify` accepts, by a buffer with its size before it and its whole length.
template <typename Verify>
Count flat_steps(const Bytes &tape, Verify verify) {
    constexpr std::size_t kPrefix = sizeof(flatbuffers::uoffset_t);
    Count count{};
    for (std::size_t at = 0; tape.size() - at >= kPrefix; count.all++) {
        std::size_t size = flatbuffers::GetPrefixedSize(tape.data() + at);
        if (tape.size() - at - kPrefix < size) {
            break;
        }
        count.accepted += verify(tape.data() + at, kPrefix + size);
        at += kPrefix + size;
    }
    return count;
}

}  // namespace

int main(int count, char **names) {
    if (count != 4) {
        fail("usage: tape TABLE SCHEMA TAPE");
    }
    const Bytes table = load(names[1]), description = load(names[2]), tape = load(names[3]);
    Messages messages{table, tape};
    const Bytes flats = messages.flats();
    const reflection::Schema *schema = reflection::GetSchema(description.data());

    auto verify_schema = [&] {
        flatbuffers::Verifier verifier(description.data(), description.size());
        if (!reflection::VerifySchemaBuffer(verifier)) {
            fail("FlatBuffers refuses its schema");
        }
    };
    auto reflect = [&](const std::uint8_t *buffer, std::size_t size) {
        return flatbuffers::VerifySizePrefixed(*schema, *schema->root_table(), buffer, size);
    };
    auto generated = [&] {
        return flat_steps(flats, [](const std::uint8_t *buffer, std::size_t size) {
            flatbuffers::Verifier verifier(buffer, size);
            return VerifySizePrefixedBlankBuffer(verifier);
        });
    };
    auto schema_each = [&] {
        return flat_steps(flats, [&](const std::uint8_t *buffer, std::size_t size) {
            verify_schema();
            return reflect(buffer, size);
        });
    };
    auto schema_once = [&] {
        verify_schema();
        return flat_steps(flats, reflect);
    };

    const Count due = messages.steps();
    auto expect = [&](Count counted) {
        if (counted.accepted != due.accepted || counted.all != due.all) {
            fail("not as many messages");
        }
    };
    auto steps = [&] { expect(messages.steps()); };
    auto loop = [&] { expect({messages.loop(), due.all}); };
    auto compare = [&](const char *name, const std::function<void()> &proved, const std::function<Count()> &other) {
        auto [ours, theirs, ratio] = timed(proved, [&] { expect(other()); });
        double millions = static_cast<double>(due.all) / 1e6;
        std::printf("%-46s %10.2f %11.2f %7.2f\n", name, millions / ours, millions / theirs, ratio);
    };

    std::printf("%zu blanks, %zu accepted: %zu bytes here, %zu as FlatBuffers\n", due.all, due.accepted, tape.size(), flats.size());
    heading("million messages a second, median");
    compare("step by step: generated code", steps, generated);
    compare("step by step: the schema as data, each time", steps, schema_each);
    compare("a loop that has the index: generated code", loop, generated);
    compare("a loop that has the index: the schema, once", loop, schema_once);
}
