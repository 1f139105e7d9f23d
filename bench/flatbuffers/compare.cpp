// The same Blank as a Blink message of 80 bytes and as a FlatBuffer, checked and read from C and C++.
//
//     compare TABLE SCHEMA
//
// TABLE is samples/blank.table, SCHEMA what `flatc -b --schema` makes of blank.fbs. Every question of the proved library
// checks its table and its message anew, and so do the sides here: FlatBuffers' verifier runs in each call. It tests that
// offsets and lengths lie in the buffer and that strings end; not UTF-8, not symbols, not that bytes are used once.
#include "blank_generated.h"
#include "blink_native.h"
#include "timing.h"

#include <flatbuffers/reflection.h>

#include <string>

namespace {

constexpr std::uint64_t kBarcode = 0;

// What is read goes here, so that the compiler cannot leave a reading out.
volatile std::uint64_t sink;

void compare(const char *name, const std::function<void()> &proved, const std::function<void()> &other) {
    auto [ours, theirs, ratio] = timed(proved, other);
    std::printf("%-46s %10.3f %11.3f %7.2f\n", name, ours * 1e6, theirs * 1e6, ratio);
}

const std::string kCode = "QZ-2026-11-0417";
const std::string kNote = "small chip at a side";

Bytes blink_message() {
    Bytes message;
    auto word = [&](std::uint32_t n) {
        for (int i = 0; i < 4; i++) {
            message.push_back(static_cast<std::uint8_t>(n >> (8 * i)));
        }
    };
    auto text = [&](const std::string &s) {
        word(static_cast<std::uint32_t>(s.size()));
        message.insert(message.end(), s.begin(), s.end());
    };
    word(76);                    // size
    word(1), word(0);            // type id
    word(0);                     // no extension
    word(21);                    // the barcode's offset
    word(2650), word(5728);      // density, sound speed
    word(2);                     // grade
    message.push_back(1);        // a note follows
    word(4 + 4 + 15);            // its offset
    text(kCode), text(kNote);
    return message;
}

flatbuffers::FlatBufferBuilder flat_message() {
    flatbuffers::FlatBufferBuilder builder;
    auto code = builder.CreateString(kCode);
    auto note = builder.CreateString(kNote);
    builder.Finish(CreateBlank(builder, code, 2650, 5728, Grade_C, note));
    return builder;
}

}  // namespace

int main(int count, char **names) {
    if (count != 3) {
        fail("usage: compare TABLE SCHEMA");
    }
    const Bytes table = load(names[1]), description = load(names[2]);
    const Bytes message = blink_message();
    const flatbuffers::FlatBufferBuilder flat = flat_message();
    const std::uint8_t *buffer = flat.GetBufferPointer();
    const std::size_t size = flat.GetSize();
    Bytes scratch(message.size()), room(11 * message.size());

    // THE PROVED LIBRARY

    auto check = [&] {
        auto verdict = blink_check_message(table.data(), table.size(), nullptr, 0, 0, message.data(), message.size(), scratch.data(), scratch.size());
        if (verdict.number != 0) {
            fail("the message is refused");
        }
    };
    auto barcode = [&] {
        auto part = blink_read_bytes(table.data(), table.size(), nullptr, 0, 0, message.data(), message.size(), scratch.data(), scratch.size(), kBarcode, 0);
        if (part.number != 0) {
            fail("the barcode is refused");
        }
        sink = message[part.offset] + part.length;
    };
    auto sheet = [&] {
        auto written = blink_message_to_sheet(table.data(), table.size(), nullptr, 0, 0, message.data(), message.size(), scratch.data(),
                                              scratch.size(), room.data(), room.size());
        if (written.number != 0) {
            fail("the sheet is refused");
        }
        sink = room[0] + written.length;
    };

    // FLATBUFFERS, GENERATED CODE

    auto verify = [&] {
        flatbuffers::Verifier verifier(buffer, size);
        if (!VerifyBlankBuffer(verifier)) {
            fail("FlatBuffers refuses its message");
        }
    };
    auto verify_barcode = [&] {
        verify();
        auto code = GetBlank(buffer)->barcode();
        sink = static_cast<std::uint8_t>(code->Get(0)) + code->size();
    };
    auto verify_all = [&] {
        verify();
        auto blank = GetBlank(buffer);
        auto note = blank->note();
        sink = blank->barcode()->size() + blank->density() + blank->sound_speed() + static_cast<unsigned>(blank->grade()) +
               (note != nullptr ? note->size() : 0);
    };

    // FLATBUFFERS, THE SCHEMA AS DATA

    const reflection::Schema *schema = reflection::GetSchema(description.data());
    auto verify_schema = [&] {
        flatbuffers::Verifier verifier(description.data(), description.size());
        if (!reflection::VerifySchemaBuffer(verifier)) {
            fail("FlatBuffers refuses its schema");
        }
    };
    auto reflect = [&] {
        verify_schema();
        if (!flatbuffers::Verify(*schema, *schema->root_table(), buffer, size)) {
            fail("FlatBuffers refuses its message");
        }
    };
    auto field = [&](const char *name) -> const reflection::Field & { return *schema->root_table()->fields()->LookupByKey(name); };
    auto reflect_barcode = [&] {
        reflect();
        auto code = flatbuffers::GetFieldS(*flatbuffers::GetAnyRoot(buffer), field("barcode"));
        sink = static_cast<std::uint8_t>(code->Get(0)) + code->size();
    };
    auto reflect_all = [&] {
        reflect();
        auto &blank = *flatbuffers::GetAnyRoot(buffer);
        auto note = flatbuffers::GetFieldS(blank, field("note"));
        sink = flatbuffers::GetFieldS(blank, field("barcode"))->size() +
               flatbuffers::GetFieldI<std::uint32_t>(blank, field("density")) +
               flatbuffers::GetFieldI<std::uint32_t>(blank, field("sound_speed")) +
               static_cast<unsigned>(flatbuffers::GetFieldI<std::int32_t>(blank, field("grade"))) +
               (note != nullptr ? note->size() : 0);
    };

    std::printf("Blank: %zu bytes here, %zu as a FlatBuffer\n", message.size(), size);
    heading("microseconds a call, median");
    compare("check: generated code", check, verify);
    compare("check: the schema as data", check, reflect);
    compare("check, read the barcode: generated code", barcode, verify_barcode);
    compare("check, read the barcode: the schema as data", barcode, reflect_barcode);
    compare("check, read all five: generated code", sheet, verify_all);
    compare("check, read all five: the schema as data", sheet, reflect_all);
}
