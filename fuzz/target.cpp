// The fuzz target: the input's bytes choose an index, sound or not, and a short sequence of calls on it; after each call
// what document 01 says of every input is checked, and of an index that nothing damaged that it agrees with a plain column.
#include <algorithm>

#include "output.hpp"
#include "plain.hpp"
#include "shapes.hpp"
#include "subject.hpp"
#include "tally.hpp"

static void room_for(Input &input) {
    const upbit_header shape = any_shape(input);
    const upbit_room room = upbit_room_for(shape.rows, shape.values, shape.threshold, shape.spacing);
    Tally::of_run().add(Call::room_for, room.number);
    require(room.number <= UPBIT_BAD_HEADER, "room_for refuses by BAD_HEADER alone");
    const bool refused = room.number != UPBIT_OK;
    require(room.words == (refused ? 0 : UPBIT_WORDS(shape.rows, shape.values, shape.threshold)), "words of a shape");
    require(room.fences == (refused ? 0 : UPBIT_FENCES(shape.rows, shape.values, shape.spacing)), "fences of a shape");
}

// A length most often of some rows, seldom of all or too many.
static uint32_t any_rows(Input &input) {
    return input.chance(97) ? input.below(250) : std::min(input.near(UPBIT_MAX_ROWS + 1), longest);
}

static void pack(Input &input) {
    const auto bytes = any_bytes(input, any_rows(input), 2, false);
    Lent<uint8_t> rows(bytes.size(), any_side(input));
    std::copy(bytes.begin(), bytes.end(), rows.data());
    const bool known = std::all_of(bytes.begin(), bytes.end(), [](uint8_t byte) { return byte <= 1; });
    const auto expected = known ? packed(bytes) : std::vector<uint32_t>();
    Output<uint32_t> out(input, any_length(input, expected.size()));
    const upbit_answer answer = upbit_pack(rows.data(), rows.size(), out.data(), out.size());
    rows.require_same(bytes, 0, "rows to pack are not written");
    const uint32_t number = !known                           ? UPBIT_BAD_VALUE
                            : bytes.size() > UPBIT_MAX_ROWS  ? UPBIT_FULL
                            : out.size() < expected.size()   ? UPBIT_OUT_SMALL
                                                             : UPBIT_OK;
    require(answer.number == number, "pack gives the number that is known");
    Tally::of_run().add(Call::pack, answer.number);
    out.require_answer(answer, &expected);
}

// A canonical list, or one that was changed or is any words.
static std::vector<uint32_t> any_list(Input &input, uint32_t length) {
    auto list = packed(any_bytes(input, length, 2, false));
    if (input.chance(40))
        return list;
    if (!list.empty() && input.chance(60))
        list[input.below(static_cast<uint32_t>(list.size()))] = any_word(input);
    else
        list.push_back(any_word(input));
    return list;
}

static void unpack(Input &input) {
    const uint32_t covered = any_rows(input);
    const auto words = any_list(input, covered);
    const size_t length = input.chance(85) ? covered : input.near(covered + 1);
    Lent<uint32_t> list(words.size(), any_side(input));
    std::copy(words.begin(), words.end(), list.data());
    Output<uint8_t> out(input, any_length(input, std::min<size_t>(length, longest)));
    const upbit_answer answer = upbit_unpack(list.data(), list.size(), out.data(), out.size(), length);
    list.require_same(words, 0, "a list to unpack is not written");
    out.require_answer(answer, nullptr);
    const uint32_t first = length > UPBIT_MAX_ROWS ? UPBIT_FULL : out.size() < length ? UPBIT_OUT_SMALL : UPBIT_OK;
    require(first != UPBIT_OK ? answer.number == first : answer.number == UPBIT_OK || answer.number == UPBIT_BAD_LIST,
            "unpack gives the lowest number that applies");
    Tally::of_run().add(Call::unpack, answer.number);
    if (answer.number != UPBIT_OK)
        return;
    require(answer.count == length, "unpack writes a byte for each row");
    const auto rows = out.result(answer);
    require(std::all_of(rows.begin(), rows.end(), [](uint8_t byte) { return byte <= 1; }), "unpack writes 0 and 1");
    require(packed(rows) == words, "unpack accepts the canonical list of what it writes and no other");
}

static void any_call(Input &input, Subject &subject) {
    using Step = void (Subject::*)();
    static const Step steps[] = {&Subject::load,   &Subject::insert, &Subject::insert, &Subject::update, &Subject::update,
                                 &Subject::update, &Subject::remove, &Subject::merge,  &Subject::value,  &Subject::value,
                                 &Subject::query,  &Subject::query,  &Subject::dump,   &Subject::audit,  &Subject::damage};
    constexpr uint32_t count = sizeof steps / sizeof steps[0];
    static void (*const others[])(Input &) = {room_for, pack, unpack};
    const uint32_t chosen = input.below(count + 3);
    if (chosen < count)
        (subject.*steps[chosen])();
    else
        others[chosen - count](input);
}

extern "C" int LLVMFuzzerTestOneInput(const uint8_t *data, size_t size) {
    Input input(data, size);
    Subject subject(input);
    if (input.chance(85))
        subject.load();
    const uint32_t calls = 1 + input.below(12);
    for (uint32_t call = 0; call < calls; call++)
        any_call(input, subject);
    return 0;
}
