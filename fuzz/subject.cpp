#include "subject.hpp"

#include <algorithm>

#include "output.hpp"
#include "shapes.hpp"

static bool same(const upbit_header &left, const upbit_header &right) {
    return left.rows == right.rows && left.issued == right.issued && left.values == right.values &&
           left.threshold == right.threshold && left.spacing == right.spacing;
}

static bool within(uint32_t number, uint32_t most) {
    return number >= 1 && number <= most;
}

static upbit_room room_of(const upbit_header &header) {
    return upbit_room_for(header.rows, header.values, header.threshold, header.spacing);
}

Subject::Subject(Input &input)
    : input(input), shape(any_shape(input)), words(any_length(input, room_of(shape).words), any_side(input)),
      fences(any_length(input, room_of(shape).fences), any_side(input)) {
    std::generate_n(words.data(), words.size(), [&] { return any_word(input); });
    std::generate_n(fences.data(), fences.size(), [&] { return upbit_fence{input.near(9), input.near(9)}; });
    header = any_header(input, shape);
}

Subject::Before Subject::before() const {
    return {words.copy(), fences.copy()};
}

// BAD_HEADER or SMALL where one of them applies to a header, by the header's text and not by the library.
uint32_t Subject::too_small_or_bad(upbit_header given) const {
    if (!within(given.rows, UPBIT_MAX_ROWS) || given.issued > given.rows || !within(given.values, UPBIT_MAX_VALUES) ||
        !within(given.threshold, UPBIT_MAX_THRESHOLD) || !within(given.spacing, UPBIT_MAX_SPACING))
        return UPBIT_BAD_HEADER;
    const bool enough = words.size() >= UPBIT_WORDS(given.rows, given.values, given.threshold) &&
                        fences.size() >= UPBIT_FENCES(given.rows, given.values, given.spacing);
    return enough ? UPBIT_OK : UPBIT_SMALL;
}

void Subject::require_number(Call call, uint32_t number, const Answers &answers) const {
    require(number <= UPBIT_BAD_LIST, "each number is one of the table");
    Tally::of_run().add(call, number);
    const uint32_t first = call == Call::load ? too_small_or_bad(shape) : too_small_or_bad(header);
    if (first != UPBIT_OK) {
        require(number == first, "BAD_HEADER and SMALL come first, exactly when they apply");
        return;
    }
    const auto &possible = answers.possible;
    require(std::find(possible.begin(), possible.end(), number) != possible.end(), "a call gives only its own numbers");
    require(!answers.known || *answers.known == number, "the number is the one that the plain column gives");
}

void Subject::require_unchanged(const Before &before) const {
    words.require_same(before.words, 0, "a refusal, or a call that changes nothing, changes no word");
    fences.require_same(before.fences, 0, "a refusal, or a call that changes nothing, changes no fence");
}

// Checks what a change left and answered, keeps the header if it was accepted, and says whether it was.
bool Subject::changed(Call call, const Before &before, const upbit_changed &changed, const upbit_header &accepted,
                      size_t count, const Answers &answers) {
    require_number(call, changed.answer.number, answers);
    if (changed.answer.number != UPBIT_OK) {
        const upbit_header given = call == Call::load ? upbit_header{0, 0, 0, 0, 0} : header;
        require_unchanged(before);
        require(same(changed.header, given), "a refusal gives back the header it got, for load zeros");
        require(changed.answer.count == 0, "a refusal's count is 0");
        return false;
    }
    const upbit_room room = room_of(accepted);
    words.require_same(before.words, room.words, "words beyond the index's are not written");
    fences.require_same(before.fences, room.fences, "fences beyond the index's are not written");
    require(same(changed.header, accepted), "an accepted change gives the header that follows");
    require(changed.answer.count == count, "an accepted change gives its count");
    header = changed.header;
    return true;
}

// After a change of an index that was never damaged.
void Subject::require_plain() {
    const auto audited = upbit_audit(words.data(), words.size(), fences.data(), fences.size(), header);
    require(audited.number == UPBIT_OK, "an index that nothing damaged is sound");
    require_dump(plain->bytes.size(), {{UPBIT_OK}, UPBIT_OK});
}

void Subject::load() {
    const uint32_t length = std::min(input.near(std::min(shape.rows, longest) + 1), longest);
    const uint32_t values = std::min(std::max(shape.values, 1u), UPBIT_MAX_VALUES);
    const auto bytes = any_bytes(input, length, values, true);
    Lent<uint8_t> column(bytes.size(), any_side(input));
    std::copy(bytes.begin(), bytes.end(), column.data());
    const bool known =
        std::all_of(bytes.begin(), bytes.end(), [&](uint8_t byte) { return byte < values || byte == UPBIT_DELETED; });
    const uint32_t number = !known ? UPBIT_BAD_VALUE : bytes.size() > shape.rows ? UPBIT_FULL : UPBIT_OK;
    const Before before = this->before();
    upbit_header accepted = shape;
    accepted.issued = length;
    const auto answer = upbit_load(words.data(), words.size(), fences.data(), fences.size(), column.data(), column.size(),
                                   shape.rows, shape.values, shape.threshold, shape.spacing);
    column.require_same(bytes, 0, "a column is not written");
    if (!changed(Call::load, before, answer, accepted, 0, {{UPBIT_OK, UPBIT_BAD_VALUE, UPBIT_FULL}, number}))
        return;
    plain = PlainColumn{bytes, shape.rows, shape.values};
    require_plain();
}

void Subject::insert() {
    const uint32_t value = input.near(header.values);
    Answers answers = {{UPBIT_OK, UPBIT_BAD_VALUE, UPBIT_FULL, UPBIT_DAMAGED}, {}};
    if (plain)
        answers.known = plain->refuses_insert(value);
    const Before before = this->before();
    upbit_header accepted = header;
    accepted.issued++;
    const auto answer = upbit_insert(words.data(), words.size(), fences.data(), fences.size(), header, value);
    if (changed(Call::insert, before, answer, accepted, header.issued, answers) && plain) {
        plain->bytes.push_back(static_cast<uint8_t>(value));
        require_plain();
    }
}

void Subject::update() {
    const uint32_t row = input.near(header.issued);
    const uint32_t value = input.near(header.values);
    Answers answers = {{UPBIT_OK, UPBIT_BAD_VALUE, UPBIT_NO_ROW, UPBIT_DAMAGED, UPBIT_GONE}, {}};
    if (plain)
        answers.known = plain->refuses_update(row, value);
    const Before before = this->before();
    const auto answer = upbit_update(words.data(), words.size(), fences.data(), fences.size(), header, row, value);
    if (changed(Call::update, before, answer, header, 0, answers) && plain) {
        plain->bytes[row] = static_cast<uint8_t>(value);
        require_plain();
    }
}

void Subject::remove() {
    const uint32_t row = input.near(header.issued);
    Answers answers = {{UPBIT_OK, UPBIT_NO_ROW, UPBIT_DAMAGED, UPBIT_GONE}, {}};
    if (plain)
        answers.known = plain->refuses_delete(row);
    const Before before = this->before();
    const auto answer = upbit_delete(words.data(), words.size(), fences.data(), fences.size(), header, row);
    if (changed(Call::remove, before, answer, header, 0, answers) && plain) {
        plain->bytes[row] = UPBIT_DELETED;
        require_plain();
    }
}

void Subject::merge() {
    const uint32_t value = input.near(header.values);
    Answers answers = {{UPBIT_OK, UPBIT_BAD_VALUE, UPBIT_DAMAGED}, {}};
    if (plain)
        answers.known = plain->refuses_value(value);
    const Before before = this->before();
    const auto answer = upbit_merge(words.data(), words.size(), fences.data(), fences.size(), header, value);
    if (changed(Call::merge, before, answer, header, 0, answers) && plain)
        require_plain();
}

void Subject::value() {
    const uint32_t row = input.near(header.issued);
    Answers answers = {{UPBIT_OK, UPBIT_NO_ROW, UPBIT_DAMAGED}, {}};
    if (plain)
        answers.known = plain->refuses_row(row);
    const Before before = this->before();
    const auto found = upbit_value(words.data(), words.size(), fences.data(), fences.size(), header, row);
    require_unchanged(before);
    require_number(Call::value, found.number, answers);
    if (found.number != UPBIT_OK) {
        require(found.live == 0 && found.value == 0 && found.opened == 0, "a refused row is all zeros");
        return;
    }
    const size_t most = size_t{header.values} * (header.spacing + 2 * size_t{header.threshold} + 1);
    require(found.opened <= most, "at most d x (G + 2T + 1) words are opened");
    require(found.opened >= 2 * size_t{header.values}, "each list of each value is opened");
    require(found.live ? found.live == 1 && found.value < header.values : found.value == UPBIT_DELETED,
            "a row is live with a value below d, or deleted");
    require(!plain || plain->bytes[row] == found.value, "a row has the plain column's byte");
}

void Subject::query() {
    const uint32_t value = input.near(header.values);
    Answers answers = {{UPBIT_OK, UPBIT_BAD_VALUE, UPBIT_DAMAGED, UPBIT_OUT_SMALL}, {}};
    std::vector<uint32_t> expected;
    if (plain && value < header.values)
        expected = packed(plain->rows_of(value));
    const size_t groups = UPBIT_GROUPS(std::min(header.rows, longest));
    Output<uint32_t> out(input, any_length(input, plain ? expected.size() : groups));
    if (plain && value < header.values)
        answers.known = out.size() < expected.size() ? UPBIT_OUT_SMALL : UPBIT_OK;
    else if (plain)
        answers.known = UPBIT_BAD_VALUE;
    const Before before = this->before();
    const auto answer =
        upbit_query(words.data(), words.size(), fences.data(), fences.size(), out.data(), out.size(), header, value);
    require_unchanged(before);
    require_number(Call::query, answer.number, answers);
    out.require_answer(answer, answers.known ? &expected : nullptr);
}

void Subject::dump() {
    Answers answers = {{UPBIT_OK, UPBIT_DAMAGED, UPBIT_OUT_SMALL}, {}};
    const size_t out_length = any_length(input, std::min(header.issued, longest));
    if (plain)
        answers.known = out_length < plain->bytes.size() ? UPBIT_OUT_SMALL : UPBIT_OK;
    require_dump(out_length, answers);
}

void Subject::require_dump(size_t out_length, const Answers &answers) {
    Output<uint8_t> out(input, out_length);
    const Before before = this->before();
    const auto answer = upbit_dump(words.data(), words.size(), fences.data(), fences.size(), out.data(), out.size(), header);
    require_unchanged(before);
    require_number(Call::dump, answer.number, answers);
    out.require_answer(answer, plain ? &plain->bytes : nullptr);
    require(answer.number != UPBIT_OK || answer.count == header.issued, "a dump has each row issued");
}

void Subject::audit() {
    Answers answers = {{UPBIT_OK, UPBIT_DAMAGED}, {}};
    if (plain)
        answers.known = UPBIT_OK;
    const Before before = this->before();
    const auto answer = upbit_audit(words.data(), words.size(), fences.data(), fences.size(), header);
    require_unchanged(before);
    require_number(Call::audit, answer.number, answers);
    require(answer.count == 0, "an audit's count is 0");
}

void Subject::damage() {
    plain.reset();
    if (input.chance(10))
        header = any_header(input, shape);
    if (words.size() > 0 && input.chance(60))
        words[input.below(static_cast<uint32_t>(words.size()))] = any_word(input);
    if (words.size() > 0 && input.chance(30))
        words[input.below(static_cast<uint32_t>(words.size()))] ^= 1u << input.below(32);
    if (fences.size() > 0 && input.chance(30))
        fences[input.below(static_cast<uint32_t>(fences.size()))] = {input.near(9), input.near(9)};
}
