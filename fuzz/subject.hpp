// An index under test: a header and memory, sound or not, and what is known of it.
#pragma once

#include <optional>
#include <vector>

#include "input.hpp"
#include "lent.hpp"
#include "plain.hpp"
#include "tally.hpp"
#include "upbit.h"

class Subject {
  public:
    explicit Subject(Input &input);

    void load();
    void insert();
    void update();
    void remove();
    void merge();
    void value();
    void query();
    void dump();
    void audit();
    // Changes some words, some fences or the header, so that no more is known of the index.
    void damage();

  private:
    struct Before {
        std::vector<uint32_t> words;
        std::vector<upbit_fence> fences;
    };

    // What a call may answer: the numbers other than BAD_HEADER and SMALL, and the very one where it is known.
    struct Answers {
        std::vector<uint32_t> possible;
        std::optional<uint32_t> known;
    };

    Input &input;
    upbit_header shape;
    Lent<uint32_t> words;
    Lent<upbit_fence> fences;
    upbit_header header = {0, 0, 0, 0, 0};
    // The plain column, from an accepted load on until something is damaged.
    std::optional<PlainColumn> plain;

    Before before() const;
    uint32_t too_small_or_bad(upbit_header given) const;
    void require_number(Call call, uint32_t number, const Answers &answers) const;
    void require_unchanged(const Before &before) const;
    bool changed(Call call, const Before &before, const upbit_changed &changed, const upbit_header &accepted,
                 size_t count, const Answers &answers);
    void require_plain();
    void require_dump(size_t out_length, const Answers &answers);
};
