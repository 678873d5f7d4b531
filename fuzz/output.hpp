// Memory that a call writes its result to, and the check of what it wrote.
#pragma once

#include <algorithm>
#include <vector>

#include "shapes.hpp"

template <typename Element> class Output {
  public:
    Output(Input &input, size_t length) : lent(length, any_side(input)) {
        const auto pattern = static_cast<Element>(input.word());
        std::fill_n(lent.data(), length, pattern);
        before = lent.copy();
    }

    Element *data() { return lent.data(); }
    size_t size() const { return lent.size(); }

    // That the result, where it is known, is written and nothing past it; on a refusal that nothing is.
    void require_answer(const upbit_answer &answer, const std::vector<Element> *expected) {
        require(answer.number == UPBIT_OK || answer.count == 0, "a refusal's count is 0");
        require(answer.count <= size(), "a count is at most the output's length");
        lent.require_same(before, answer.count, "output past the result stays, and on a refusal all of it");
        if (answer.number != UPBIT_OK || expected == nullptr)
            return;
        require(answer.count == expected->size(), "the result has the length that is known");
        require(std::equal(expected->begin(), expected->end(), lent.data()), "the result is the one that is known");
    }

    std::vector<Element> result(const upbit_answer &answer) {
        return std::vector<Element>(lent.data(), lent.data() + answer.count);
    }

  private:
    Lent<Element> lent;
    std::vector<Element> before;
};
