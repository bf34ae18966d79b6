// The crate `boundary` as C++ sees it. Nothing checks these lines against the Rattle source: crates/boundary/src/{numbers,exports}.rt.
#pragma once
#include <cstddef>
#include <cstdint>

struct Query {
    size_t what;  // 0 closes a cell, 1 opens it, 2 asks for a length
    size_t row, col, target_row, target_col;
};

struct Reply {
    uint32_t refusal, changed, straight, diagonal;
    size_t finished;
};

extern "C" {
bool planner_on_bytes(uint8_t *memory, size_t length, size_t rows, size_t cols, const Query *queries, size_t count, Reply *replies, size_t room);
bool planner_on_words(uint64_t *memory, size_t length, size_t rows, size_t cols, const Query *queries, size_t count, Reply *replies, size_t room);
bool planner_on_table(uint16_t *memory, size_t length, size_t rows, size_t cols, const Query *queries, size_t count, Reply *replies, size_t room);
}
