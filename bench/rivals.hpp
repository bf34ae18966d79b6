// What the proved planner is compared with: plain A* on cells, and jump point search on bytes, on packed words and on a table of labels,
// written by hand for speed and not proved.
#pragma once
#include <algorithm>
#include <cstdint>
#include <cstdlib>
#include <cstring>
#include <vector>

#include "floors.hpp"

struct Length {
    bool found = false;
    uint32_t straight = 0, diagonal = 0;
    uint64_t finished = 0;
};

inline constexpr int DOWN[8] = {-1, -1, 0, 1, 1, 1, 0, -1};
inline constexpr int ACROSS[8] = {0, 1, 1, 1, 0, -1, -1, -1};

// a + b√2 with 31 binary digits after the point: exact enough to order all counts of routes on 128 × 128 cells.
inline uint64_t price(uint64_t straight, uint64_t diagonal) { return (straight << 31) + diagonal * 3037000500u; }

inline uint64_t estimate(Spot a, Spot b) {
    int rows = std::abs(a.row - b.row), cols = std::abs(a.col - b.col);
    int less = std::min(rows, cols);
    return price(std::max(rows, cols) - less, less);
}

// A heap of numbers, four children to a parent. The low 17 bits name a place, the others are its price.
class Heap {
    std::vector<uint64_t> items;

  public:
    void clear() { items.clear(); }
    bool empty() const { return items.empty(); }
    void push(uint64_t item) {
        size_t hole = items.size();
        items.push_back(item);
        while (hole > 0) {
            size_t parent = (hole - 1) / 4;
            if (items[parent] <= item) break;
            items[hole] = items[parent];
            hole = parent;
        }
        items[hole] = item;
    }
    uint64_t pop() {
        uint64_t first = items[0], item = items.back();
        items.pop_back();
        size_t count = items.size();
        if (count == 0) return first;
        size_t hole = 0;
        for (;;) {
            size_t child = 4 * hole + 1;
            if (child >= count) break;
            size_t end = std::min(child + 4, count), least = child;
            for (size_t k = child + 1; k < end; k++)
                if (items[k] < items[least]) least = k;
            if (items[least] >= item) break;
            items[hole] = items[least];
            hole = least;
        }
        items[hole] = item;
        return first;
    }
};

// What is kept of a cell or a place. A mark that is not of this search counts as none, so that nothing is cleared.
struct Node {
    uint32_t search = 0;  // twice its number, and one more once it is finished
    uint16_t straight = 0, diagonal = 0;
    uint32_t from = 0;

    // Whether nothing at this price can be of use.
    bool beats(uint32_t now, uint64_t cost) const;
};

inline bool Node::beats(uint32_t now, uint64_t cost) const { return search > now || (search == now && price(straight, diagonal) <= cost); }

// The least power of two that is no less, as a shift.
inline int shift_for(int side) {
    int shift = 0;
    while ((1 << shift) < side) shift++;
    return shift;
}

// Plain A* on cells, over padded bytes.
class CellSearch {
    int side = 0, shift = 0, wide = 0;
    std::vector<uint8_t> free;
    std::vector<Node> nodes;
    Heap heap;
    uint32_t search = 0;

    bool at(int row, int col) const { return free[(row + 1) * wide + col + 1]; }

  public:
    void load(const Floor &f) {
        side = f.side, shift = shift_for(side), wide = side + 2;
        free.assign(size_t(wide) * wide, 0);
        for (int r = 0; r < side; r++)
            for (int c = 0; c < side; c++) free[(r + 1) * wide + c + 1] = f.at(r, c);
        nodes.assign(size_t(side) << shift, Node{});
    }
    void mark(Spot s, bool open) { free[(s.row + 1) * wide + s.col + 1] = open; }
    size_t memory() const { return free.size(); }
    size_t work() const { return nodes.size() * sizeof(Node); }

    Length query(Question q) {
        Length answer;
        search += 2;
        heap.clear();
        uint32_t start = (q.start.row << shift) + q.start.col, target = (q.target.row << shift) + q.target.col;
        nodes[start] = {search, 0, 0, start};
        heap.push(estimate(q.start, q.target) << 17 | start);
        while (!heap.empty()) {
            uint32_t here = heap.pop() & 0x1ffff;
            Node &node = nodes[here];
            if (node.search != search) continue;
            node.search++;
            answer.finished++;
            if (here == target) {
                answer.found = true, answer.straight = node.straight, answer.diagonal = node.diagonal;
                return answer;
            }
            int row = here >> shift, col = here & ((1 << shift) - 1);
            const uint8_t *p = &free[(row + 1) * wide + col + 1];
            bool north = p[-wide], east = p[1], south = p[wide], west = p[-1];
            bool may[8] = {north, north && east && p[-wide + 1], east, south && east && p[wide + 1], south, south && west && p[wide - 1], west, north && west && p[-wide - 1]};
            for (int h = 0; h < 8; h++) {
                if (!may[h]) continue;
                Spot next{row + DOWN[h], col + ACROSS[h]};
                uint32_t to = (next.row << shift) + next.col;
                uint32_t straight = node.straight + !(h & 1), diagonal = node.diagonal + (h & 1);
                Node &there = nodes[to];
                uint64_t cost = price(straight, diagonal);
                if (there.beats(search, cost)) continue;
                there = {search, uint16_t(straight), uint16_t(diagonal), here};
                heap.push((cost + estimate(next, q.target)) << 17 | to);
            }
        }
        return answer;
    }
};

struct Jump {
    int steps;
    bool live;
};

// Jumps step by step over padded bytes. No jump goes on past `limit` steps, where the target waits.
class ByteJumps {
    int side = 0, wide = 0;
    std::vector<uint8_t> free;
    int step[8] = {};

    Jump straight(const uint8_t *p, int h, int limit) const {
        int ahead = step[h], left = step[(h + 6) & 7], right = step[(h + 2) & 7];
        int steps = 0;
        while (steps < limit) {
            const uint8_t *next = p + ahead;
            if (!*next) return {steps, false};
            steps++;
            if (p[left] < next[left] || p[right] < next[right]) return {steps, true};
            p = next;
        }
        return {steps, false};
    }

  public:
    static constexpr const char *NAME = "bytes";
    void load(const Floor &f) {
        side = f.side, wide = side + 2;
        free.assign(size_t(wide) * wide, 0);
        for (int r = 0; r < side; r++)
            for (int c = 0; c < side; c++) free[(r + 1) * wide + c + 1] = f.at(r, c);
        for (int h = 0; h < 8; h++) step[h] = DOWN[h] * wide + ACROSS[h];
    }
    void mark(Spot s, bool open) { free[(s.row + 1) * wide + s.col + 1] = open; }
    size_t memory() const { return free.size(); }
    bool at(int row, int col) const { return free[(row + 1) * wide + col + 1]; }

    Jump jump(Spot s, int h, int limit) const {
        const uint8_t *p = &free[(s.row + 1) * wide + s.col + 1];
        if (!(h & 1)) return straight(p, h, limit);
        int left = step[(h + 7) & 7], right = step[(h + 1) & 7], ahead = step[h];
        int steps = 0;
        while (steps < limit) {
            if (!(p[left] & p[right] & p[ahead])) return {steps, false};
            p += ahead, steps++;
            if (straight(p, (h + 7) & 7, 128).live || straight(p, (h + 1) & 7, 128).live) return {steps, true};
        }
        return {steps, false};
    }
};

// Straight jumps by scans of 128 bits, over rows and columns with a closed line around them.
class WordJumps {
    using Line = unsigned __int128;
    int side = 0;
    std::vector<Line> rows, cols;  // a set bit is closed

    static int lowest(Line x) { return uint64_t(x) ? __builtin_ctzll(uint64_t(x)) : 64 + __builtin_ctzll(uint64_t(x >> 64)); }
    static int highest(Line x) { return uint64_t(x >> 64) ? 127 - __builtin_clzll(uint64_t(x >> 64)) : 63 - __builtin_clzll(uint64_t(x)); }

    // The line and those beside it are lines[at], lines[at - 1] and lines[at + 1].
    static Jump forward(const Line *lines, int at, int place) {
        Line here = lines[at], before = lines[at - 1], after = lines[at + 1];
        Line ends = here | ((before << 1) & ~before) | ((after << 1) & ~after);
        ends = place == 127 ? 0 : ends & (~Line(0) << (place + 1));
        if (!ends) return {127 - place, false};
        int end = lowest(ends);
        return (here >> end) & 1 ? Jump{end - place - 1, false} : Jump{end - place, true};
    }
    static Jump backward(const Line *lines, int at, int place) {
        Line here = lines[at], before = lines[at - 1], after = lines[at + 1];
        Line ends = here | ((before >> 1) & ~before) | ((after >> 1) & ~after);
        ends &= ~(~Line(0) << place);
        if (!ends) return {place, false};
        int end = highest(ends);
        return (here >> end) & 1 ? Jump{place - end - 1, false} : Jump{place - end, true};
    }
    Jump straight(int row, int col, int h) const {
        switch (h) {
        case 0: return backward(&cols[0], col + 1, row);
        case 2: return forward(&rows[0], row + 1, col);
        case 4: return forward(&cols[0], col + 1, row);
        default: return backward(&rows[0], row + 1, col);
        }
    }

  public:
    static constexpr const char *NAME = "packed";
    void load(const Floor &f) {
        side = f.side;
        rows.assign(side + 2, ~Line(0)), cols.assign(side + 2, ~Line(0));
        for (int r = 0; r < side; r++)
            for (int c = 0; c < side; c++)
                if (f.at(r, c)) mark({r, c}, true);
    }
    void mark(Spot s, bool open) {
        Line row = Line(1) << s.col, col = Line(1) << s.row;
        if (open)
            rows[s.row + 1] &= ~row, cols[s.col + 1] &= ~col;
        else
            rows[s.row + 1] |= row, cols[s.col + 1] |= col;
    }
    size_t memory() const { return (rows.size() + cols.size()) * sizeof(Line); }
    bool at(int row, int col) const { return unsigned(col) < unsigned(side) && !((rows[row + 1] >> col) & 1); }

    Jump jump(Spot s, int h, int limit) const {
        if (!(h & 1)) return straight(s.row, s.col, h);
        int down = DOWN[h], across = ACROSS[h], row = s.row, col = s.col, steps = 0;
        while (steps < limit) {
            if (!at(row + down, col) || !at(row, col + across) || !at(row + down, col + across)) return {steps, false};
            row += down, col += across, steps++;
            if (straight(row, col, (h + 7) & 7).live || straight(row, col, (h + 1) & 7).live) return {steps, true};
        }
        return {steps, false};
    }
};

// A table of labels, worked out at the start and mended at each mark by the same walks as ours.
class TableJumps {
    static constexpr uint16_t DEAD = 32768;
    int side = 0, wide = 0;
    std::vector<uint8_t> free;
    std::vector<uint16_t> labels;  // eight to a padded cell
    int step[8] = {};

    int index(Spot s) const { return (s.row + 1) * wide + s.col + 1; }

    uint16_t due(int p, int h) const {
        int next = p + step[h];
        if (!free[p] || !free[next]) return DEAD;
        if (h & 1) {
            int left = (h + 7) & 7, right = (h + 1) & 7;
            if (!free[p + step[left]] || !free[p + step[right]]) return DEAD;
            if (labels[8 * next + left] < DEAD || labels[8 * next + right] < DEAD) return 1;
        } else {
            int left = step[(h + 6) & 7], right = step[(h + 2) & 7];
            if ((!free[p + left] && free[next + left]) || (!free[p + right] && free[next + right])) return 1;
        }
        return labels[8 * next + h] + 1;
    }
    bool inside(int p) const {
        int row = p / wide, col = p % wide;
        return row > 0 && col > 0 && row <= side && col <= side;
    }
    void mend(int p, int h) {
        while (inside(p)) {
            uint16_t old = labels[8 * p + h], now = due(p, h);
            if (old == now) return;
            labels[8 * p + h] = now;
            if (!(h & 1) && (old < DEAD) != (now < DEAD))
                for (int slant : {(h + 7) & 7, (h + 1) & 7}) mend(p - step[slant], slant);
            p -= step[h];
        }
    }

  public:
    static constexpr const char *NAME = "table";
    void load(const Floor &f) {
        side = f.side, wide = side + 2;
        free.assign(size_t(wide) * wide, 0);
        labels.assign(8 * free.size(), DEAD);
        for (int h = 0; h < 8; h++) step[h] = DOWN[h] * wide + ACROSS[h];
        for (int r = 0; r < side; r++)
            for (int c = 0; c < side; c++) free[index({r, c})] = f.at(r, c);
        rebuild();
    }
    // All labels anew: straight ones first, against each heading.
    void rebuild() {
        for (int h : {0, 2, 4, 6, 1, 3, 5, 7}) {
            bool downwards = step[h] < 0;
            for (int k = 0; k < side * side; k++) {
                int cell = downwards ? k : side * side - 1 - k;
                int p = index({cell / side, cell % side});
                labels[8 * p + h] = due(p, h);
            }
        }
    }
    void mark(Spot s, bool open) {
        int p = index(s);
        if (free[p] == open) return;
        free[p] = open;
        for (int h : {0, 2, 4, 6, 1, 3, 5, 7}) {
            int back = (h + 4) & 7;
            mend(p, h), mend(p + step[back], h), mend(p + step[(back + 7) & 7], h), mend(p + step[(back + 1) & 7], h);
            if (!(h & 1)) mend(p + step[(back + 6) & 7], h), mend(p + step[(back + 2) & 7], h);
        }
    }
    size_t memory() const { return free.size() + 2 * labels.size(); }
    bool at(int row, int col) const { return free[(row + 1) * wide + col + 1]; }
    Jump jump(Spot s, int h, int) const {
        uint16_t label = labels[8 * index(s) + h];
        return {label & 32767, label < DEAD};
    }
};

// Jump point search over places: a cell with the heading of arrival. With `AIMED`, by the usual estimate of what is left; without, as the proved search, which
// finishes every place that is cheaper than the answer.
template <class Jumps, bool AIMED>
class JumpSearch {
    int shift = 0, side = 0;
    std::vector<Node> nodes;
    Heap heap;
    uint32_t search = 0;

    // After how many steps a heading brings one to the target's row or column, whichever is first; for a straight one, to the target.
    static int meeting(Spot s, int h, Spot t) {
        constexpr int NEVER = 1 << 20;
        int rows = (t.row - s.row) * DOWN[h], cols = (t.col - s.col) * ACROSS[h];
        if (h & 1) return std::min(rows > 0 ? rows : NEVER, cols > 0 ? cols : NEVER);
        if (DOWN[h]) return s.col == t.col && rows > 0 ? rows : NEVER;
        return s.row == t.row && cols > 0 ? cols : NEVER;
    }

    // The headings in which a place goes on, as bits.
    unsigned goings(Spot s, int h) const {
        unsigned ahead = 1u << h;
        if (h & 1) return ahead | 1u << ((h + 1) & 7) | 1u << ((h + 7) & 7);
        int back_row = s.row - DOWN[h], back_col = s.col - ACROSS[h];
        for (int side : {2, 6}) {
            int g = (h + side) & 7;
            if (jumps.at(s.row + DOWN[g], s.col + ACROSS[g]) && !jumps.at(back_row + DOWN[g], back_col + ACROSS[g])) ahead |= 1u << g | 1u << ((h + side / 2 + (side == 6 ? 4 : 0)) & 7);
        }
        return ahead;
    }

    void follow(Spot s, uint32_t from, uint32_t straight, uint32_t diagonal, unsigned headings, Spot target) {
        while (headings) {
            int h = __builtin_ctz(headings);
            headings &= headings - 1;
            int limit = meeting(s, h, target);
            Jump jump = jumps.jump(s, h, limit);
            int steps = jump.steps;
            if (limit <= steps)
                steps = limit;
            else if (!jump.live)
                continue;
            Spot next{s.row + steps * DOWN[h], s.col + steps * ACROSS[h]};
            uint32_t a = straight + (h & 1 ? 0 : steps), b = diagonal + (h & 1 ? steps : 0);
            uint32_t to = 8 * ((next.row << shift) + next.col) + h;
            uint64_t cost = price(a, b);
            Node &there = nodes[to];
            if (there.beats(search, cost)) continue;
            there = {search, uint16_t(a), uint16_t(b), from};
            heap.push((AIMED ? cost + estimate(next, target) : cost) << 17 | to);
        }
    }

  public:
    Jumps jumps;

    void load(const Floor &f) {
        side = f.side, shift = shift_for(side);
        jumps.load(f);
        nodes.assign(size_t(8) * side << shift, Node{});
    }
    void mark(Spot s, bool open) { jumps.mark(s, open); }
    size_t memory() const { return jumps.memory(); }
    size_t work() const { return nodes.size() * sizeof(Node); }

    Length query(Question q) {
        Length answer;
        search += 2;
        heap.clear();
        follow(q.start, ~0u, 0, 0, 255, q.target);
        while (!heap.empty()) {
            uint32_t place = heap.pop() & 0x1ffff;
            Node &node = nodes[place];
            if (node.search != search) continue;
            node.search++;
            answer.finished++;
            Spot s{int(place >> 3) >> shift, int(place >> 3) & ((1 << shift) - 1)};
            if (s == q.target) {
                answer.found = true, answer.straight = node.straight, answer.diagonal = node.diagonal;
                return answer;
            }
            follow(s, place, node.straight, node.diagonal, goings(s, place & 7), q.target);
        }
        return answer;
    }
};
