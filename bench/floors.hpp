// Floors to plan on, and the questions asked of them, all drawn from fixed seeds.
#pragma once
#include <cstdint>
#include <random>
#include <string>
#include <utility>
#include <vector>

struct Spot {
    int row, col;
};

inline bool operator==(Spot a, Spot b) { return a.row == b.row && a.col == b.col; }

struct Floor {
    std::string name;
    int side;
    std::vector<uint8_t> open;  // by rows

    bool at(int row, int col) const { return row >= 0 && col >= 0 && row < side && col < side && open[row * side + col]; }
    bool at(Spot s) const { return at(s.row, s.col); }
    void set(Spot s, bool value) { open[s.row * side + s.col] = value; }
};

struct Question {
    Spot start, target;
};

// A cell that is opened or closed, and the question asked after it.
struct Change {
    Spot cell;
    bool open;
    Question then;
};

using Dice = std::mt19937_64;

inline int below(Dice &dice, int n) { return int(dice() % uint64_t(n)); }

inline Floor hall(int side) { return {"hall", side, std::vector<uint8_t>(size_t(side) * side, 1)}; }

inline Floor random_floor(int side, int percent, Dice &dice) {
    Floor f = hall(side);
    f.name = "random " + std::to_string(percent) + " %";
    for (auto &cell : f.open) cell = below(dice, 100) >= percent;
    return f;
}

// Walls every `pitch` cells, and two doors of two cells in each wall of a room.
inline Floor rooms(int side, int pitch, Dice &dice) {
    Floor f = hall(side);
    f.name = "rooms";
    for (int wall = pitch; wall + 1 < side; wall += pitch)
        for (int i = 0; i < side; i++) f.set({wall, i}, false), f.set({i, wall}, false);
    for (int wall = pitch; wall + 1 < side; wall += pitch)
        for (int room = 0; room < side; room += pitch)
            for (int door = 0; door < 2; door++) {
                int at = room + 1 + below(dice, pitch - 2), to = room + 1 + below(dice, pitch - 2);
                for (int k = 0; k < 2; k++) {
                    if (at + k < side) f.set({wall, at + k}, true);
                    if (to + k < side) f.set({to + k, wall}, true);
                }
            }
    return f;
}

// An open hall on pillars of one cell, sixteen cells apart.
inline Floor pillars(int side) {
    Floor f = hall(side);
    f.name = "pillars";
    for (int row = 8; row < side; row += 16)
        for (int col = 8; col < side; col += 16) f.set({row, col}, false);
    return f;
}

// Aisles of two cells between blocks of shelves.
inline Floor corridors(int side) {
    Floor f = hall(side);
    f.name = "corridors";
    for (int row = 0; row < side; row++)
        for (int col = 0; col < side; col++) f.set({row, col}, row % 5 < 2 || col % 12 < 2);
    return f;
}

// Rows of rooms, six by six, each with a door to the corridor between two rows of them.
inline Floor offices(int side, Dice &dice) {
    Floor f = hall(side);
    f.name = "offices";
    for (int row = 0; row < side; row++)
        for (int col = 0; col < side; col++) {
            int down = row % 16;
            bool corridor = down == 7 || down == 8;
            bool wall = down == 6 || down == 9 || (!corridor && col % 7 == 6);
            f.set({row, col}, !wall);
        }
    for (int row = 0; row < side; row++)
        for (int room = 0; room < side; room += 7)
            if (row % 16 == 6 || row % 16 == 9) {
                int door = room + below(dice, 6);
                if (door < side) f.set({row, door}, true);
            }
    for (int row = 15; row < side; row += 16) f.set({row, below(dice, side)}, true);
    return f;
}

inline std::vector<Spot> open_cells(const Floor &f) {
    std::vector<Spot> cells;
    for (int row = 0; row < f.side; row++)
        for (int col = 0; col < f.side; col++)
            if (f.at(row, col)) cells.push_back({row, col});
    return cells;
}

inline std::vector<Question> questions(const Floor &f, int count, Dice &dice) {
    auto cells = open_cells(f);
    std::vector<Question> all;
    while (int(all.size()) < count) {
        Question q{cells[below(dice, int(cells.size()))], cells[below(dice, int(cells.size()))]};
        if (!(q.start == q.target)) all.push_back(q);
    }
    return all;
}

// Each change turns a cell that no question starts or ends at.
inline std::vector<Change> changes(const Floor &f, const std::vector<Question> &asked, Dice &dice) {
    Floor now = f;
    std::vector<uint8_t> kept(f.open.size(), 0);
    for (auto &q : asked) kept[q.start.row * f.side + q.start.col] = kept[q.target.row * f.side + q.target.col] = 1;
    std::vector<Change> all;
    for (auto &q : asked) {
        Spot s;
        do s = {below(dice, f.side), below(dice, f.side)};
        while (kept[s.row * f.side + s.col]);
        now.set(s, !now.at(s));
        all.push_back({s, now.at(s), q});
    }
    return all;
}
