// Runs everybody on the same floors with the same questions, holds all answers against each other, and writes the table and the picture.
#include <algorithm>
#include <cmath>
#include <cstdio>
#include <cstdlib>
#include <fstream>
#include <map>
#include <sstream>

#include "measure.hpp"
#include "plot.hpp"
#ifdef WITH_BOOST
#include "boost.hpp"
#endif

constexpr int ROUNDS = 5;
constexpr int QUESTIONS = 60;
constexpr double LEAST = 0.02;  // seconds that one measurement takes at least

// Median and quartiles of what the rounds gave.
struct Spread {
    double low = 0, middle = 0, high = 0;
};

Spread spread(std::vector<double> v) {
    std::sort(v.begin(), v.end());
    auto at = [&](double q) {
        double x = q * double(v.size() - 1);
        size_t k = size_t(x);
        return k + 1 < v.size() ? v[k] + (x - double(k)) * (v[k + 1] - v[k]) : v[k];
    };
    return {at(0.25), at(0.5), at(0.75)};
}

Spread ratio(const std::vector<double> &a, const std::vector<double> &b) {
    std::vector<double> r;
    for (size_t i = 0; i < a.size(); i++) r.push_back(a[i] / b[i]);
    return spread(r);
}

std::string text(const char *format, double a, double b = 0, double c = 0) {
    char line[200];
    snprintf(line, sizeof line, format, a, b, c);
    return line;
}

// A figure below nothing is one that noise has drowned.
std::string shown(Spread s) { return s.low <= 0 ? "—" : text("%.2f (%.2f–%.2f)", s.middle, s.low, s.high); }

std::string shown(const char *format, double value) { return value <= 0 ? "—" : text(format, value); }

// Everybody on one floor, round by round. Times are per question or change, in microseconds.
struct Figures {
    std::map<std::string, std::vector<double>> query, clearing, expansion, after_mark, mark;
    std::map<std::string, double> finished;
};

void compare(const std::string &who, const Floor &f, const std::vector<Length> &all, const std::vector<Length> &first) {
    for (size_t i = 0; i < all.size(); i++)
        if (all[i].found != first[i].found || all[i].straight != first[i].straight || all[i].diagonal != first[i].diagonal) {
            fprintf(stderr, "%s on %s, question %zu: %d %u %u, and others %d %u %u\n", who.c_str(), f.name.c_str(), i, all[i].found, all[i].straight, all[i].diagonal, first[i].found, first[i].straight, first[i].diagonal);
            exit(1);
        }
}

size_t compared = 0;

// The time of a list, repeated often enough to be measured.
double timed(const System &s, int &repeat, std::function<double(int)> list) {
    for (;;) {
        double spent = list(repeat), wanted = std::max(LEAST, s.least());
        if (spent >= wanted || repeat >= 1 << 12) return spent / repeat * 1e6;
        repeat *= spent < wanted / 8 ? 8 : 2;
    }
}

Figures measure(const std::vector<System> &systems, const Floor &f, uint64_t seed, int rounds, bool marks) {
    Dice dice(seed);
    auto asked = questions(f, QUESTIONS, dice);
    auto changed = changes(f, asked, dice);
    double count = double(asked.size());
    std::vector<Question> still;
    for (auto &q : asked) still.push_back({q.start, q.start});
    Figures all;
    std::map<std::string, int> repeats;
    std::vector<Length> first, first_changed;
    // The proved planner does not tell how many places it finished where there is no route; there the number of the search by hand is taken.
    std::vector<Length> by_hand;
    for (int round = 0; round < rounds; round++)
        for (auto s = systems.rbegin(); s != systems.rend(); ++s) {
            auto repeat = [&](const char *what) -> int & { return repeats.emplace(s->name + what, 1).first->second; };
            std::vector<Length> answers;
            s->prepare(f);
            double query = timed(*s, repeat("ask"), [&](int k) { return s->ask(f, asked, k, answers); }) / count;
            if (first.empty()) first = answers;
            compare(s->name, f, answers, first), compared += answers.size();
            double finished = 0;
            if (s->name == "by hand, table") by_hand = answers;
            for (size_t i = 0; i < answers.size(); i++) finished += double(s->proved && !answers[i].found ? by_hand[i].finished : answers[i].finished);
            all.finished[s->name] = finished / count;
            all.query[s->name].push_back(query);
            // What a question from a cell to itself takes is not spent on places: the work entries are cleared.
            double clearing = s->proved ? timed(*s, repeat("still"), [&](int k) { return s->ask(f, still, k, answers); }) / count : 0;
            all.clearing[s->name].push_back(clearing);
            all.expansion[s->name].push_back((query - clearing) * count / finished);
            if (!marks) continue;
            double both = timed(*s, repeat("both"), [&](int k) { return s->change_and_ask(f, changed, k, answers); });
            if (first_changed.empty()) first_changed = answers;
            compare(s->name, f, answers, first_changed), compared += answers.size();
            all.after_mark[s->name].push_back(both / (2 * count));
            all.mark[s->name].push_back(timed(*s, repeat("mark"), [&](int k) { return s->change(f, changed, k); }) / (2 * count));
        }
    return all;
}

using Column = std::map<std::string, std::vector<double>>;

void table(std::ostream &out, const std::string &title, const std::vector<System> &systems, const std::vector<std::string> &heads, const std::vector<std::function<std::string(const std::string &)>> &cells) {
    out << "\n" << title << "\n\n| |";
    for (auto &h : heads) out << " " << h << " |";
    out << "\n|---|";
    for (size_t i = 0; i < heads.size(); i++) out << "---:|";
    out << "\n";
    for (auto &s : systems) {
        out << "| " << s.name << " |";
        for (auto &c : cells) out << " " << c(s.name) << " |";
        out << "\n";
    }
}

std::vector<System> everybody() {
    std::vector<System> all = {
        proved<uint8_t>("proved, bytes", planner_on_bytes, [](size_t n) { return n * n; }),
        proved<uint64_t>("proved, packed", planner_on_words, [](size_t n) { return 2 * n * ((n + 63) / 64); }),
        proved<uint16_t>("proved, table", planner_on_table, [](size_t n) { return 9 * n * n; }),
        rival<JumpSearch<ByteJumps, false>>("by hand, bytes"),
        rival<JumpSearch<WordJumps, false>>("by hand, packed"),
        rival<JumpSearch<TableJumps, false>>("by hand, table"),
        rival<JumpSearch<ByteJumps, true>>("aimed, bytes"),
        rival<JumpSearch<WordJumps, true>>("aimed, packed"),
        rival<JumpSearch<TableJumps, true>>("aimed, table"),
        rival<CellSearch>("A* on cells"),
    };
#ifdef WITH_BOOST
    all.push_back(rival<BoostSearch>("A* of Boost.Graph"));
#endif
    return all;
}

// One kind of source on one floor, so often, for a profiler: bench count bytes|packed|table proved|hand FLOOR TIMES
int count(int argc, char **argv, const std::vector<Floor> &floors) {
    std::string source = argc > 2 ? argv[2] : "table", who = argc > 3 ? argv[3] : "proved", name = argc > 4 ? argv[4] : "rooms";
    int times = argc > 5 ? atoi(argv[5]) : 1;
    for (auto &s : everybody())
        for (auto &f : floors)
            if (f.name == name && s.name == (who == "proved" ? "proved, " : "by hand, ") + source) {
                Dice dice(1);
                std::vector<Length> answers;
                auto asked = questions(f, QUESTIONS, dice);
                s.prepare(f);
                if (times > 0) s.ask(f, asked, times, answers);
                double finished = 0;
                for (auto &a : answers) finished += double(a.finished);
                printf("%s on %s: %d questions, %.0f places finished\n", s.name.c_str(), name.c_str(), times * QUESTIONS, times * finished);
            }
    return 0;
}

int main(int argc, char **argv) {
    Dice dice(20240229);
    std::vector<Floor> floors = {hall(128), pillars(128), rooms(128, 16, dice), corridors(128), random_floor(128, 10, dice), random_floor(128, 25, dice), random_floor(128, 40, dice), offices(32, dice)};
    if (argc > 1 && std::string(argv[1]) == "count") return count(argc, argv, floors);
    std::string table_file = argc > 1 ? argv[1] : "table.md", plot_file = argc > 2 ? argv[2] : "plot.svg";
    int rounds = argc > 3 ? atoi(argv[3]) : ROUNDS;
    auto systems = everybody();
    std::vector<std::string> names;
    std::vector<Figures> figures;
    for (auto &f : floors) {
        fprintf(stderr, "%s, %d × %d\n", f.name.c_str(), f.side, f.side);
        names.push_back(f.name);
        figures.push_back(measure(systems, f, 7 + figures.size(), rounds, true));
    }
    std::ostringstream out;
    auto by_floor = [&](std::function<std::string(const Figures &, const std::string &)> cell) {
        std::vector<std::function<std::string(const std::string &)>> cells;
        for (auto &g : figures) cells.push_back([&g, cell](const std::string &who) { return cell(g, who); });
        return cells;
    };
    auto partner = [](const std::string &who) { return "by hand, " + who.substr(8); };
    std::vector<System> ours(systems.begin(), systems.begin() + 3);

    table(out, "Microseconds for a question (median).", systems, names, by_floor([](const Figures &g, const std::string &who) { return text("%.1f", spread(g.query.at(who)).middle); }));
    table(out, "The same, beside the program by hand that does the same work: median and quartiles of the ratio. Below 1 the proved planner is faster.", ours, names,
          by_floor([&](const Figures &g, const std::string &who) { return shown(ratio(g.query.at(who), g.query.at(partner(who)))); }));
    table(out, "Places (of A*: cells) finished for a question.", systems, names, by_floor([](const Figures &g, const std::string &who) { return text("%.0f", g.finished.at(who)); }));
    table(out, "Nanoseconds for a finished place: what a question takes less what it takes to clear the work entries.", systems, names, by_floor([](const Figures &g, const std::string &who) { return shown("%.0f", 1000 * spread(g.expansion.at(who)).middle); }));
    table(out, "Microseconds of a question that go into clearing the work entries.", ours, names, by_floor([](const Figures &g, const std::string &who) { return text("%.1f", spread(g.clearing.at(who)).middle); }));
    table(out, "How many times as fast as the proved planner over bytes a place is finished (median and quartiles).", ours, names,
          by_floor([](const Figures &g, const std::string &who) { return shown(ratio(g.expansion.at("proved, bytes"), g.expansion.at(who))); }));
    table(out, "Microseconds for a mark followed by a question.", systems, names, by_floor([](const Figures &g, const std::string &who) { return text("%.1f", spread(g.after_mark.at(who)).middle); }));
    table(out, "Microseconds for a mark alone.", systems, names, by_floor([](const Figures &g, const std::string &who) { return text("%.3f", spread(g.mark.at(who)).middle); }));

    std::vector<int> sides = {16, 32, 64, 128};
    for (std::string kind : {"rooms", "random 10 %"}) {
        std::vector<Figures> growth;
        std::vector<std::string> heads;
        for (int side : sides) {
            fprintf(stderr, "%s, %d × %d\n", kind.c_str(), side, side);
            Dice d(side);
            Floor f = kind == "rooms" ? rooms(side, 16, d) : random_floor(side, 10, d);
            growth.push_back(measure(systems, f, side, std::min(rounds, 3), false));
            heads.push_back("side " + std::to_string(side));
        }
        std::vector<std::function<std::string(const std::string &)>> cells;
        for (auto &g : growth) cells.push_back([&g](const std::string &who) { return text("%.1f", spread(g.query.at(who)).middle); });
        table(out, "Microseconds for a question as the side of the floor grows: " + kind + ".", systems, heads, cells);
        if (kind != "rooms") continue;
        std::vector<Line> lines;
        for (auto &s : systems) {
            Line line{s.name, {}};
            for (size_t i = 0; i < sides.size(); i++) line.points.push_back({double(sides[i]), spread(growth[i].query.at(s.name)).middle});
            lines.push_back(line);
        }
        std::ofstream(plot_file) << plot("Microseconds for a question on floors of rooms, by the side of the floor", lines);
    }
    Floor large = hall(128);
    table(out, "Memory for 128 × 128 cells, in KiB.", systems, {"plan", "work lists"},
          {[&](const std::string &who) { for (auto &s : systems) if (s.name == who) return text("%.1f", double(s.memory(large).first) / 1024); return std::string(); },
           [&](const std::string &who) { for (auto &s : systems) if (s.name == who) return text("%.0f", double(s.memory(large).second) / 1024); return std::string(); }});
    out << "\nAll " << compared << " answers compared; everybody gives the same counts.\n";
    std::ofstream(table_file) << out.str();
    printf("%s", out.str().c_str());
}
