// How long everybody takes: the proved planner through its boundary, and the others as they are.
#pragma once
#include <ctime>
#include <functional>
#include <memory>
#include <stdexcept>
#include <string>
#include <vector>

#include "boundary.h"
#include "rivals.hpp"

// Seconds of this thread's processor time, so that other programs on the machine count for little.
inline double now() {
    timespec t;
    clock_gettime(CLOCK_THREAD_CPUTIME_ID, &t);
    return double(t.tv_sec) + 1e-9 * double(t.tv_nsec);
}

// Someone who answers. Each time is that of the whole list, so often as `repeat` says.
struct System {
    std::string name;
    bool proved = false;
    // Gets a floor ready, once a round.
    std::function<void(const Floor &)> prepare;
    // The questions in order; the answers of the first round.
    std::function<double(const Floor &, const std::vector<Question> &, int repeat, std::vector<Length> &)> ask;
    // A list has to take so long, at least, to be measured.
    std::function<double()> least = [] { return 0.0; };
    // Each change, followed by its question; then all of them taken back, again each followed by its question.
    std::function<double(const Floor &, const std::vector<Change> &, int repeat, std::vector<Length> &)> change_and_ask;
    // Each change, and all of them taken back.
    std::function<double(const Floor &, const std::vector<Change> &, int repeat)> change;
    // Bytes that hold the plan, and bytes of work lists.
    std::function<std::pair<size_t, size_t>(const Floor &)> memory;
};

inline Query length_query(Question q) { return {2, size_t(q.start.row), size_t(q.start.col), size_t(q.target.row), size_t(q.target.col)}; }
inline Query mark_query(Spot s, bool open) { return {open ? 1u : 0u, size_t(s.row), size_t(s.col), 0, 0}; }

// A batch on memory of its own: every open cell of the floor is opened, then come the queries.
template <class Word>
class Batch {
    using Run = bool (*)(Word *, size_t, size_t, size_t, const Query *, size_t, Reply *, size_t);
    Run run;
    std::vector<Word> memory;
    std::vector<Reply> replies;

  public:
    Batch(Run run, size_t words) : run(run), memory(words) {}

    double time(const Floor &f, const std::vector<Query> &queries) {
        std::vector<Query> all;
        for (Spot s : open_cells(f)) all.push_back(mark_query(s, true));
        all.insert(all.end(), queries.begin(), queries.end());
        replies.assign(all.size(), Reply{});
        double start = now();
        bool done = run(memory.data(), memory.size(), f.side, f.side, all.data(), all.size(), replies.data(), replies.size());
        double spent = now() - start;
        if (!done) throw std::runtime_error("a batch was refused");
        return spent;
    }
    // What the query so far from the end was answered.
    Length answer(size_t from_end) const {
        const Reply &r = replies[replies.size() - from_end];
        if (r.refusal != 0 && r.refusal != 7) throw std::runtime_error("a length was refused with " + std::to_string(r.refusal));
        return {r.refusal == 0, r.straight, r.diagonal, r.finished};
    }
};

// The proved planner over one kind of source. What opening the floor takes is measured once a round and taken off.
template <class Word>
System proved(std::string name, bool (*run)(Word *, size_t, size_t, size_t, const Query *, size_t, Reply *, size_t), std::function<size_t(size_t)> words) {
    auto batch = std::make_shared<Batch<Word>>(run, words(128));
    auto base = std::make_shared<double>(0);
    // The time of the queries alone.
    auto timed = [=](const Floor &f, const std::vector<Query> &queries) { return batch->time(f, queries) - *base; };
    System s;
    s.name = name;
    s.proved = true;
    s.prepare = [=](const Floor &f) { *base = std::min(batch->time(f, {}), batch->time(f, {})); };
    s.least = [=] { return *base / 3; };
    s.ask = [=](const Floor &f, const std::vector<Question> &asked, int repeat, std::vector<Length> &answers) {
        std::vector<Query> queries;
        for (int k = 0; k < repeat; k++)
            for (auto &q : asked) queries.push_back(length_query(q));
        double spent = timed(f, queries);
        answers.clear();
        for (size_t i = 0; i < asked.size(); i++) answers.push_back(batch->answer(queries.size() - i));
        return spent;
    };
    s.change_and_ask = [=](const Floor &f, const std::vector<Change> &changes, int repeat, std::vector<Length> &answers) {
        std::vector<Query> queries;
        for (int k = 0; k < repeat; k++) {
            for (auto c = changes.begin(); c != changes.end(); ++c) queries.push_back(mark_query(c->cell, c->open)), queries.push_back(length_query(c->then));
            for (auto c = changes.rbegin(); c != changes.rend(); ++c) queries.push_back(mark_query(c->cell, !c->open)), queries.push_back(length_query(c->then));
        }
        double spent = timed(f, queries);
        answers.clear();
        for (size_t i = 0; i < 2 * changes.size(); i++) answers.push_back(batch->answer(queries.size() - 2 * i - 1));
        return spent;
    };
    s.change = [=](const Floor &f, const std::vector<Change> &changes, int repeat) {
        std::vector<Query> queries;
        for (int k = 0; k < repeat; k++) {
            for (auto c = changes.begin(); c != changes.end(); ++c) queries.push_back(mark_query(c->cell, c->open));
            for (auto c = changes.rbegin(); c != changes.rend(); ++c) queries.push_back(mark_query(c->cell, !c->open));
        }
        return timed(f, queries);
    };
    s.memory = [=](const Floor &f) { return std::make_pair(words(f.side) * sizeof(Word), size_t(8) * f.side * f.side * (16 + 8)); };
    return s;
}

// Someone written in C++, with `load`, `mark` and `query`.
template <class Searcher>
System rival(std::string name) {
    auto it = std::make_shared<Searcher>();
    System s;
    s.name = name;
    s.prepare = [=](const Floor &f) { it->load(f); };
    s.ask = [=](const Floor &, const std::vector<Question> &asked, int repeat, std::vector<Length> &answers) {
        std::vector<Length> last(asked.size());
        double start = now();
        for (int k = 0; k < repeat; k++)
            for (size_t i = 0; i < asked.size(); i++) last[i] = it->query(asked[i]);
        double spent = now() - start;
        answers = last;
        return spent;
    };
    s.change_and_ask = [=](const Floor &, const std::vector<Change> &changes, int repeat, std::vector<Length> &answers) {
        answers.assign(2 * changes.size(), Length{});
        double start = now();
        for (int k = 0; k < repeat; k++) {
            auto answer = answers.begin();
            for (auto c = changes.begin(); c != changes.end(); ++c) it->mark(c->cell, c->open), *answer++ = it->query(c->then);
            for (auto c = changes.rbegin(); c != changes.rend(); ++c) it->mark(c->cell, !c->open), *answer++ = it->query(c->then);
        }
        return now() - start;
    };
    s.change = [=](const Floor &, const std::vector<Change> &changes, int repeat) {
        double start = now();
        for (int k = 0; k < repeat; k++) {
            for (auto c = changes.begin(); c != changes.end(); ++c) it->mark(c->cell, c->open);
            for (auto c = changes.rbegin(); c != changes.rend(); ++c) it->mark(c->cell, !c->open);
        }
        return now() - start;
    };
    s.memory = [=](const Floor &f) {
        it->load(f);
        return std::make_pair(it->memory(), it->work());
    };
    return s;
}
