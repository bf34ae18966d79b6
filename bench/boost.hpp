// A* of Boost.Graph over a graph with a vertex for each cell and an edge for each legal step; made anew when a cell is marked.
#pragma once
#include <boost/graph/astar_search.hpp>
#include <boost/graph/compressed_sparse_row_graph.hpp>
#include <cmath>
#include <vector>

#include "rivals.hpp"

class BoostSearch {
    struct Step {
        double cost;
    };
    using Graph = boost::compressed_sparse_row_graph<boost::directedS, boost::no_property, Step>;
    struct Reached {};

    struct Octile : boost::astar_heuristic<Graph, double> {
        int side;
        Spot target;
        double operator()(unsigned long v) const {
            int rows = std::abs(int(v) / side - target.row), cols = std::abs(int(v) % side - target.col);
            int less = std::min(rows, cols);
            return std::max(rows, cols) - less + less * std::sqrt(2.0);
        }
    };
    struct Stop : boost::default_astar_visitor {
        unsigned long target;
        uint64_t *finished;
        void examine_vertex(unsigned long v, const Graph &) const {
            ++*finished;
            if (v == target) throw Reached{};
        }
    };

    Floor floor;
    Graph graph;
    std::vector<unsigned long> from;
    std::vector<double> cost, rank;
    std::vector<boost::default_color_type> color;

  public:
    void load(const Floor &f) {
        floor = f;
        rebuild();
    }
    void rebuild() {
        int side = floor.side;
        std::vector<std::pair<unsigned long, unsigned long>> edges;
        std::vector<Step> costs;
        for (int r = 0; r < side; r++)
            for (int c = 0; c < side; c++)
                for (int h = 0; h < 8 && floor.at(r, c); h++) {
                    int down = DOWN[h], across = ACROSS[h];
                    if (!floor.at(r + down, c + across) || !floor.at(r + down, c) || !floor.at(r, c + across)) continue;
                    edges.push_back({r * side + c, (r + down) * side + c + across});
                    costs.push_back({h & 1 ? std::sqrt(2.0) : 1.0});
                }
        size_t count = size_t(side) * side;
        graph = Graph(boost::edges_are_sorted, edges.begin(), edges.end(), costs.begin(), count);
        from.resize(count), cost.resize(count), rank.resize(count), color.resize(count);
    }
    void mark(Spot s, bool open) {
        floor.set(s, open);
        rebuild();
    }
    size_t memory() const { return boost::num_edges(graph) * (sizeof(unsigned long) + sizeof(Step)) + boost::num_vertices(graph) * sizeof(unsigned long); }
    size_t work() const { return from.size() * (sizeof(unsigned long) + 2 * sizeof(double) + sizeof(boost::default_color_type)); }

    Length query(Question q) {
        Length answer;
        unsigned long start = q.start.row * floor.side + q.start.col, target = q.target.row * floor.side + q.target.col;
        Octile octile;
        octile.side = floor.side, octile.target = q.target;
        Stop stop;
        stop.target = target, stop.finished = &answer.finished;
        try {
            boost::astar_search(graph, start, octile,
                                boost::weight_map(boost::get(&Step::cost, graph))
                                    .predecessor_map(boost::make_iterator_property_map(from.begin(), boost::get(boost::vertex_index, graph)))
                                    .distance_map(boost::make_iterator_property_map(cost.begin(), boost::get(boost::vertex_index, graph)))
                                    .rank_map(boost::make_iterator_property_map(rank.begin(), boost::get(boost::vertex_index, graph)))
                                    .color_map(boost::make_iterator_property_map(color.begin(), boost::get(boost::vertex_index, graph)))
                                    .visitor(stop));
        } catch (Reached) {
            answer.found = true;
            for (unsigned long v = target; v != start; v = from[v]) {
                unsigned long u = from[v];
                bool slant = u / floor.side != v / floor.side && u % floor.side != v % floor.side;
                slant ? answer.diagonal++ : answer.straight++;
            }
        }
        return answer;
    }
};
