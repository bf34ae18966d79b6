// A picture of lines over two logarithmic axes, as SVG.
#pragma once
#include <cmath>
#include <cstdio>
#include <sstream>
#include <string>
#include <utility>
#include <vector>

struct Line {
    std::string name;
    std::vector<std::pair<double, double>> points;
};

inline std::string plot(const std::string &title, const std::vector<Line> &lines) {
    const double width = 860, height = 520, left = 70, right = 640, top = 50, bottom = 470;
    double least = 1e300, most = 0, first = 1e300, last = 0;
    for (auto &l : lines)
        for (auto &p : l.points) least = std::min(least, p.second), most = std::max(most, p.second), first = std::min(first, p.first), last = std::max(last, p.first);
    least = std::pow(10, std::floor(std::log10(least))), most = std::pow(10, std::ceil(std::log10(most)));
    auto x = [&](double v) { return left + (right - left) * std::log(v / first) / std::log(last / first); };
    auto y = [&](double v) { return bottom - (bottom - top) * std::log(v / least) / std::log(most / least); };
    const char *colors[] = {"#c0392b", "#d68910", "#1e8449", "#c0392b", "#d68910", "#1e8449", "#c0392b", "#d68910", "#1e8449", "#2e4053", "#7d3c98"};
    const char *dashes[] = {"", "", "", "6 4", "6 4", "6 4", "2 3", "2 3", "2 3", "", ""};
    std::ostringstream svg;
    svg << "<svg xmlns=\"http://www.w3.org/2000/svg\" width=\"" << width << "\" height=\"" << height << "\" font-family=\"sans-serif\" font-size=\"13\">\n";
    svg << "<rect width=\"100%\" height=\"100%\" fill=\"white\"/>\n<text x=\"" << left << "\" y=\"28\" font-size=\"15\">" << title << "</text>\n";
    for (double v = least; v <= most * 1.001; v *= 10)
        svg << "<line x1=\"" << left << "\" x2=\"" << right << "\" y1=\"" << y(v) << "\" y2=\"" << y(v) << "\" stroke=\"#ddd\"/><text x=\"" << left - 8 << "\" y=\"" << y(v) + 4 << "\" text-anchor=\"end\">" << v << "</text>\n";
    for (auto &p : lines[0].points)
        svg << "<line x1=\"" << x(p.first) << "\" x2=\"" << x(p.first) << "\" y1=\"" << top << "\" y2=\"" << bottom << "\" stroke=\"#ddd\"/><text x=\"" << x(p.first) << "\" y=\"" << bottom + 20 << "\" text-anchor=\"middle\">" << p.first << "</text>\n";
    for (size_t i = 0; i < lines.size(); i++) {
        std::ostringstream path;
        for (auto &p : lines[i].points) path << x(p.first) << "," << y(p.second) << " ";
        std::string style = std::string("fill=\"none\" stroke-width=\"2\" stroke=\"") + colors[i % 11] + "\" stroke-dasharray=\"" + dashes[i % 11] + "\"";
        svg << "<polyline points=\"" << path.str() << "\" " << style << "/>\n";
        double row = top + 20 * double(i) + 10;
        svg << "<line x1=\"" << right + 20 << "\" x2=\"" << right + 50 << "\" y1=\"" << row << "\" y2=\"" << row << "\" " << style << "/><text x=\"" << right + 58 << "\" y=\"" << row + 4 << "\">" << lines[i].name << "</text>\n";
    }
    svg << "</svg>\n";
    return svg.str();
}
