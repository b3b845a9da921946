/* What was measured as a plot: an SVG file with two panels side by side, both axes logarithmic. */
#pragma once

#include <cmath>
#include <fstream>
#include <sstream>

#include "print.hpp"

/* a line of the plot; the shape tells it from others where colours don't */
struct Curve {
    const char *name, *colour, *dashes, *marker;
    double (*time)(const Times &);
};

/* markers are drawn about the point 0, 0 */
inline const std::vector<Curve> curves = {
    {"whole call", "#000000", "none", "M-4,0A4,4 0 1 0 4,0A4,4 0 1 0 -4,0Z", [](const Times &t) { return t.whole; }},
    {"judging", "#e69f00", "2 3", "M-4,-4H4V4H-4Z", [](const Times &t) { return t.judging; }},
    {"engine (whole less judging)", "#0072b2", "7 3", "M0,-5L5,4H-5Z", [](const Times &t) { return t.engine; }},
    {"LEMON's rounds", "#009e73", "none", "M0,-5L5,0L0,5L-5,0Z", [](const Times &t) { return t.lemon; }},
    {"Boost", "#cc3311", "9 3 2 3", "M0,5L-5,-4H5Z", [](const Times &t) { return t.boost; }},
};

struct Panel {
    std::string title, unit;
    const std::vector<Row> *rows;
};

/* one axis: from the least to the greatest number, over so many points of the picture */
struct Axis {
    double least, greatest, from, to;

    double place(double number) const { return from + (to - from) * std::log(number / least) / std::log(greatest / least); }
};

class Plot {
    std::ostringstream svg;
    Axis y;

    static constexpr double top = 110, bottom = 470, width = 400, left[2] = {90, 590};

    void text(double at_x, double at_y, const char *anchor, int size, const std::string &words, const std::string &more = "") {
        svg << "<text x=\"" << at_x << "\" y=\"" << at_y << "\" text-anchor=\"" << anchor << "\" font-size=\"" << size << "\"" << more << ">" << words
            << "</text>\n";
    }

    void rule(double x1, double y1, double x2, double y2, const char *colour) {
        svg << "<path d=\"M" << x1 << "," << y1 << "L" << x2 << "," << y2 << "\" stroke=\"" << colour << "\" fill=\"none\"/>\n";
    }

    void mark(const Curve &curve, double at_x, double at_y) {
        svg << "<path transform=\"translate(" << at_x << "," << at_y << ")\" d=\"" << curve.marker << "\" fill=\"" << curve.colour << "\"/>\n";
    }

    void stroke(const Curve &curve, const std::string &points) {
        svg << "<polyline points=\"" << points << "\" fill=\"none\" stroke=\"" << curve.colour << "\" stroke-width=\"1.8\" stroke-dasharray=\"" << curve.dashes
            << "\"/>\n";
    }

    /* a tick for each power of ten */
    void time_ticks(const Axis &x) {
        for (double time = y.least; time < 1.5 * y.greatest; time *= 10) {
            rule(x.from, y.place(time), x.to, y.place(time), "#dddddd");
            std::ostringstream label;
            label << (time < 1000 ? time : time / 1000) << (time < 1000 ? " µs" : " ms");
            text(x.from - 8, y.place(time) + 4, "end", 12, label.str());
        }
        double middle = (top + bottom) / 2, at_x = x.from - 62;
        text(at_x, middle, "middle", 13, "time of one call", " transform=\"rotate(-90 " + std::to_string(at_x) + " " + std::to_string(middle) + ")\"");
    }

    void size_ticks(const Axis &x, const Panel &panel) {
        for (const Row &row : *panel.rows) {
            double at = x.place(static_cast<double>(row.size));
            rule(at, top, at, bottom, "#eeeeee");
            rule(at, bottom, at, bottom + 5, "#333333");
            text(at, bottom + 20, "middle", 12, count(row.size));
        }
        text((x.from + x.to) / 2, bottom + 42, "middle", 13, panel.unit);
    }

    /* a time that is not above 0, which noise can make of a difference, has no place on the axis and is left out */
    void draw(const Curve &curve, const Axis &x, const std::vector<Row> &rows) {
        std::ostringstream points;
        for (const Row &row : rows) {
            double time = curve.time(row.times), at_x = x.place(static_cast<double>(row.size));
            if (time <= 0)
                continue;
            points << at_x << "," << y.place(time) << " ";
            mark(curve, at_x, y.place(time));
        }
        stroke(curve, points.str());
    }

    void draw(const Panel &panel, double from) {
        const std::vector<Row> &rows = *panel.rows;
        Axis x{static_cast<double>(rows.front().size) / 1.15, static_cast<double>(rows.back().size) * 1.15, from, from + width};
        text((x.from + x.to) / 2, top - 12, "middle", 14, panel.title);
        size_ticks(x, panel);
        time_ticks(x);
        rule(x.from, top, x.from, bottom, "#333333");
        rule(x.from, bottom, x.to, bottom, "#333333");
        for (const Curve &curve : curves)
            draw(curve, x, rows);
    }

    void legend() {
        static const double places[] = {90, 225, 340, 590, 760};
        for (size_t i = 0; i < curves.size(); i++) {
            std::ostringstream points;
            points << places[i] << ",60 " << places[i] + 36 << ",60";
            stroke(curves[i], points.str());
            mark(curves[i], places[i] + 18, 60);
            text(places[i] + 43, 64, "start", 13, curves[i].name);
        }
    }

    /* powers of ten about all times */
    static Axis time_axis(const std::vector<Panel> &panels) {
        double least = 1e9, greatest = 0;
        for (const Panel &panel : panels)
            for (const Row &row : *panel.rows)
                for (const Curve &curve : curves)
                    if (double time = curve.time(row.times); time > 0) {
                        least = std::min(least, time);
                        greatest = std::max(greatest, time);
                    }
        return {std::pow(10, std::floor(std::log10(least))), std::pow(10, std::ceil(std::log10(greatest))), bottom, top};
    }

  public:
    Plot(const std::string &title, const std::vector<Panel> &panels) : y(time_axis(panels)) {
        svg.precision(5);
        svg << "<svg xmlns=\"http://www.w3.org/2000/svg\" width=\"1020\" height=\"530\" viewBox=\"0 0 1020 530\" font-family=\"sans-serif\">\n"
            << "<rect width=\"1020\" height=\"530\" fill=\"white\"/>\n";
        text(510, 30, "middle", 16, title);
        legend();
        for (size_t i = 0; i < panels.size(); i++)
            draw(panels[i], left[i]);
        svg << "</svg>\n";
    }

    bool write(const std::string &file) const {
        std::ofstream stream(file);
        stream << svg.str();
        stream.close();
        return stream.good();
    }
};
