// A plain planner without proofs, to measure `study` against. It plays the same logs and prints the same bytes:
// adjacency lists, and Dijkstra's search over edges with std::priority_queue and one label for each edge.
// Like `study` it finishes every search, so that in the end each drawn edge has its label.
//
//     g++ -std=c++17 -O2 -o planner planner.cpp && ./planner < some.log
#include <array>
#include <cstddef>
#include <cstdint>
#include <cstdio>
#include <cstdlib>
#include <initializer_list>
#include <queue>
#include <string>
#include <string_view>
#include <tuple>
#include <vector>

namespace {

constexpr std::size_t MOST_BYTES = 65'000;
constexpr std::uint32_t MOST_EDGES = 1'024;
constexpr std::uint32_t MOST_LEAVING = 16;
constexpr std::uint32_t JUNCTIONS = 1'024;
constexpr std::uint32_t MOST_LENGTH = 100'000;
constexpr std::uint32_t LAST_BEARING = 359;
constexpr std::uint16_t NO_EDGE = 65'535;

// ---- the study

struct Edge {
    std::uint32_t start, end, length, leaving, arriving;
};

struct Limits {
    int s, b, h;
};

enum class Rule { Slots, Ambiguity, Turns };

struct Study {
    Limits limits{};
    bool begun = false;
    std::vector<Edge> edges;
    std::array<std::vector<std::uint16_t>, JUNCTIONS> leaving; // by junction, the edges that leave it
    std::array<bool, MOST_EDGES> shut{};

    // 0 straight, 1 bear right, 2 right, 3 sharp right, 4 bear left, 5 left, 6 sharp left
    int turn_class(const Edge &from, const Edge &to) const {
        int angle = static_cast<int>(to.leaving) - static_cast<int>(from.arriving);
        if (angle > 180) angle -= 360;
        if (angle < -179) angle += 360;
        const int size = std::abs(angle);
        if (size <= limits.s) return 0;
        const int far = size <= limits.b ? 1 : size <= limits.h ? 2 : 3;
        return angle > 0 ? far : far + 3;
    }

    // For an edge `to` that starts where `from` ends: is the way there a step, or does it go straight back?
    static bool is_step(const Edge &from, const Edge &to) { return to.end != from.start; }

    // The charge of the step from edge e to edge f.
    template <Rule rule> std::uint32_t charge(std::uint16_t e, std::uint16_t f) const {
        const Edge &from = edges[e];
        const auto &ways = leaving[from.end];
        const int turn = turn_class(from, edges[f]);
        if constexpr (rule == Rule::Turns) {
            return turn == 0 ? 0 : 1;
        } else if constexpr (rule == Rule::Ambiguity) {
            std::uint32_t others = 0;
            for (const std::uint16_t g : ways)
                if (g != f && is_step(from, edges[g]) && turn_class(from, edges[g]) == turn) others++;
            return others;
        } else {
            const auto degree = static_cast<std::uint32_t>(ways.size());
            if (turn == 0) return 1;
            if (degree <= 2) return 4;
            if (degree == 3) {
                bool way_on = false;
                for (const std::uint16_t g : ways)
                    if (is_step(from, edges[g]) && turn_class(from, edges[g]) == 0) way_on = true;
                if (!way_on) return 6;
            }
            return 5 + degree;
        }
    }
};

// ---- kinds of cost: a row of numbers, and what a charge and a length add to it

struct Distance {
    using Row = std::array<std::uint32_t, 1>;
    static void add(Row &row, std::uint32_t, std::uint32_t length) { row[0] += length; }
};

struct Ranked { // charge before distance
    using Row = std::array<std::uint32_t, 2>;
    static void add(Row &row, std::uint32_t charge, std::uint32_t length) {
        row[0] += charge;
        row[1] += length;
    }
};

struct Weighted { // 1 for a unit of length, 6 for a unit of charge
    using Row = std::array<std::uint32_t, 1>;
    static void add(Row &row, std::uint32_t charge, std::uint32_t length) { row[0] += length + 6 * charge; }
};

struct Tally { // charges of 8 or more, of 4 to 7, of 1 to 3, before distance
    using Row = std::array<std::uint32_t, 4>;
    static void add(Row &row, std::uint32_t charge, std::uint32_t length) {
        if (charge >= 8) row[0]++;
        else if (charge >= 4) row[1]++;
        else if (charge >= 1) row[2]++;
        row[3] += length;
    }
};

// ---- the search

template <class Kind> struct Label {
    typename Kind::Row row{};
    std::uint32_t edges = 0; // 0: no walk found
    std::uint16_t previous = NO_EDGE;

    // Cheaper, or as cheap with fewer edges, or both alike and from a lower edge.
    bool operator<(const Label &other) const {
        return std::tie(row, edges, previous) < std::tie(other.row, other.edges, other.previous);
    }
};

template <class Kind> struct Waiting {
    Label<Kind> label;
    std::uint16_t edge;

    // std::priority_queue gives the greatest first: turned round.
    bool operator<(const Waiting &other) const { return other.label < label; }
};

struct Route {
    std::uint32_t charge = 0, length = 0;
    std::vector<std::uint16_t> edges; // empty: no walk
};

template <Rule rule, class Kind> Route search(const Study &study, std::uint16_t first, std::uint16_t last) {
    std::vector<Label<Kind>> labels(study.edges.size());
    std::vector<bool> settled(study.edges.size());
    std::priority_queue<Waiting<Kind>> queue;
    if (!study.shut[first]) {
        Label<Kind> &label = labels[first];
        Kind::add(label.row, 0, study.edges[first].length);
        label.edges = 1;
        queue.push({label, first});
    }
    while (!queue.empty()) {
        const std::uint16_t e = queue.top().edge;
        queue.pop();
        if (settled[e]) continue;
        settled[e] = true;
        const Edge &from = study.edges[e];
        for (const std::uint16_t f : study.leaving[from.end]) {
            const Edge &to = study.edges[f];
            if (settled[f] || study.shut[f] || !Study::is_step(from, to)) continue;
            Label<Kind> found = labels[e];
            Kind::add(found.row, study.charge<rule>(e, f), to.length);
            found.edges++;
            found.previous = e;
            if (labels[f].edges == 0 || found < labels[f]) {
                labels[f] = found;
                queue.push({found, f});
            }
        }
    }
    Route route;
    if (labels[last].edges == 0) return route;
    route.edges.resize(labels[last].edges);
    std::uint16_t e = last;
    for (std::size_t at = route.edges.size(); at-- > 0; e = labels[e].previous) {
        route.edges[at] = e;
        route.length += study.edges[e].length;
        if (at > 0) route.charge += study.charge<rule>(labels[e].previous, e);
    }
    return route;
}

template <Rule rule>
Route search(const Study &study, std::string_view kind, std::uint16_t first, std::uint16_t last) {
    if (kind == "distance") return search<rule, Distance>(study, first, last);
    if (kind == "ranked") return search<rule, Ranked>(study, first, last);
    if (kind == "weighted") return search<rule, Weighted>(study, first, last);
    return search<rule, Tally>(study, first, last);
}

// ---- log lines

using Fields = std::vector<std::string_view>;

enum class Field { Number, Rule, Kind };

struct Shape {
    std::string_view word;
    std::vector<Field> rest;
};

const std::array<Shape, 6> SHAPES{{
    {"sectors", {Field::Number, Field::Number, Field::Number}},
    {"edge", {Field::Number, Field::Number, Field::Number, Field::Number, Field::Number}},
    {"close", {Field::Number}},
    {"open", {Field::Number}},
    {"measure", {Field::Number, Field::Number}},
    {"route", {Field::Rule, Field::Kind, Field::Number, Field::Number}},
}};

Fields split(std::string_view line) {
    Fields fields;
    for (;;) {
        const std::size_t tab = line.find('\t');
        fields.push_back(line.substr(0, tab));
        if (tab == std::string_view::npos) return fields;
        line.remove_prefix(tab + 1);
    }
}

bool among(std::string_view word, std::initializer_list<std::string_view> words) {
    for (const std::string_view w : words)
        if (w == word) return true;
    return false;
}

// One to six digits without needless zeros.
bool is_number(std::string_view field) {
    if (field.empty() || field.size() > 6 || (field[0] == '0' && field.size() > 1)) return false;
    for (const char c : field)
        if (c < '0' || c > '9') return false;
    return true;
}

bool fits(std::string_view field, Field wanted) {
    switch (wanted) {
    case Field::Rule: return among(field, {"slots", "ambiguity", "turns"});
    case Field::Kind: return among(field, {"distance", "ranked", "weighted", "tally"});
    default: return is_number(field);
    }
}

// The lowest wrong field, from 1; 0 where the line is sound.
std::uint32_t wrong_field(const Fields &fields, bool begun) {
    for (const Shape &shape : SHAPES) {
        if (fields[0] != shape.word || (shape.word == "sectors") == begun) continue;
        const std::size_t count = shape.rest.size() + 1;
        for (std::size_t at = 1; at < count; at++)
            if (at >= fields.size() || !fits(fields[at], shape.rest[at - 1])) return static_cast<std::uint32_t>(at + 1);
        return fields.size() > count ? static_cast<std::uint32_t>(count + 1) : 0;
    }
    return 1;
}

std::uint32_t number(std::string_view field) {
    std::uint32_t n = 0;
    for (const char c : field) n = 10 * n + static_cast<std::uint32_t>(c - '0');
    return n;
}

// ---- carrying lines out

class Player {
public:
    explicit Player(std::string &to) : out(to) {}

    void play(std::string_view line) {
        at_line++;
        const Fields fields = split(line);
        if (const std::uint32_t wrong = wrong_field(fields, study.begun)) return refuse(12, wrong, "text");
        const std::string_view word = fields[0];
        if (word == "sectors") sectors(number(fields[1]), number(fields[2]), number(fields[3]));
        else if (word == "edge")
            edge({number(fields[1]), number(fields[2]), number(fields[3]), number(fields[4]), number(fields[5])});
        else if (word == "close") set_shut(number(fields[1]), true);
        else if (word == "open") set_shut(number(fields[1]), false);
        else if (word == "measure") measure(number(fields[1]), number(fields[2]));
        else route(fields[1], fields[2], number(fields[3]), number(fields[4]));
    }

private:
    Study study;
    std::string &out;
    std::uint32_t at_line = 0;

    void put(std::uint32_t n) {
        out += '\t';
        out += std::to_string(n);
    }

    void ok() { out += "ok\n"; }

    void refuse(std::uint32_t cause, std::uint32_t detail, const char *layer) {
        out += "refused";
        put(cause);
        put(detail);
        put(at_line);
        out += '\t';
        out += layer;
        out += '\n';
    }

    bool drawn(std::uint32_t edge) const { return edge < study.edges.size(); }

    void sectors(std::uint32_t s, std::uint32_t b, std::uint32_t h) {
        if (s > 180) return refuse(1, 1, "plan");
        if (b > 180 || b < s) return refuse(1, 2, "plan");
        if (h > 180 || h < b) return refuse(1, 3, "plan");
        study.limits = {static_cast<int>(s), static_cast<int>(b), static_cast<int>(h)};
        study.begun = true;
        ok();
    }

    void edge(const Edge &e) {
        const auto count = static_cast<std::uint32_t>(study.edges.size());
        if (count >= MOST_EDGES) return refuse(2, count, "plan");
        if (e.start >= JUNCTIONS || e.start == e.end) return refuse(3, e.start, "plan");
        if (e.end >= JUNCTIONS) return refuse(3, e.end, "plan");
        if (e.length < 1 || e.length > MOST_LENGTH) return refuse(4, e.length, "plan");
        if (e.leaving > LAST_BEARING) return refuse(5, e.leaving, "plan");
        if (e.arriving > LAST_BEARING) return refuse(5, e.arriving, "plan");
        auto &ways = study.leaving[e.start];
        for (const std::uint16_t f : ways)
            if (study.edges[f].end == e.end) return refuse(6, f, "plan");
        if (ways.size() >= MOST_LEAVING) return refuse(7, e.start, "plan");
        ways.push_back(static_cast<std::uint16_t>(count));
        study.edges.push_back(e);
        out += "edge";
        put(count);
        out += '\n';
    }

    void measure(std::uint32_t edge, std::uint32_t length) {
        if (length < 1 || length > MOST_LENGTH) return refuse(4, length, "plan");
        if (!drawn(edge)) return refuse(8, edge, "plan");
        study.edges[edge].length = length;
        ok();
    }

    void set_shut(std::uint32_t edge, bool shut) {
        if (!drawn(edge)) return refuse(8, edge, "plan");
        if (study.shut[edge] == shut) return refuse(9, edge, "plan");
        study.shut[edge] = shut;
        ok();
    }

    void route(std::string_view rule, std::string_view kind, std::uint32_t first, std::uint32_t last) {
        if (!drawn(first)) return refuse(8, first, "question");
        if (!drawn(last)) return refuse(8, last, "question");
        const auto a = static_cast<std::uint16_t>(first);
        const auto z = static_cast<std::uint16_t>(last);
        const Route found = rule == "slots"       ? search<Rule::Slots>(study, kind, a, z)
                            : rule == "ambiguity" ? search<Rule::Ambiguity>(study, kind, a, z)
                                                  : search<Rule::Turns>(study, kind, a, z);
        if (found.edges.empty()) return refuse(11, last, "question");
        out += "route";
        put(found.charge);
        put(found.length);
        put(static_cast<std::uint32_t>(found.edges.size()));
        for (const std::uint16_t e : found.edges) put(e);
        out += '\n';
    }
};

} // namespace

int main() {
    std::string log(MOST_BYTES + 1, '\0');
    log.resize(std::fread(log.data(), 1, log.size(), stdin));
    std::string out;
    if (log.size() > MOST_BYTES) {
        out = "refused\t13\t0\t0\ttext\n";
    } else {
        Player player(out);
        for (std::string_view rest = log; !rest.empty();) {
            const std::size_t end = rest.find('\n');
            player.play(rest.substr(0, end));
            rest.remove_prefix(end == std::string_view::npos ? rest.size() : end + 1);
        }
    }
    std::fwrite(out.data(), 1, out.size(), stdout);
    return std::fflush(stdout) == 0 ? EXIT_SUCCESS : EXIT_FAILURE;
}
