// Counts the spreads of the steps that a budget is asked of, from the written rules alone: minimal automata with a table of letters, and the
// pairs and sets of their states. It shares nothing with the program. The words of a formula, its steps and their spread are those of
// docs/FORMATS.md, of crates/auto_core/specs/Spread.antt and of crates/formula_auto/specs/Step.antt, the formulas of the rules those of
// crates/rule_formula/specs/Trees.antt, the lists of steps those of crates/mate_plan/specs/Plan.antt and crates/claim_plan/specs/CheckPlan.antt, and
// the formulas of distances those of crates/first_distances/specs/RayFormula.antt and crates/period_sets/specs/Question.antt. The plan of a crowd is
// that of crates/line_plan/specs/Plan.antt, with the formulas of Atoms.antt, Rules.antt and Paths.antt in crates/line_formula/specs.
//
// usage: spreads decide N MOST < TEXT    the plan of N moves of a position text
//        spreads describe N MOST < TEXT  this plan, and the formulas of the distances of first moves behind it
//        spreads crowd N MOST < TEXT     the plan of N moves of a crowd's text
//        spreads check FILE MOST         the plan of the claim of a strategy file, of either version
//        spreads arith MOST < LINE       the steps of a formula
//
// Writes a line for each record, the spread and the name of the step: it is the first step past each budget from the record before up to this
// spread less 1. Last comes `end` and the answer, or `stopped` where a step has more than MOST classes of words.
#include <algorithm>
#include <cstdint>
#include <cstdlib>
#include <fstream>
#include <functional>
#include <iostream>
#include <iterator>
#include <map>
#include <sstream>
#include <string>
#include <unordered_map>
#include <vector>

using std::string;
using std::vector;
typedef vector<int> Ints;

// An automaton over the words of its variables, which ascend: bit i of a letter belongs to variable i. Letters are of one kind where they lead to
// the same states, and rows have a place for each kind. It has no state for the empty word, since a word has a letter at least, the sign. After
// `reduced` its states are the residuals of the words.
struct Auto {
    Ints vars, kinds, first, next;
    vector<char> accepts;
    int letters() const { return 1 << vars.size(); }
    int states() const { return accepts.size(); }
    int count_kinds() const { return first.size(); }
    int after_kind(int state, int kind) const { return next[size_t(state) * count_kinds() + kind]; }
    int after(int state, int letter) const { return after_kind(state, kinds[letter]); }
    int first_of(int letter) const { return first[kinds[letter]]; }
    bool is_empty() const { return std::count(accepts.begin(), accepts.end(), 1) == 0; }
};

// For each letter the number of its key, keys being numbered as they appear, and the key of each number.
template <class Key>
struct Kinds {
    Ints of;
    vector<Key> keys;
};

template <class Key, class KeyOf>
Kinds<Key> kinds_by(int letters, KeyOf key_of) {
    Kinds<Key> made;
    std::map<Key, int> numbers;
    for (int letter = 0; letter < letters; letter++) {
        Key key = key_of(letter);
        auto found = numbers.emplace(key, made.keys.size());
        if (found.second) made.keys.push_back(key);
        made.of.push_back(found.first->second);
    }
    return made;
}

int most;
string part;
int at;
long record;
// The spread of the last step.
long counted;

// A step with this many classes of words.
void count_step(long spread) {
    at++;
    counted = spread;
    if (spread > record) {
        record = spread;
        std::cout << spread << " " << part << at << "\n";
    }
}

void grow_to(size_t spread) {
    if (spread <= size_t(most)) return;
    std::cout << "stopped\n";
    exit(0);
}

// The automaton whose states are numbered as `key`s of words appear: what the first letter leads to, and what a further one leads on to, for
// letters of each kind.
template <class Key, class Kind, class First, class Next, class Accepts>
Auto explored(const Ints &vars, const Kinds<Kind> &kinds, First first, Next next, Accepts accepts) {
    Auto made;
    made.vars = vars;
    made.kinds = kinds.of;
    std::map<Key, int> numbers;
    vector<Key> keys;
    auto number = [&](const Key &key) {
        auto found = numbers.emplace(key, keys.size());
        if (found.second) {
            keys.push_back(key);
            made.accepts.push_back(accepts(key));
            grow_to(keys.size());
        }
        return found.first->second;
    };
    for (const Kind &kind : kinds.keys) made.first.push_back(number(first(kind)));
    for (size_t done = 0; done < keys.size(); done++) {
        Key key = keys[done];
        for (const Kind &kind : kinds.keys) made.next.push_back(number(next(key, kind)));
    }
    return made;
}

// The same automaton, with letters of one kind wherever they lead to the same states.
Auto merged(const Auto &a) {
    int states = a.states();
    auto column = [&](int kind) {
        Ints made = {a.first[kind]};
        for (int state = 0; state < states; state++) made.push_back(a.after_kind(state, kind));
        return made;
    };
    Kinds<Ints> columns = kinds_by<Ints>(a.count_kinds(), column);
    Auto made;
    made.vars = a.vars;
    made.accepts = a.accepts;
    for (int kind : a.kinds) made.kinds.push_back(columns.of[kind]);
    for (const Ints &key : columns.keys) made.first.push_back(key[0]);
    for (int state = 0; state < states; state++)
        for (const Ints &key : columns.keys) made.next.push_back(key[state + 1]);
    return made;
}

// The same words, with a state for each residual (Moore): states are parted by acceptance, and then by where their rows lead, until none is.
Auto reduced(const Auto &a) {
    int kinds = a.count_kinds(), count = a.states(), classes = 0;
    Ints of(a.accepts.begin(), a.accepts.end());
    for (int before = -1; classes != before;) {
        before = classes;
        std::unordered_map<uint64_t, Ints> members;
        Ints now(count);
        classes = 0;
        for (int state = 0; state < count; state++) {
            const int *row = &a.next[size_t(state) * kinds];
            uint64_t sum = of[state];
            for (int kind = 0; kind < kinds; kind++) sum = sum * 6364136223846793005u + of[row[kind]] + 1;
            auto alike = [&](int other) {
                const int *its = &a.next[size_t(other) * kinds];
                return of[other] == of[state] && std::equal(row, row + kinds, its, [&](int x, int y) { return of[x] == of[y]; });
            };
            Ints &bucket = members[sum];
            auto twin = std::find_if(bucket.begin(), bucket.end(), alike);
            now[state] = twin == bucket.end() ? classes++ : now[*twin];
            if (twin == bucket.end()) bucket.push_back(state);
        }
        of = now;
    }
    Auto made;
    made.vars = a.vars;
    made.kinds = a.kinds;
    for (int state : a.first) made.first.push_back(of[state]);
    made.accepts.resize(classes);
    made.next.resize(size_t(classes) * kinds);
    for (int state = 0; state < count; state++) {
        made.accepts[of[state]] = a.accepts[state];
        for (int kind = 0; kind < kinds; kind++) made.next[size_t(of[state]) * kinds + kind] = of[a.after_kind(state, kind)];
    }
    return merged(made);
}

Ints sorted(Ints vars) {
    std::sort(vars.begin(), vars.end());
    vars.erase(std::unique(vars.begin(), vars.end()), vars.end());
    return vars;
}

int place(const Ints &vars, int var) { return std::find(vars.begin(), vars.end(), var) - vars.begin(); }

// For each letter over some variables the letter over others, each of which is one of them.
Ints parts(const Ints &vars, const Ints &others) {
    Ints made(1 << vars.size());
    for (size_t letter = 0; letter < made.size(); letter++)
        for (size_t i = 0; i < others.size(); i++) made[letter] |= (letter >> place(vars, others[i]) & 1) << i;
    return made;
}

// Some coefficients times variables are equal to the bound, or at most it. A prefix of a word is known by the sum so far; past `far` no letters bring it back.
Auto lin(const vector<std::pair<int, int>> &terms, bool equal, int bound) {
    Ints vars;
    int far = std::abs(bound) + 1;
    for (auto &term : terms) vars.push_back(term.second), far += std::abs(term.first);
    vars = sorted(vars);
    auto sum = [&](int letter) {
        int made = 0;
        for (auto &term : terms) made += term.first * (letter >> place(vars, term.second) & 1);
        return made;
    };
    auto first = [&](int more) { return -more; };
    auto next = [&](int so_far, int more) { return std::max(-far, std::min(far, 2 * so_far + more)); };
    auto accepts = [&](int so_far) { return equal ? so_far == bound : so_far <= bound; };
    return reduced(explored<int>(vars, kinds_by<int>(1 << vars.size(), sum), first, next, accepts));
}

// The variable has this value. A state is how many digits are read, the sign, which may be repeated, being one; or -1.
Auto value(int var, int64_t x) {
    Ints digits;
    for (digits.push_back(x & 1); x != 0 && x != -1; digits.push_back(x & 1)) x >>= 1;
    std::reverse(digits.begin(), digits.end());
    int count = digits.size();
    auto first = [&](int digit) { return digit == digits[0] ? 1 : -1; };
    auto next = [&](int read, int digit) { return read == 1 && digit == digits[0] ? 1 : read > 0 && read < count && digit == digits[read] ? read + 1 : -1; };
    auto kinds = kinds_by<int>(2, [](int letter) { return letter; });
    return reduced(explored<int>({var}, kinds, first, next, [&](int read) { return read == count; }));
}

// The tuple of these variables, which may be fewer than the tracks, is in the set.
Auto among(const Auto &set, const Ints &to) {
    Ints vars = sorted(to), letters = parts(vars, to);
    auto kinds = kinds_by<int>(letters.size(), [&](int letter) { return set.kinds[letters[letter]]; });
    auto first = [&](int kind) { return set.first[kind]; };
    auto next = [&](int state, int kind) { return set.after_kind(state, kind); };
    return reduced(explored<int>(vars, kinds, first, next, [&](int state) { return bool(set.accepts[state]); }));
}

Auto no(Auto a) {
    for (char &accepts : a.accepts) accepts = !accepts;
    return a;
}

// The step And or Or: words are alike where both parts have the same residuals.
Auto joined(const Auto &a, const Auto &b, bool both) {
    typedef std::pair<int, int> Pair;
    Ints all = a.vars;
    all.insert(all.end(), b.vars.begin(), b.vars.end());
    Ints vars = sorted(all), of_a = parts(vars, a.vars), of_b = parts(vars, b.vars);
    auto kinds = kinds_by<Pair>(of_a.size(), [&](int letter) { return Pair(a.kinds[of_a[letter]], b.kinds[of_b[letter]]); });
    auto first = [&](Pair kind) { return Pair(a.first[kind.first], b.first[kind.second]); };
    auto next = [&](Pair at, Pair kind) { return Pair(a.after_kind(at.first, kind.first), b.after_kind(at.second, kind.second)); };
    auto accepts = [&](Pair at) { return both ? a.accepts[at.first] && b.accepts[at.second] : a.accepts[at.first] || b.accepts[at.second]; };
    Auto made = explored<Pair>(vars, kinds, first, next, accepts);
    count_step(made.states());
    return reduced(made);
}

Auto both(const Auto &a, const Auto &b) { return joined(a, b, true); }
Auto either(const Auto &a, const Auto &b) { return joined(a, b, false); }

// The step Ex: words are alike where the words that are they without the variable, with the first letter repeated, have the same residuals.
Auto some(int var, const Auto &a) {
    Ints vars = a.vars;
    vars.erase(std::remove(vars.begin(), vars.end(), var), vars.end());
    Ints without = parts(a.vars, vars);
    vector<Ints> lifts(1 << vars.size());
    for (int letter = 0; letter < a.letters(); letter++) lifts[without[letter]].push_back(a.kinds[letter]);
    auto kinds = kinds_by<Ints>(lifts.size(), [&](int letter) { return sorted(lifts[letter]); });
    auto next = [&](const Ints &from, const Ints &kind) {
        Ints made;
        for (int state : from)
            for (int lift : kind) made.push_back(a.after_kind(state, lift));
        return sorted(made);
    };
    auto first = [&](const Ints &kind) {
        Ints made, more;
        for (int lift : kind) more.push_back(a.first[lift]);
        while (made != more) {
            made = sorted(more);
            Ints on = next(made, kind);
            more = made;
            more.insert(more.end(), on.begin(), on.end());
            more = sorted(more);
        }
        return made;
    };
    auto accepts = [&](const Ints &states) { return std::any_of(states.begin(), states.end(), [&](int state) { return a.accepts[state]; }); };
    Auto made = explored<Ints>(vars, kinds, first, next, accepts);
    count_step(made.states());
    return reduced(made);
}

// Whether the set has the tuple.
bool has(const Auto &set, const vector<int64_t> &tuple) {
    int state = 0;
    for (int digit = 64; digit >= 0; digit--) {
        int letter = 0;
        for (size_t i = 0; i < tuple.size(); i++) letter |= int(tuple[i] >> std::min(digit, 63) & 1) << i;
        state = digit == 64 ? set.first_of(letter) : set.after(state, letter);
    }
    return set.accepts[state];
}

// The game.
struct Ray { int dx, dy; bool far; };
struct Man { int side, kind; bool live; int64_t x, y; };
struct Seat { int x, y; };
enum { WHITE, BLACK, KING = 0, PAWN = 5, U = 16, V = 17 };
const string SIDES = "WB", KINDS = "KQRBNPCAZH";

vector<Ray> rays_of(const Man &man) {
    vector<Ray> made;
    auto add = [&](bool far, vector<std::pair<int, int>> steps) { for (auto s : steps) made.push_back({s.first, s.second, far}); };
    int forward = man.side == WHITE ? 1 : -1;
    char kind = KINDS[man.kind];
    if (kind == 'K' || kind == 'Q' || kind == 'Z') add(kind != 'K', {{1, 0}, {1, 1}, {0, 1}, {-1, 1}, {-1, 0}, {-1, -1}, {0, -1}, {1, -1}});
    if (kind == 'R' || kind == 'C') add(true, {{1, 0}, {0, 1}, {-1, 0}, {0, -1}});
    if (kind == 'B' || kind == 'A') add(true, {{1, 1}, {-1, 1}, {-1, -1}, {1, -1}});
    if (kind == 'P') add(false, {{0, forward}, {-1, forward}, {1, forward}});
    if (string("NCAZH").find(kind) != string::npos) add(kind == 'H', {{2, 1}, {1, 2}, {-1, 2}, {-2, 1}, {-2, -1}, {-1, -2}, {1, -2}, {2, -1}});
    return made;
}

struct Option { int man; Ray ray; int taken; };
struct Bearing { int man; Ray ray; int king; };
// A set for each mask; where there is none it is empty.
typedef std::map<int, Auto> Level;

vector<Man> men;
int turn, winner, moves;

// Men are numbered from 1.
const Man &man(int k) { return men[k - 1]; }
int count_men() { return men.size(); }
bool is_live(long mask, int k) { return mask >> (k - 1) & 1; }
Seat own(int k) { return {2 * k - 2, 2 * k - 1}; }
// A further square, by as much of it as the ray changes.
Seat spare(Ray r, int k) { return {r.dx ? U : own(k).x, r.dy ? V : own(k).y}; }

long first_mask() {
    long mask = 0;
    for (int k = 1; k <= count_men(); k++) mask |= long(man(k).live) << (k - 1);
    return mask;
}

int king_of(int side) {
    for (int k = 1; k <= count_men(); k++)
        if (man(k).side == side && man(k).kind == KING) return k;
    return 0;
}

// The masks ascend: the live men's subsets with both kings.
Ints masks() {
    int kings = 1 << (king_of(WHITE) - 1) | 1 << (king_of(BLACK) - 1);
    Ints made;
    for (int mask = 0; mask <= first_mask(); mask++)
        if ((mask & ~first_mask()) == 0 && (mask & kings) == kings) made.push_back(mask);
    return made;
}

long without(long mask, int k) { return k ? mask & ~(1L << (k - 1)) : mask; }

// The variables of the mask's men, each on his seat; man 0 is none.
Ints seats(int mask, int k = 0, Seat his = {0, 0}, int other = 0, Seat its = {0, 0}) {
    Ints made;
    for (int j = 1; j <= count_men(); j++)
        if (is_live(mask, j)) {
            Seat seat = j == k ? his : j == other ? its : own(j);
            made.insert(made.end(), {seat.x, seat.y});
        }
    return made;
}

vector<Option> options_of(int side, long mask) {
    vector<Option> made;
    for (int k = 1; k <= count_men(); k++) {
        if (!is_live(mask, k) || man(k).side != side) continue;
        vector<Ray> rays = rays_of(man(k));
        for (size_t n = 0; n < rays.size(); n++) {
            if (man(k).kind != PAWN || n == 0) made.push_back({k, rays[n], 0});
            for (int t = 1; t <= count_men(); t++)
                if (is_live(mask, t) && man(t).side != side && man(t).kind != KING && (man(k).kind != PAWN || n > 0)) made.push_back({k, rays[n], t});
        }
    }
    return made;
}

vector<Bearing> bearings_of(int side, long mask) {
    vector<Bearing> made;
    for (int k = 1; k <= count_men(); k++) {
        if (!is_live(mask, k) || man(k).side != side) continue;
        vector<Ray> rays = rays_of(man(k));
        for (size_t n = man(k).kind == PAWN; n < rays.size(); n++) made.push_back({k, rays[n], king_of(1 - side)});
    }
    return made;
}

// Formulas of the rules.
Auto minus(int x, int y, bool equal, int bound) { return lin({{1, x}, {-1, y}}, equal, bound); }

Auto line(Ray r, Seat a, Seat b) {
    if (r.dx == 0) return minus(b.x, a.x, true, 0);
    if (r.dy == 0) return minus(b.y, a.y, true, 0);
    if (r.dx == r.dy) return lin({{1, b.x}, {-1, a.x}, {-1, b.y}, {1, a.y}}, true, 0);
    if (r.dx == -r.dy) return lin({{1, b.x}, {-1, a.x}, {1, b.y}, {-1, a.y}}, true, 0);
    return lin({{r.dy, b.x}, {-r.dy, a.x}, {-r.dx, b.y}, {r.dx, a.y}}, true, 0);
}

// b is ahead of a along the ray, by more than -bound.
Auto ahead(Ray r, Seat a, Seat b, int bound) {
    bool by_x = std::abs(r.dx) == 1;
    int from = by_x ? a.x : a.y, to = by_x ? b.x : b.y;
    return (by_x ? r.dx : r.dy) > 0 ? minus(from, to, false, bound) : minus(to, from, false, bound);
}

// A comparison of a variable with itself is left out.
vector<Auto> ray_atoms(Ray r, Seat a, Seat b) {
    vector<Auto> made;
    if (!r.far && a.x != b.x) made.push_back(minus(b.x, a.x, true, r.dx));
    if (!r.far && a.y != b.y) made.push_back(minus(b.y, a.y, true, r.dy));
    if (r.far && !(r.dx == 0 && a.x == b.x) && !(r.dy == 0 && a.y == b.y)) made.push_back(line(r, a, b));
    if (r.far) made.push_back(ahead(r, a, b, -1));
    return made;
}

// z is on the way from a to b, itself included where the last bound is 0.
Auto on(Ray r, Seat a, Seat b, Seat z, int bound) {
    if (!r.far) return both(minus(z.x, b.x, true, 0), minus(z.y, b.y, true, 0));
    Auto made = both(line(r, a, z), ahead(r, a, z, -1));
    return both(made, ahead(r, z, b, bound));
}

// And of the ray's atoms, and of each other man's not being on the way.
Auto gone(Auto made, Ray r, Seat a, Seat b, int mask, int one, int other, bool through, int bound) {
    for (const Auto &atom : ray_atoms(r, a, b)) made = both(made, atom);
    for (int k = 1; through && k <= count_men(); k++)
        if (is_live(mask, k) && k != one && k != other) {
            Auto hit = on(r, a, b, own(k), bound);
            made = both(made, no(hit));
        }
    return made;
}

Auto swept(Auto made, Ray r) {
    if (r.dy) made = some(V, made);
    if (r.dx) made = some(U, made);
    return made;
}

Auto image(const Option &o, int mask, const Auto &from) {
    Seat old = spare(o.ray, o.man);
    return swept(gone(among(from, seats(mask, o.man, old, o.taken, own(o.man))), o.ray, old, own(o.man), mask, o.man, o.taken, true, 0), o.ray);
}

Auto pre(const Option &o, int mask, const Auto &from, const Auto &into) {
    Seat to = o.taken ? own(o.taken) : spare(o.ray, o.man);
    Auto made = both(among(from, seats(mask)), among(into, seats(without(mask, o.taken), o.man, to)));
    made = gone(made, o.ray, own(o.man), to, mask, o.man, o.taken, true, 0);
    return o.taken ? made : swept(made, o.ray);
}

Auto bear(const Bearing &b, int mask, const Auto &set) {
    return gone(among(set, seats(mask)), b.ray, own(b.man), own(b.king), mask, b.man, b.king, b.ray.far, -1);
}

Auto twins(int a, int b, int mask, const Auto &set) {
    Auto made = both(among(set, seats(mask)), minus(own(a).x, own(b).x, true, 0));
    return both(made, minus(own(a).y, own(b).y, true, 0));
}

// Lists of steps. The empty set is an automaton without states: no step is asked of it.
Auto nothing() { return Auto(); }

void begin(int ply, int mask, const string &name) {
    part = "moves " + std::to_string(moves) + " ply " + std::to_string(ply) + " men " + std::to_string(mask) + " part " + name + " at ";
    at = 0;
}

// The set, or nothing where it is empty.
Auto or_nothing(const Auto &set) { return set.is_empty() ? nothing() : set; }

Auto get(const Level &level, int mask) {
    auto found = level.find(mask);
    return found == level.end() ? nothing() : or_nothing(found->second);
}

void unite(Auto &so_far, const Auto &next) {
    if (!next.is_empty()) so_far = so_far.is_empty() ? next : or_nothing(either(so_far, next));
}

Auto less(const Auto &a, const Auto &b) { return a.is_empty() || b.is_empty() ? a : or_nothing(both(a, no(b))); }

vector<int64_t> first_tuple() {
    vector<int64_t> made;
    for (const Man &m : men)
        if (m.live) made.insert(made.end(), {m.x, m.y});
    return made;
}

Auto point() {
    begin(0, first_mask(), "point");
    vector<int64_t> tuple = first_tuple();
    Ints vars = seats(first_mask());
    Auto made = value(vars[0], tuple[0]);
    for (size_t i = 1; i < tuple.size(); i++) made = both(made, value(vars[i], tuple[i]));
    return made;
}

// What the side's moves reach at a ply from what there is before it.
Level reached(int side, int ply, const Level &before) {
    Level made;
    for (int to : masks()) {
        begin(ply, to, "image");
        Auto set = nothing();
        for (int mask : masks()) {
            Auto from = get(before, mask);
            if (from.is_empty()) continue;
            for (const Option &o : options_of(side, mask))
                if (without(mask, o.taken) == to) unite(set, or_nothing(image(o, mask, from)));
        }
        begin(ply, to, "safe");
        for (const Bearing &b : bearings_of(1 - side, to))
            if (!set.is_empty()) {
                Auto bears = bear(b, to, set);
                set = or_nothing(both(set, no(bears)));
            }
        made[to] = set;
    }
    return made;
}

// From where in the set a move of the side leads into the level.
Auto leading(int side, int ply, int mask, const string &name, const Auto &from, const Level &into) {
    begin(ply, mask, name);
    Auto made = nothing();
    for (const Option &o : options_of(side, mask)) {
        Auto target = get(into, without(mask, o.taken));
        if (!from.is_empty() && !target.is_empty()) unite(made, or_nothing(pre(o, mask, from, target)));
    }
    return made;
}

// Where the loser is in check.
Auto checked(int ply, int mask, const Auto &set) {
    begin(ply, mask, "check");
    Auto made = nothing();
    for (const Bearing &b : bearings_of(winner, mask))
        if (!set.is_empty()) unite(made, or_nothing(bear(b, mask, set)));
    return made;
}

Auto difference(int ply, int mask, const string &name, const Auto &a, const Auto &b) {
    begin(ply, mask, name);
    return less(a, b);
}

// What is kept at the ply after the one that was gone through last.
Level kept_next;

bool decide() {
    int last = turn == winner ? 2 * moves : 2 * moves + 1;
    if (last == 0) return false;
    vector<Level> reach(last + 1);
    reach[0][first_mask()] = point();
    for (int ply = 0; ply < last; ply++) reach[ply + 1] = reached(ply % 2 ? 1 - turn : turn, ply + 1, reach[ply]);
    Level kept;
    for (int ply = last - 1; ply >= 0; ply--) {
        Level now, rests;
        int side = ply % 2 ? 1 - turn : turn;
        if (side == winner) {
            for (int mask : masks()) now[mask] = leading(side, ply, mask, "win", get(reach[ply], mask), kept);
        } else {
            for (int mask : masks()) rests[mask] = difference(ply + 1, mask, "rest", get(reach[ply + 1], mask), get(kept, mask));
            for (int mask : masks()) {
                Auto from = get(reach[ply], mask);
                if (from.is_empty()) continue;
                Auto escape = leading(side, ply, mask, "escape", from, rests);
                Auto calm = difference(ply, mask, "calm", from, escape);
                Auto check = checked(ply, mask, calm);
                Auto quiet = difference(ply, mask, "quiet", calm, check);
                Auto lost = check, reply = leading(side, ply, mask, "reply", quiet, reach[ply + 1]);
                begin(ply, mask, "lost");
                unite(lost, reply);
                now[mask] = lost;
            }
        }
        kept_next = kept;
        kept = now;
    }
    Auto set = get(kept, first_mask());
    return !set.is_empty() && has(set, first_tuple());
}

// Distances. The variable of the distance, a further one, and those of the square that the man comes from.
enum { T = 18, MORE = 19, FROM_X = 20, FROM_Y = 21, MOST_PERIOD = 60 };

// The set has what the mask's men are over, also where it is empty.
Auto whole(const Level &level, int mask) {
    Auto set = get(level, mask);
    if (!set.is_empty()) return set;
    Ints vars = seats(mask);
    auto kinds = kinds_by<int>(1 << vars.size(), [](int) { return 0; });
    return reduced(explored<int>(vars, kinds, [](int) { return 0; }, [](int, int) { return 0; }, [](int) { return false; }));
}

// Where man i has gone along the ray, and the others stand where they do, the position is in the set.
Auto line_of(int i, Ray r, int mask) {
    Auto made = among(whole(kept_next, mask), seats(mask));
    for (int k = 1; k <= count_men(); k++)
        if (is_live(mask, k) && k != i) {
            made = both(made, value(own(k).x, man(k).x));
            made = both(made, value(own(k).y, man(k).y));
            made = some(own(k).y, some(own(k).x, made));
        }
    auto gone_from = [](int var, int d, int from) {
        vector<std::pair<int, int>> terms = {{1, var}};
        if (d) terms.push_back({-d, T});
        terms.push_back({-1, from});
        return lin(terms, true, 0);
    };
    made = both(made, gone_from(own(i).x, r.dx, FROM_X));
    made = both(made, value(FROM_X, man(i).x));
    made = both(made, gone_from(own(i).y, r.dy, FROM_Y));
    made = both(made, value(FROM_Y, man(i).y));
    made = both(made, lin({{-1, T}}, false, -1));
    return some(own(i).x, some(own(i).y, some(FROM_X, some(FROM_Y, made))));
}

Auto distances_of(int i, Ray r) {
    Auto made = line_of(i, r, first_mask());
    for (int t = 1; t <= count_men(); t++)
        if (is_live(first_mask(), t) && man(t).side != turn && man(t).kind != KING) {
            Auto next = line_of(i, r, without(first_mask(), t));
            made = either(made, next);
        }
    return made;
}

// The positive numbers t at which one of t and t + q is in the set and the other is not.
Auto differing(const Auto &set, int q) {
    auto later = [&]() {
        Auto gap = minus(MORE, T, true, q);
        return some(MORE, both(gap, among(set, {MORE})));
    };
    Auto here = set, there = later();
    Auto goes = both(here, no(there));
    there = later();
    Auto comes = both(no(here), there);
    Auto either_way = either(goes, comes);
    return both(lin({{-1, T}}, false, -1), either_way);
}

// Whether there are finitely many positive numbers in the set: behind a digit 1 no state that leads on to acceptance leads back to itself.
bool is_finite(const Auto &set) {
    int count = set.states();
    vector<Ints> reach(count);
    std::function<void(int, Ints &)> go = [&](int state, Ints &seen) {
        for (int letter = 0; letter < 2; letter++) {
            int to = set.after(state, letter);
            if (std::find(seen.begin(), seen.end(), to) == seen.end()) seen.push_back(to), go(to, seen);
        }
    };
    for (int state = 0; state < count; state++) go(state, reach[state]);
    auto leads = [&](int from, int to) { return std::find(reach[from].begin(), reach[from].end(), to) != reach[from].end(); };
    auto accepts = [&](int from) { return std::any_of(reach[from].begin(), reach[from].end(), [&](int to) { return set.accepts[to]; }); };
    int zero = set.first_of(0), one = set.after(zero, 1);
    for (int state = 0; state < count; state++)
        if ((state == one || leads(one, state)) && leads(state, state) && accepts(state)) return false;
    return true;
}

// For each ray along which the winner has a first move that mates in time: the steps of its distances, and of the periods that are tried.
void describe() {
    for (int i = 1; i <= count_men(); i++) {
        if (!man(i).live || man(i).side != winner) continue;
        vector<Ray> rays = rays_of(man(i));
        for (size_t n = 0; n < rays.size(); n++) {
            long before = record;
            record = 1L << 60;
            bool none = distances_of(i, rays[n]).is_empty();
            record = before;
            if (none) continue;
            string ray = "describe man " + std::to_string(i) + " ray " + std::to_string(n);
            part = ray + " line ";
            at = 0;
            Auto set = distances_of(i, rays[n]);
            part = ray + " period ";
            at = 0;
            for (int q = 1; q <= MOST_PERIOD; q++)
                if (is_finite(differing(set, q))) break;
        }
    }
}

// Claims. A rule that is not kept ends the list.
void fails(int ply, int mask, const string &rule) {
    std::cout << "end file not kept at ply " << ply << " men " << mask << " rule " << rule << "\n";
    exit(0);
}

void check(std::map<int, Level> claimed) {
    int begun = turn == winner ? 1 : 0, last = turn == winner ? 2 * moves - 1 : 2 * moves, loser = 1 - winner;
    for (int ply = begun; ply <= last; ply += 2)
        for (int mask : masks()) {
            Auto whole = claimed[ply][mask];
            for (int letter = 0; letter < whole.letters(); letter++)
                if (whole.first_of(letter) != whole.after(whole.first_of(letter), letter)) fails(ply, mask, "sign");
            Auto set = or_nothing(whole);
            begin(ply, mask, "same");
            for (int a = 1; a <= count_men(); a++)
                for (int b = a + 1; b <= count_men(); b++)
                    if (is_live(mask, a) && is_live(mask, b) && !set.is_empty() && !twins(a, b, mask, set).is_empty()) fails(ply, mask, "same");
            begin(ply, mask, "guard");
            for (const Bearing &b : bearings_of(loser, mask))
                if (!set.is_empty() && !bear(b, mask, set).is_empty()) fails(ply, mask, "guard");
        }
    if (turn == winner) {
        if (moves == 0) fails(0, first_mask(), "first");
        Auto start = point();
        Auto first = leading(winner, 0, first_mask(), "first", start, claimed[1]);
        if (first.is_empty()) fails(0, first_mask(), "first");
    } else if (!has(claimed[0][first_mask()], first_tuple())) {
        fails(0, first_mask(), "first");
    }
    for (int ply = begun; ply <= last; ply += 2) {
        Level replied = reached(loser, ply + 1, claimed[ply]);
        for (int mask : masks()) {
            Auto from = get(replied, mask);
            Auto answer = ply == last ? nothing() : leading(winner, ply + 1, mask, "answer", from, claimed[ply + 2]);
            if (!difference(ply + 1, mask, "left", from, answer).is_empty()) fails(ply + 1, mask, "left");
        }
        for (int mask : masks()) {
            Auto set = get(claimed[ply], mask);
            Auto quiet = difference(ply, mask, "quiet", set, checked(ply, mask, set));
            Auto reply = leading(loser, ply, mask, "reply", quiet, replied);
            if (!difference(ply, mask, "stale", quiet, reply).is_empty()) fails(ply, mask, "stale");
        }
    }
}

// The plan of a crowd. A path is the moves made so far, first one first; variable n is the distance of move n, counted from 0, and HELD is a sum's constant.
struct Leg { int man; Ray ray; };
struct Path { vector<Leg> legs; long mask; int turn; };
// A weighted distance between two men, to the right and upwards.
struct Gap { int right, up, from, to; };
typedef vector<std::pair<int, int>> Terms;
enum { HELD = 16 };

Path after(Path path, const Option &o) {
    path.legs.push_back({o.man, o.ray});
    return {path.legs, without(path.mask, o.taken), 1 - path.turn};
}

// How a step of the leg moves a man.
int step_x(int k, const Leg &leg) { return leg.man == k ? leg.ray.dx : 0; }
int step_y(int k, const Leg &leg) { return leg.man == k ? leg.ray.dy : 0; }

// A captured man has the square 0 0.
int64_t constant(Gap g) { return g.right * (man(g.to).x - man(g.from).x) + g.up * (man(g.to).y - man(g.from).y); }

Terms terms(Gap g, const vector<Leg> &legs) {
    Terms made;
    for (size_t n = 0; n < legs.size(); n++) {
        int weight = g.right * (step_x(g.to, legs[n]) - step_x(g.from, legs[n])) + g.up * (step_y(g.to, legs[n]) - step_y(g.from, legs[n]));
        if (weight) made.push_back({weight, n});
    }
    return made;
}

// A sum is needed at many steps: what was made of it is kept, with the spreads of its two steps.
struct Sum { Auto set; long meet, project; };
std::map<std::pair<std::pair<int64_t, Terms>, std::pair<bool, int>>, Sum> sums;

Auto sum(int64_t constant, Terms terms, bool equal, int bound) {
    terms.push_back({1, HELD});
    auto found = sums.find({{constant, terms}, {equal, bound}});
    if (found != sums.end()) {
        count_step(found->second.meet);
        count_step(found->second.project);
        return found->second.set;
    }
    Auto meet = both(value(HELD, constant), lin(terms, equal, bound));
    long first = counted;
    Auto made = some(HELD, meet);
    sums[{{constant, terms}, {equal, bound}}] = {made, first, counted};
    return made;
}

Auto gap(const vector<Leg> &legs, Gap g, bool equal, int bound) { return sum(constant(g), terms(g, legs), equal, bound); }

Gap across(int a, int b) { return {1, 0, a, b}; }
Gap upward(int a, int b) { return {0, 1, a, b}; }
Gap measure(Ray r, int a, int b) { return std::abs(r.dx) == 1 ? Gap{r.dx, 0, a, b} : Gap{0, r.dy, a, b}; }
Gap opposite(Gap g) { return {-g.right, -g.up, g.from, g.to}; }

// b is on the line through a, and ahead of him.
Auto on_line(const vector<Leg> &legs, Ray r, int a, int b) { return gap(legs, {r.dy, -r.dx, a, b}, true, 0); }
Auto in_front(const vector<Leg> &legs, Ray r, int a, int b) { return gap(legs, opposite(measure(r, a, b)), false, -1); }

Auto sighted(const vector<Leg> &legs, Ray r, int a, int b) {
    Auto made = on_line(legs, r, a, b), next = in_front(legs, r, a, b);
    return both(made, next);
}

Auto apart(const vector<Leg> &legs, int a, int b, int x, int y) {
    Auto made = gap(legs, across(a, b), true, x), next = gap(legs, upward(a, b), true, y);
    return both(made, next);
}

// Man k is on the way of the path's last move, its end included.
Auto on_way(const Path &next, int k) {
    vector<Leg> legs = next.legs;
    Leg leg = legs.back();
    if (!leg.ray.far) return apart(legs, leg.man, k, 0, 0);
    legs.pop_back();
    Auto made = sighted(legs, leg.ray, leg.man, k);
    Gap length = measure(leg.ray, leg.man, k);
    Terms far = terms(length, legs);
    far.push_back({-1, int(legs.size())});
    Auto reached = sum(constant(length), far, false, 0);
    return both(made, reached);
}

Auto bear(const Path &path, const Bearing &b) {
    if (!b.ray.far) return apart(path.legs, b.man, b.king, b.ray.dx, b.ray.dy);
    Auto made = sighted(path.legs, b.ray, b.man, b.king);
    for (int k = 1; k <= count_men(); k++)
        if (is_live(path.mask, k) && k != b.man && k != b.king) {
            Auto screens = sighted(path.legs, b.ray, b.man, k), last = in_front(path.legs, b.ray, k, b.king);
            screens = both(screens, last);
            made = both(made, no(screens));
        }
    return made;
}

// The tuples of the set at which the part is true; no step is asked of an empty set.
template <class Part>
void narrow(Auto &set, Part part) {
    if (!set.is_empty()) set = or_nothing(both(set, part()));
}

// The distances at which the path's moves, and one more, are legal.
Auto legal(const Path &path, const Option &o, Auto set) {
    Path next = after(path, o);
    int n = path.legs.size();
    narrow(set, [&]() { return o.ray.far ? lin({{-1, n}}, false, -1) : lin({{1, n}}, true, 1); });
    if (o.taken) {
        narrow(set, [&]() { return gap(next.legs, across(o.taken, o.man), true, 0); });
        narrow(set, [&]() { return gap(next.legs, upward(o.taken, o.man), true, 0); });
    }
    for (int k = 1; k <= count_men(); k++)
        if (is_live(path.mask, k) && k != o.man && k != o.taken) narrow(set, [&]() { return no(on_way(next, k)); });
    for (const Bearing &b : bearings_of(next.turn, next.mask)) narrow(set, [&]() { return no(bear(next, b)); });
    return set;
}

Auto kept_after(int left, const Path &path, const Auto &set);

// From where the winner, to move, has a move after which he mates.
Auto won_after(int left, const Path &path, const Auto &set) {
    Auto made = nothing();
    for (const Option &o : options_of(path.turn, path.mask)) {
        Auto next = legal(path, o, set);
        if (next.is_empty()) continue;
        Auto inner = kept_after(left, after(path, o), next);
        if (!inner.is_empty()) unite(made, some(path.legs.size(), inner));
    }
    return made;
}

// From where the loser, to move, is in check or has a move, and has no move by which he escapes.
Auto lost_after(int left, const Path &path, const Auto &set) {
    int n = path.legs.size();
    Auto escape = nothing(), moved = nothing(), made = nothing();
    for (const Option &o : options_of(path.turn, path.mask)) {
        Auto next = legal(path, o, set);
        if (next.is_empty()) continue;
        Auto inner = kept_after(left, after(path, o), next);
        unite(escape, or_nothing(some(n, inner.is_empty() ? next : both(next, no(inner)))));
        unite(moved, some(n, next));
    }
    for (const Bearing &b : bearings_of(1 - path.turn, path.mask)) unite(made, or_nothing(both(set, bear(path, b))));
    unite(made, moved);
    return less(made, escape);
}

// The distances at which the path's moves are legal and the winner mates with the moves left, of both sides.
Auto kept_after(int left, const Path &path, const Auto &set) {
    if (left == 0) return nothing();
    return path.turn == winner ? won_after(left - 1, path, set) : lost_after(left - 1, path, set);
}

bool crowd() {
    part = "crowd ";
    at = 0;
    Auto no_distance = reduced(explored<int>({}, kinds_by<int>(1, [](int) { return 0; }), [](int) { return 0; }, [](int, int) { return 0; }, [](int) { return true; }));
    return !kept_after(turn == winner ? 2 * moves : 2 * moves + 1, {{}, first_mask(), turn}, no_distance).is_empty();
}

// What is read is in order: other runs are for what is not.
void read_text(std::istream &text) {
    string line, side;
    std::getline(text, line);
    std::getline(text, line);
    turn = SIDES.find(line[5]);
    winner = line.size() == 12 ? int(SIDES.find(line[11])) : int(WHITE);
    while (std::getline(text, line) && line != "end") {
        std::istringstream fields(line);
        string kind, x, y;
        fields >> side >> kind >> x >> y;
        bool live = x != "gone";
        men.push_back({int(SIDES.find(side)), int(KINDS.find(kind)), live, live ? std::stoll(x) : 0, live ? std::stoll(y) : 0});
    }
}

std::map<int, Level> read_file(const string &name) {
    std::ifstream file(name, std::ios::binary);
    string data((std::istreambuf_iterator<char>(file)), {});
    size_t place = 4;
    auto number = [&](int bytes) {
        uint64_t made = 0;
        while (bytes--) made = made << 8 | uint8_t(data[place++]);
        return made;
    };
    int version = number(1);
    moves = number(1);
    turn = number(1);
    winner = turn / 2;
    turn %= 2;
    for (int count = number(1); count; count--) {
        int side = number(1), kind = number(1);
        bool live = number(1);
        int64_t x = live ? number(8) : 0, y = live ? number(8) : 0;
        men.push_back({side, kind, live, x, y});
    }
    std::map<int, Level> made;
    while (place < data.size()) {
        int ply = number(1), mask = number(1), count = number(4);
        Auto set;
        set.vars = seats(mask);
        set.kinds = kinds_by<int>(1 << set.vars.size(), [](int letter) { return letter; }).of;
        struct Node { int track, low, high; };
        vector<Node> nodes(version == 2 ? number(4) : 0);
        for (Node &node : nodes) {
            node.track = number(1);
            node.low = number(4);
            node.high = number(4);
        }
        auto put_row = [&](Ints &row) {
            int whole = version == 2 ? number(4) : 0;
            for (int letter = 0; letter < set.letters(); letter++) {
                int to = version == 2 ? whole : number(4);
                while (to >= count) to = letter >> nodes[to - count].track & 1 ? nodes[to - count].high : nodes[to - count].low;
                row.push_back(to);
            }
        };
        put_row(set.first);
        for (int state = 0; state < count; state++) {
            set.accepts.push_back(number(1));
            put_row(set.next);
        }
        made[ply][mask] = among(set, set.vars);
    }
    return made;
}

// A formula. A letter is the variable of its byte.
Auto read_formula(std::istream &fields) {
    string word, letter;
    fields >> word;
    if (word == "not") return no(read_formula(fields));
    if (word == "ex" || word == "all") {
        fields >> letter;
        Auto body = read_formula(fields);
        return word == "ex" ? some(letter[0], body) : no(some(letter[0], no(body)));
    }
    if (word == "and" || word == "or") {
        Auto a = read_formula(fields), b = read_formula(fields);
        return joined(a, b, word == "and");
    }
    vector<std::pair<int, int>> terms;
    int count, bound, coefficient;
    for (fields >> count; count; count--) {
        fields >> coefficient >> letter;
        terms.push_back({coefficient, letter[0]});
    }
    fields >> bound;
    return lin(terms, word == "eq", bound);
}

// Where a number is asked for, the last step says that a further letter is 0, in the place of the first Ex.
string arith(std::istream &text) {
    string line, word, letter;
    std::getline(text, line);
    std::istringstream fields(line), ahead(line);
    ahead >> word >> letter;
    typedef std::istream_iterator<string> Fields;
    bool asked = word == "ex" && std::find(Fields(ahead), Fields(), letter) != Fields();
    part = "arith ";
    at = 0;
    if (asked) fields >> word >> letter;
    Auto made = read_formula(fields);
    if (asked) made = both(made, value('z', 0));
    return made.is_empty() ? "false" : "true";
}

int main(int count, char **words) {
    string command = count > 1 ? words[1] : "";
    most = count > 1 ? atoi(words[count - 1]) : 0;
    if (command == "arith" && count == 3) {
        string answer = arith(std::cin);
        std::cout << "end " << answer << "\n";
    } else if ((command == "decide" || command == "describe") && count == 4) {
        moves = atoi(words[2]);
        read_text(std::cin);
        bool mates = decide();
        if (command == "describe" && mates) describe();
        std::cout << "end " << (mates ? "" : "no ") << "mate in " << moves << "\n";
    } else if (command == "crowd" && count == 4) {
        moves = atoi(words[2]);
        read_text(std::cin);
        bool mates = crowd();
        std::cout << "end " << (mates ? "" : "no ") << "mate in " << moves << "\n";
    } else if (command == "check" && count == 4) {
        check(read_file(words[2]));
        std::cout << "end mate in " << moves << "\n";
    } else {
        std::cerr << "usage: spreads decide N MOST < TEXT, or describe or crowd in its place, or check FILE MOST, or arith MOST < LINE\n";
        return 2;
    }
}
