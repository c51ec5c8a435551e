// tests/wrapper.cpp: every function of include/durbizhan.hpp, on what is accepted and on every number that it can be
// refused with, held to what the C face answers and writes; empty views of every kind; what a view can be made of, and
// that no refused call can be read as an answer. tests/faces builds and runs it.
#include <algorithm>
#include <cstdio>
#include <cstdlib>
#include <limits>
#include <set>
#include <string_view>

#include "durbizhan.hpp"

namespace {

using namespace std::string_view_literals;
using durbizhan::Result;
using durbizhan::Universe;
using durbizhan::View;
using durbizhan::Window;
using U8 = std::vector<std::uint8_t>;
using I64 = std::vector<std::int64_t>;
using U16 = std::vector<std::uint16_t>;
using U64 = std::vector<std::uint64_t>;

int calls = 0;

void hold(bool holds, const char *what, const char *said)
{
    if (holds) return;
    std::printf("tests/wrapper.cpp: %s: %s\n", what, said);
    std::exit(1);
}

// The pointer that the C face is given: an empty vector's may be null.
template <class V>
auto at(V &lent)
{
    return durbizhan::View<std::remove_pointer_t<decltype(lent.data())>>(lent).data();
}

// Whether reading throws that nothing is there.
template <class Read>
bool is_barred(Read read)
{
    try {
        read();
    } catch (const std::bad_variant_access &) {
        return true;
    }
    return false;
}

// What was found of a function: its name, and the numbers that were tried.
struct Tried {
    const char *name;
    std::set<std::uint64_t> numbers;

    // A call with the number that it is to have, the face's number and need, and whether an answer is the face's.
    template <class T, class Same>
    void held(std::uint64_t wanted, std::uint64_t number, std::uint64_t needed, const Result<T> &result, Same same)
    {
        calls++;
        numbers.insert(number);
        hold(number == wanted, name, "the face has another number");
        hold(static_cast<bool>(result) == (number == DURBIZHAN_ACCEPTED), name, "accepted or not");
        if (result) {
            hold(same(result.value()), name, "another answer");
            hold(is_barred([&] { (void)result.refusal(); }), name, "a refusal of what is accepted");
        } else {
            hold(static_cast<std::uint64_t>(result.refusal().number) == number, name, "another number");
            hold(result.refusal().needed == (number == DURBIZHAN_NO_ROOM ? needed : 0), name, "another need");
            hold(is_barred([&] { (void)result.value(); }), name, "an answer of what is refused");
        }
    }

    void all(const std::set<std::uint64_t> &wanted) const { hold(numbers == wanted, name, "a number is not tried"); }
};

// Two trees over rows and balls, and a window: those of examples/program.txt, unless changed.
struct Scene {
    Universe universe{2, 2, 2};
    I64 rows{0, 1, -1, 0, 0, 1, -1, 1, 0, 0, -2, 1, 0, 0, 0, 3, -1, 0, 0, 0};
    I64 balls{};
    U16 first{256, 257, 3};
    U16 second{258, 259, 3};
    Window window{0, 3};
};

struct Case {
    std::uint64_t number;
    Scene scene;
    std::size_t lent;
};

template <class Change>
Case changed(std::uint64_t number, Change change, std::size_t lent = 100)
{
    Scene scene;
    change(scene);
    return Case{number, scene, lent};
}

// Scenes for whatever takes one: with the number that they have, and the room that is lent.
std::vector<Case> cases()
{
    return {
        changed(0, [](Scene &) {}),
        changed(0, [](Scene &scene) { scene.balls = {2, 0, 0, 1}, scene.first = {durbizhan::ball(0)}; }),
        changed(0, [](Scene &scene) { scene.rows = {}, scene.first = {1}, scene.second = {1}; }),
        changed(0, [](Scene &scene) { scene.second = {1}; }),
        changed(2, [](Scene &scene) { scene.universe.axes = 5; }),
        changed(3, [](Scene &scene) { scene.rows = I64(6); }),
        changed(3, [](Scene &scene) { scene.balls = I64(3); }),
        changed(4, [](Scene &scene) { scene.first = {}; }),
        changed(5, [](Scene &scene) { scene.first = U16(33, 1); }),
        changed(6, [](Scene &) {}, 12),
        changed(6, [](Scene &) {}, 0),
    };
}

auto is_length(const std::uint64_t *answer)
{
    return [answer](std::size_t length) { return length == answer[0]; };
}

void counts()
{
    for (const U16 &words : {U16{}, U16{256, 257, 3}, U16{0, 1, 255, 256, 511, 512, 575, 576}}) {
        calls += 2;
        hold(durbizhan::leaves(words) == durbizhan_leaves(at(words), words.size()), "leaves", "another count");
        hold(durbizhan::balls(words) == durbizhan_balls(at(words), words.size()), "balls", "another count");
    }
}

void rooms()
{
    Tried tried{"room", {}};
    for (const std::uint64_t axes : {2u, 4u, 5u}) {
        std::uint64_t answer[DURBIZHAN_ROOM_ANSWER];
        const std::uint64_t number = durbizhan_room(axes, 2, 2, 4, 0, answer);
        tried.held(axes == 5 ? 2 : 0, number, 0, durbizhan::room({axes, 2, 2}, 4, 0),
                   [&](std::uint64_t symbols) { return symbols == answer[DURBIZHAN_ROOM_SYMBOLS]; });
    }
    tried.all({0, 2});
}

template <class Wrapped, class Face>
void one_tree(const char *name, Wrapped wrapped, Face face)
{
    Tried tried{name, {}};
    for (auto &[wanted, scene, lent] : cases()) {
        const auto &[universe, rows, balls, words, second, window] = scene;
        U8 out(lent, '.'), other(lent, '.');
        std::uint64_t answer[DURBIZHAN_CONVERSION_ANSWER];
        const std::uint64_t number = face(universe.axes, universe.bits, universe.frame_bits, at(rows), rows.size(),
                                          at(balls), balls.size(), at(words), words.size(), at(other), lent, answer);
        tried.held(wanted, number, answer[0], wrapped(universe, rows, balls, words, out), is_length(answer));
        hold(out == other, name, "the room");
    }
    tried.all({0, 2, 3, 4, 5, 6});
}

template <class Wrapped, class Face>
void two_trees(const char *name, Wrapped wrapped, Face face)
{
    Tried tried{name, {}};
    for (auto &[wanted, scene, lent] : cases()) {
        const auto &[universe, rows, balls, first, second, window] = scene;
        U8 out(lent, '.'), other(lent, '.');
        std::uint64_t answer[DURBIZHAN_CONVERSION_ANSWER];
        const std::uint64_t number =
            face(universe.axes, universe.bits, universe.frame_bits, at(rows), rows.size(), at(balls), balls.size(),
                 at(first), first.size(), at(second), second.size(), at(other), lent, answer);
        tried.held(wanted, number, answer[0], wrapped(universe, rows, balls, first, second, out), is_length(answer));
        hold(out == other, name, "the room");
    }
    tried.all({0, 2, 3, 4, 5, 6});
}

// A pruned conversion with work room for so many nodes, which suffice or not.
template <class Wrapped, class Face>
void pruned(const char *name, Wrapped wrapped, Face face)
{
    Tried tried{name, {}};
    bool lacked = false;
    for (const std::size_t nodes : {30u, 0u}) {
        for (auto &[wanted, scene, lent] : cases()) {
            U8 out(lent, '.'), other(lent, '.');
            I64 work(DURBIZHAN_NODE_LENGTH * nodes, 7), other_work(work);
            std::uint64_t answer[DURBIZHAN_PRUNED_ANSWER];
            const std::uint64_t number = face(scene, other_work, other, answer);
            const auto result = wrapped(scene, View<std::int64_t>(work), durbizhan::Room(out));
            tried.held(nodes == 0 && wanted == 0 ? 6 : wanted, number, answer[DURBIZHAN_PRUNED_LENGTH], result,
                       [&](const durbizhan::Pruned &found) {
                           return found.length == answer[DURBIZHAN_PRUNED_LENGTH] &&
                                  found.looked == answer[DURBIZHAN_PRUNED_LOOKED];
                       });
            hold(out == other, name, "the room");
            hold(result || result.refusal().of_work == (answer[DURBIZHAN_PRUNED_LACK] == 1), name, "which room");
            lacked = lacked || (!result && result.refusal().of_work);
        }
    }
    hold(lacked, name, "work room is never lacking");
    tried.all({0, 2, 3, 4, 5, 6});
}

template <class Wrapped, class Face>
void pruned_one(const char *name, Wrapped wrapped, Face face)
{
    pruned(
        name,
        [&](const Scene &scene, View<std::int64_t> work, durbizhan::Room out) {
            return wrapped(scene.universe, scene.rows, scene.balls, scene.first, work, out);
        },
        [&](const Scene &scene, I64 &work, U8 &out, std::uint64_t *answer) {
            const auto &[universe, rows, balls, words, second, window] = scene;
            return face(universe.axes, universe.bits, universe.frame_bits, at(rows), rows.size(), at(balls),
                        balls.size(), at(words), words.size(), at(work), work.size(), at(out), out.size(), answer);
        });
}

template <class Wrapped, class Face>
void pruned_two(const char *name, Wrapped wrapped, Face face)
{
    pruned(
        name,
        [&](const Scene &scene, View<std::int64_t> work, durbizhan::Room out) {
            return wrapped(scene.universe, scene.rows, scene.balls, scene.first, scene.second, work, out);
        },
        [&](const Scene &scene, I64 &work, U8 &out, std::uint64_t *answer) {
            const auto &[universe, rows, balls, first, second, window] = scene;
            return face(universe.axes, universe.bits, universe.frame_bits, at(rows), rows.size(), at(balls),
                        balls.size(), at(first), first.size(), at(second), second.size(), at(work), work.size(),
                        at(out), out.size(), answer);
        });
}

// Whether a verdict is what four numbers of an answer say.
bool is_verdict(const durbizhan::Verdict &verdict, const std::uint64_t *told)
{
    if (!verdict) return told[0] == DURBIZHAN_CLEAR;
    return told[0] == DURBIZHAN_HIT && verdict->first == told[1] && verdict->last == told[2] &&
           verdict->voxels == told[3];
}

auto is_clearance(const std::uint64_t *answer)
{
    return [answer](const durbizhan::Clearance &found) {
        return is_verdict(found.verdict, answer + DURBIZHAN_VERDICT_HIT) &&
               found.length == answer[DURBIZHAN_VERDICT_LENGTH];
    };
}

// The scenes with windows too.
std::vector<Case> windowed()
{
    std::vector<Case> all = cases();
    all.push_back(changed(0, [](Scene &scene) { scene.window = {3, 3}; }));
    all.push_back(changed(9, [](Scene &scene) { scene.window = {0, 4}; }));
    all.push_back(changed(9, [](Scene &scene) { scene.window = {2, 1}; }, 0));
    return all;
}

void verdicts()
{
    Tried tried{"verdict", {}};
    for (auto &[wanted, scene, lent] : windowed()) {
        const auto &[universe, rows, balls, first, second, window] = scene;
        U8 out(lent, '.'), other(lent, '.');
        std::uint64_t answer[DURBIZHAN_VERDICT_ANSWER];
        const std::uint64_t number = durbizhan_verdict(
            universe.axes, universe.bits, universe.frame_bits, at(rows), rows.size(), at(balls), balls.size(),
            at(first), first.size(), at(second), second.size(), window.first, window.last, at(other), lent, answer);
        tried.held(wanted, number, answer[DURBIZHAN_VERDICT_LENGTH],
                   durbizhan::verdict(universe, rows, balls, first, second, window, out), is_clearance(answer));
        hold(out == other, "verdict", "the room");
    }
    tried.all({0, 2, 3, 4, 5, 6, 9});
}

// A question to which no room is lent, so that no case is refused for it.
template <std::size_t places, class Wrapped, class Face, class Same>
void without_room(const char *name, Wrapped wrapped, Face face, Same same)
{
    Tried tried{name, {}};
    for (auto &[wanted, scene, lent] : windowed()) {
        const auto &[universe, rows, balls, first, second, window] = scene;
        std::uint64_t answer[places];
        const std::uint64_t number =
            face(universe.axes, universe.bits, universe.frame_bits, at(rows), rows.size(), at(balls), balls.size(),
                 at(first), first.size(), at(second), second.size(), window.first, window.last, answer);
        tried.held(wanted == DURBIZHAN_NO_ROOM ? 0 : wanted, number, 0,
                   wrapped(universe, rows, balls, first, second, window),
                   [&](const auto &found) { return same(found, answer); });
    }
    tried.all({0, 2, 3, 4, 5, 9});
}

bool is_contacts(const durbizhan::Contacts &found, const std::uint64_t *answer)
{
    return found.sure == answer[DURBIZHAN_CONTACTS_SURE] && found.centre == answer[DURBIZHAN_CONTACTS_CENTRE] &&
           found.possible == answer[DURBIZHAN_CONTACTS_POSSIBLE];
}

bool is_ends(const durbizhan::Ends &ends, const std::uint64_t *answer)
{
    if (!ends) return answer[DURBIZHAN_ENDS_AT_ONCE_HIT] == DURBIZHAN_CLEAR;
    return answer[DURBIZHAN_ENDS_AT_ONCE_HIT] == DURBIZHAN_HIT && ends->first == answer[DURBIZHAN_ENDS_AT_ONCE_FIRST] &&
           ends->last == answer[DURBIZHAN_ENDS_AT_ONCE_LAST];
}

// A cube that comes from -3 in one frame and stands at 1 for two, unless changed.
struct Moving {
    std::uint64_t number = 0;
    Universe universe{4, 1, 2};
    durbizhan::Triple size{1, 1, 1};
    U64 moments{0, 1, 3};
    std::vector<double> corners{-3, 0, 0, 1, 0, 0, 1, 0, 0};
    I64 rows{}, balls{};
    U16 words{1};
    std::size_t lent = 64;
};

std::vector<Moving> movings()
{
    std::vector<Moving> all(11);
    all[1].words = {0};
    all[2].number = 2, all[2].universe.axes = 3;
    all[3].number = 3, all[3].rows = I64(4);
    all[4].number = 4, all[4].words = {};
    all[5].number = 5, all[5].words = U16(33, 1);
    all[6].number = 6, all[6].lent = 18;
    all[7].number = 10, all[7].size[2] = std::numeric_limits<double>::quiet_NaN();
    all[8].number = 11, all[8].moments = {}, all[8].corners = {};
    all[9].number = 12, all[9].corners[6] = 1.0625;
    all[10].number = 6, all[10].lent = 0;
    return all;
}

void movers()
{
    Tried tried{"mover", {}};
    for (auto &[wanted, universe, size, moments, corners, rows, balls, words, lent] : movings()) {
        U8 out(lent, '.'), other(lent, '.');
        std::uint64_t answer[DURBIZHAN_VERDICT_ANSWER];
        const std::uint64_t number = durbizhan_mover(
            universe.axes, universe.bits, universe.frame_bits, 0, 0, 0, size[0], size[1], size[2], 0, 0, 0, at(moments),
            moments.size(), at(corners), corners.size(), at(rows), rows.size(), at(balls), balls.size(), at(words),
            words.size(), at(other), lent, answer);
        tried.held(wanted, number, answer[DURBIZHAN_VERDICT_LENGTH],
                   durbizhan::mover(universe, {0, 0, 0}, size, moments, corners, rows, balls, words, out),
                   is_clearance(answer));
        hold(out == other, "mover", "the room");
    }
    tried.all({0, 2, 3, 4, 5, 6, 10, 11, 12});
}

// An expression, with a universe and the number that it has where it is read.
struct Reading {
    std::uint64_t number;
    Universe universe;
    std::string_view expression;
};

const std::vector<Reading> readings{
    {0, {2, 2, 2}, "(W(((WBW((BWW"sv},
    {0, {1, 0, 0}, "W"sv},
    {2, {5, 2, 2}, "B"sv},
    {7, {2, 2, 2}, ""sv},
    {7, {2, 2, 2}, "BB"sv},
};

// What the C face is given of a text.
const std::uint8_t *symbols(std::string_view text)
{
    return durbizhan::Bytes(text).data();
}

void well_formeds()
{
    Tried tried{"well_formed", {}};
    for (const auto &[wanted, universe, text] : readings) {
        const std::uint64_t number =
            durbizhan_well_formed(universe.axes, universe.bits, universe.frame_bits, symbols(text), text.size());
        tried.held(wanted, number, 0, durbizhan::well_formed(universe, text), [](durbizhan::Accepted) { return true; });
    }
    tried.all({0, 2, 7});
}

void number(Tried &tried, std::uint64_t wanted, Universe universe, std::string_view text, Window window)
{
    std::uint64_t answer[DURBIZHAN_NUMBERS_ANSWER];
    const std::uint64_t found = durbizhan_numbers(universe.axes, universe.bits, universe.frame_bits, symbols(text),
                                                  text.size(), window.first, window.last, answer);
    tried.held(wanted, found, 0, durbizhan::numbers(universe, text, window), [&](const durbizhan::Numbers &told) {
        return told.volume == answer[DURBIZHAN_NUMBERS_VOLUME] &&
               is_verdict(told.verdict, answer + DURBIZHAN_NUMBERS_HIT);
    });
}

void numbers()
{
    Tried tried{"numbers", {}};
    for (const auto &[wanted, universe, text] : readings) number(tried, wanted, universe, text, {0, 0});
    number(tried, 0, {2, 2, 2}, "(W(((WBW((BWW"sv, {0, 3});
    number(tried, 0, {2, 2, 2}, "(BW"sv, {0, 3});
    number(tried, 9, {2, 2, 2}, "B"sv, {0, 4});
    tried.all({0, 2, 7, 9});
}

void report(Tried &tried, std::uint64_t wanted, Universe universe, std::string_view text, Window window,
            std::size_t lent)
{
    U64 counts(lent, 7), other(counts);
    std::uint64_t answer[DURBIZHAN_REPORT_ANSWER];
    const std::uint64_t found = durbizhan_report(universe.axes, universe.bits, universe.frame_bits, symbols(text),
                                                 text.size(), window.first, window.last, at(other), lent, answer);
    tried.held(wanted, found, answer[DURBIZHAN_REPORT_FRAMES], durbizhan::report(universe, text, window, counts),
               [&](const durbizhan::Report &told) {
                   return told.frames == answer[DURBIZHAN_REPORT_FRAMES] &&
                          told.total == answer[DURBIZHAN_REPORT_TOTAL];
               });
    hold(counts == other, "report", "the counts");
}

void reports()
{
    Tried tried{"report", {}};
    report(tried, 0, {2, 2, 2}, "(W(((WBW((BWWB"sv, {0, 3}, 5);
    report(tried, 0, {2, 2, 2}, ""sv, {0, 0}, 1);
    report(tried, 2, {5, 2, 2}, "B"sv, {0, 0}, 1);
    report(tried, 6, {2, 2, 2}, "B"sv, {0, 3}, 3);
    report(tried, 6, {2, 2, 2}, ""sv, {0, 3}, 0);
    report(tried, 7, {2, 2, 2}, "(B"sv, {0, 3}, 4);
    report(tried, 9, {2, 2, 2}, "B"sv, {2, 1}, 4);
    tried.all({0, 2, 6, 7, 9});
}

void colour(Tried &tried, std::uint64_t wanted, Universe universe, std::string_view text,
            std::array<std::uint64_t, 4> voxel)
{
    std::uint64_t answer[DURBIZHAN_COLOUR_ANSWER];
    const std::uint64_t found = durbizhan_colour(universe.axes, universe.bits, universe.frame_bits, symbols(text),
                                                 text.size(), voxel[0], voxel[1], voxel[2], voxel[3], answer);
    tried.held(wanted, found, 0, durbizhan::colour(universe, text, voxel), [&](durbizhan::Colour told) {
        return answer[DURBIZHAN_COLOUR_FOUND] == (told == durbizhan::Colour::Black ? DURBIZHAN_BLACK : DURBIZHAN_WHITE);
    });
}

void colours()
{
    Tried tried{"colour", {}};
    for (const auto &[wanted, universe, text] : readings) colour(tried, wanted, universe, text, {0, 0, 0, 0});
    for (const std::uint64_t x : {0u, 1u, 2u, 3u}) colour(tried, 0, {2, 2, 2}, "(W(((WBW((BWW"sv, {x, 1, 0, 0});
    colour(tried, 9, {2, 2, 2}, "B"sv, {0, 0, 1, 0});
    tried.all({0, 2, 7, 9});
}

void part(Tried &tried, std::uint64_t wanted, Universe universe, std::string_view text, const U8 &path)
{
    std::uint64_t answer[DURBIZHAN_PART_ANSWER];
    const std::uint64_t found = durbizhan_part(universe.axes, universe.bits, universe.frame_bits, symbols(text),
                                               text.size(), at(path), path.size(), answer);
    tried.held(wanted, found, 0, durbizhan::part(universe, text, path), [&](const durbizhan::Part &told) {
        return told.start == answer[DURBIZHAN_PART_START] && told.length == answer[DURBIZHAN_PART_LENGTH];
    });
}

void parts()
{
    Tried tried{"part", {}};
    for (const auto &[wanted, universe, text] : readings) part(tried, wanted, universe, text, {});
    part(tried, 0, {2, 2, 2}, "(W(((WBW((BWW"sv, {1, 0});
    part(tried, 9, {2, 2, 2}, "B"sv, {2});
    tried.all({0, 2, 7, 9});
}

auto is_shape(const std::uint64_t *answer)
{
    return [answer](const durbizhan::Shape &shape) {
        return shape.universe.axes == answer[DURBIZHAN_SWEEP_AXES] &&
               shape.universe.bits == answer[DURBIZHAN_SWEEP_BITS] &&
               shape.universe.frame_bits == answer[DURBIZHAN_SWEEP_FRAME_BITS] &&
               shape.length == answer[DURBIZHAN_SWEEP_LENGTH];
    };
}

void sweep(Tried &tried, std::uint64_t wanted, std::uint64_t axis, std::string_view text, std::size_t lent)
{
    U8 out(lent, '.'), other(lent, '.');
    std::uint64_t answer[DURBIZHAN_SWEEP_ANSWER];
    const std::uint64_t found = durbizhan_sweep(2, 2, 2, axis, symbols(text), text.size(), at(other), lent, answer);
    tried.held(wanted, found, answer[DURBIZHAN_SWEEP_LENGTH], durbizhan::sweep({2, 2, 2}, axis, text, out),
               is_shape(answer));
    hold(out == other, "sweep", "the room");
}

void sweeps()
{
    Tried tried{"sweep", {}};
    sweep(tried, 0, 1, "(W(((WBW((BWW"sv, 13);
    sweep(tried, 0, 2, "(W(((WBW((BWW"sv, 20);
    sweep(tried, 2, 3, "B"sv, 1);
    sweep(tried, 6, 2, "B"sv, 0);
    sweep(tried, 7, 2, ""sv, 0);
    tried.all({0, 2, 6, 7});
}

// What takes an expression or an octree and writes another: an exchange, a merging or a shape file.
struct Rewriting {
    std::uint64_t number;
    Universe universe;
    std::string_view text;
    std::size_t lent;
};

template <class Wrapped, class Face, class Same>
void rewriting(Tried &tried, const std::vector<Rewriting> &all, Wrapped wrapped, Face face, Same same)
{
    for (const auto &[wanted, universe, text, lent] : all) {
        U8 out(lent, '.'), other(lent, '.');
        std::uint64_t answer[2];
        const std::uint64_t number = face(universe.axes, universe.bits, universe.frame_bits, symbols(text), text.size(),
                                          at(other), lent, answer);
        tried.held(wanted, number, answer[0], wrapped(universe, text, out), same(answer));
        hold(out == other, tried.name, "the room");
    }
}

void rewritings()
{
    Tried out{"octree_export", {}}, in{"octree_import", {}}, merge{"merge", {}}, write{"shape_write", {}};
    rewriting(out,
              {{0, {3, 1, 1}, "(BW"sv, 12}, {2, {3, 1, 2}, "B"sv, 1}, {6, {3, 1, 1}, "B"sv, 0},
               {7, {3, 1, 1}, ""sv, 0}},
              durbizhan::octree_export, durbizhan_octree_export, is_length);
    rewriting(in,
              {{0, {3, 1, 1}, "PFEEEEEEE"sv, 18}, {2, {2, 1, 1}, "F"sv, 1}, {6, {3, 1, 1}, "F"sv, 0},
               {7, {3, 1, 1}, "P"sv, 9}},
              durbizhan::octree_import, durbizhan_octree_import, is_length);
    rewriting(merge,
              {{0, {2, 2, 2}, "(B(B(B(BW"sv, 9}, {0, {2, 2, 2}, "((BB(BB"sv, 7}, {2, {0, 2, 2}, "B"sv, 1},
               {6, {2, 2, 2}, "(BB"sv, 0}, {7, {2, 2, 2}, ""sv, 0}},
              durbizhan::merge, durbizhan_merge, [](const std::uint64_t *answer) {
                  return [answer](const durbizhan::Merged &told) {
                      return told.length == answer[DURBIZHAN_MERGE_LENGTH] && told.held == answer[DURBIZHAN_MERGE_HELD];
                  };
              });
    rewriting(write,
              {{0, {2, 2, 2}, "(BW"sv, 20}, {2, {0, 2, 2}, "B"sv, 13}, {6, {2, 2, 2}, "(BW"sv, 14},
               {7, {2, 2, 2}, ""sv, 20}, {8, {2, 2, 2}, "(BB"sv, 20}},
              durbizhan::shape_write, durbizhan_shape_write, is_length);
    for (const Tried *tried : {&out, &in, &merge}) tried->all({0, 2, 6, 7});
    write.all({0, 2, 6, 7, 8});
}

void shape_reads()
{
    Tried tried{"shape_read", {}};
    const std::vector<Rewriting> all{
        {0, {}, "BNT\2\0\2\2\2\3\0\0\0(BW"sv, 3},  {1, {}, ""sv, 0},
        {2, {}, "BNT\2\0\5\2\2\1\0\0\0B"sv, 1},    {6, {}, "BNT\2\0\2\2\2\3\0\0\0(BW"sv, 2},
        {7, {}, "BNT\2\0\2\2\2\2\0\0\0BB"sv, 2},   {8, {}, "BNT\2\0\2\2\2\3\0\0\0(BB"sv, 3},
    };
    for (const auto &[wanted, universe, file, lent] : all) {
        U8 out(lent, '.'), other(lent, '.');
        std::uint64_t answer[DURBIZHAN_SHAPE_READ_ANSWER];
        const std::uint64_t number = durbizhan_shape_read(symbols(file), file.size(), at(other), lent, answer);
        tried.held(wanted, number, answer[DURBIZHAN_SHAPE_READ_LENGTH], durbizhan::shape_read(file, out),
                   is_shape(answer));
        hold(out == other, "shape_read", "the room");
    }
    tried.all({0, 1, 2, 6, 7, 8});
}

// A scene file of one axis and four frames: a row, from time 2 on, a ball, and its words; with one byte changed.
std::string scene_file(std::size_t place, char byte)
{
    std::string file("HSC\3\0\1\0\2\1\0\1\0\1\0\0\0\3\0\1\0", 20);
    file += std::string("\376\377\377\377\377\377\377\377\1\0\0\0\0\0\0\0", 16) + std::string(24, '\0');
    file += std::string("\0\0\0\0\0\0\5\0", 8) + std::string("\0\1\0\2", 4);
    file[place] = byte;
    return file;
}

void scenes()
{
    Tried tried{"scene", {}};
    const std::vector<std::pair<std::uint64_t, std::string>> files{
        {0, scene_file(0, 'H')},    {1, ""},
        {2, scene_file(5, '\5')},   {3, scene_file(67, '\177')},
        {4, scene_file(69, '\7')},  {9, scene_file(16, '\4')},
        {5, std::string("HSC\2\0\1\0\2\0\0\41\0\1\0\0\0\3\0", 18) + std::string(68, '\0')},
    };
    for (const auto &[wanted, file] : files) {
        I64 rows(DURBIZHAN_MOST_NUMBERS), balls(DURBIZHAN_MOST_BALL_NUMBERS);
        U16 first(DURBIZHAN_MOST_WORDS), second(DURBIZHAN_MOST_WORDS);
        std::uint64_t told[DURBIZHAN_SCENE_ANSWER];
        const std::uint64_t number = durbizhan_scene(symbols(file), file.size(), rows.data(), balls.data(),
                                                     first.data(), second.data(), told);
        rows.resize(DURBIZHAN_ROW_LENGTH * told[DURBIZHAN_SCENE_ROWS]);
        balls.resize(DURBIZHAN_BALL_LENGTH * told[DURBIZHAN_SCENE_BALLS]);
        first.resize(told[DURBIZHAN_SCENE_FIRST_WORDS]);
        second.resize(told[DURBIZHAN_SCENE_SECOND_WORDS]);
        tried.held(wanted, number, 0, durbizhan::scene(file), [&](const durbizhan::Scene &scene) {
            const std::uint64_t said[] = {scene.version,           scene.universe.axes, scene.universe.bits,
                                          scene.universe.frame_bits, scene.rows.size() / 5, scene.balls.size() / 4,
                                          scene.first.size(),      scene.second.size(), scene.window.first,
                                          scene.window.last};
            return std::equal(std::begin(said), std::end(said), told) && scene.rows == rows && scene.balls == balls &&
                   scene.first == first && scene.second == second && rows == I64{-2, 1, 0, 0, 0} &&
                   balls == I64{0, 0, 0, 5};
        });
    }
    tried.all({0, 1, 2, 3, 4, 5, 9});
}

void lines()
{
    for (const std::string &file : {scene_file(0, 'H'), scene_file(5, '\5'), std::string()}) {
        calls++;
        U8 out(DURBIZHAN_MOST_LINES_BYTES);
        out.resize(durbizhan_lines(symbols(file), file.size(), out.data()));
        hold(durbizhan::lines(file) == std::string(out.begin(), out.end()), "lines", "other lines");
    }
    hold(durbizhan::lines({}) == "refused 1\n", "lines", "an empty scene");
}

void proxies()
{
    Tried boxes{"box", {}}, cuts{"cut", {}};
    for (const double number : {1.0, 0.03125}) {
        const durbizhan::Triple corner{number, 2, 3}, still{0, 0.5, 0}, nowhere{0, 0, 0};
        std::array<std::int64_t, DURBIZHAN_BOX_NUMBERS> rows;
        std::array<std::int64_t, DURBIZHAN_ROW_LENGTH> row;
        const std::uint64_t wanted = number == 1 ? 0 : DURBIZHAN_BAD_PROXY;
        boxes.held(wanted, durbizhan_box(0, 0, 0, number, 2, 3, 0, 0.5, 0, rows.data()), 0,
                   durbizhan::box(nowhere, corner, still), [&](const auto &found) { return found == rows; });
        cuts.held(wanted, durbizhan_cut(number, 2, 3, -4, 0, 0.5, 0, row.data()), 0,
                  durbizhan::cut(corner, -4, still), [&](const auto &found) { return found == row; });
    }
    boxes.all({0, 10});
    cuts.all({0, 10});
}

// What a view can be made of, and what it cannot.
static_assert(std::is_convertible_v<U8 &, durbizhan::Room> && std::is_convertible_v<std::string &, durbizhan::Room>);
static_assert(std::is_convertible_v<std::uint8_t (&)[3], durbizhan::Room>);
static_assert(std::is_convertible_v<std::array<std::int64_t, 5> &, durbizhan::Rows>);
static_assert(std::is_convertible_v<const std::int64_t (&)[5], durbizhan::Rows>);
static_assert(std::is_convertible_v<std::string_view, durbizhan::Bytes>);
static_assert(std::is_constructible_v<durbizhan::Words, const std::uint16_t *, std::size_t>);
static_assert(!std::is_convertible_v<const U8 &, durbizhan::Room> && !std::is_convertible_v<U8, durbizhan::Room>);
static_assert(!std::is_convertible_v<std::string_view, durbizhan::Room>);
static_assert(!std::is_convertible_v<const char (&)[4], durbizhan::Bytes>);
static_assert(!std::is_convertible_v<std::vector<std::uint32_t> &, durbizhan::Rows>);
static_assert(!std::is_convertible_v<I64 &, durbizhan::Words>);
static_assert(!std::is_convertible_v<int, durbizhan::Rows>);
static_assert(!std::is_convertible_v<std::vector<bool> &, durbizhan::Bytes>);

// What is refused cannot be read as an answer.
static_assert(!std::is_convertible_v<Result<durbizhan::Colour>, durbizhan::Colour>);
static_assert(!std::is_convertible_v<Result<std::size_t>, std::size_t>);
static_assert(!std::is_convertible_v<Result<std::size_t>, bool>);
static_assert(!std::is_convertible_v<durbizhan::Refusal, std::uint64_t>);
static_assert(!std::is_convertible_v<durbizhan::Number, std::uint64_t>);

template <class T>
void empty(View<T> view)
{
    hold(view.data() != nullptr && view.size() == 0 && view.begin() == view.end(), "an empty view", "its pointer");
}

void views()
{
    empty(durbizhan::Rows{});
    empty(durbizhan::Rows(I64{}));
    empty(durbizhan::Words(nullptr, 0));
    empty(durbizhan::Bytes(std::string_view()));
    empty(View<std::uint64_t>{});
    empty(View<const double>(std::array<double, 0>{}));
    U8 bytes{7, 8, 9};
    const durbizhan::Room room(bytes);
    room[1] = 5;
    hold(bytes[1] == 5 && room.front(2).size() == 2 && room.front(2).data() == bytes.data(), "a view", "its elements");
}

}  // namespace

int main()
{
    views();
    counts();
    rooms();
    one_tree("raw_one", durbizhan::raw_one, durbizhan_raw_one);
    one_tree("merged_one", durbizhan::merged_one, durbizhan_merged_one);
    two_trees("raw_two", durbizhan::raw_two, durbizhan_raw_two);
    two_trees("merged_two", durbizhan::merged_two, durbizhan_merged_two);
    pruned_one("pruned_raw_one", durbizhan::pruned_raw_one, durbizhan_pruned_raw_one);
    pruned_one("pruned_merged_one", durbizhan::pruned_merged_one, durbizhan_pruned_merged_one);
    pruned_two("pruned_raw_two", durbizhan::pruned_raw_two, durbizhan_pruned_raw_two);
    pruned_two("pruned_merged_two", durbizhan::pruned_merged_two, durbizhan_pruned_merged_two);
    verdicts();
    without_room<DURBIZHAN_VERDICT_AT_ONCE_ANSWER>("verdict_at_once", durbizhan::verdict_at_once,
                                                   durbizhan_verdict_at_once, is_verdict);
    without_room<DURBIZHAN_ENDS_AT_ONCE_ANSWER>("ends_at_once", durbizhan::ends_at_once, durbizhan_ends_at_once,
                                                is_ends);
    without_room<DURBIZHAN_CONTACTS_ANSWER>("contacts", durbizhan::contacts, durbizhan_contacts, is_contacts);
    movers();
    well_formeds();
    numbers();
    reports();
    colours();
    parts();
    sweeps();
    rewritings();
    shape_reads();
    scenes();
    lines();
    proxies();
    std::printf("the face for C++ answers %d calls, refused ones too, as the C face does\n", calls);
}
