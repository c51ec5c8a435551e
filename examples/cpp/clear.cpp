// The scene of examples/program.txt, converted and judged from C++. At the repository's top, on x86-64 (on another
// processor `tests/native` builds the archive, as target/native/libexport.a):
//
//   tests/native
//   g++ -std=c++17 -Wall -Wextra -Iinclude examples/cpp/clear.cpp target/staticlib/libexport.a -o target/clear-cpp
//   target/clear-cpp
//
// It prints
//
//   axes 2 bits 2
//   leaves 4 raw 13 room 31
//   hit first 1 last 2 voxels 2
//
// and of a scene file, named behind it, the lines of that one: examples/program.scene has these.
#include <fstream>
#include <iostream>
#include <string>
#include <vector>

#include "durbizhan.hpp"

namespace {

using durbizhan::halfspace;

constexpr durbizhan::Universe universe{2, 2, 2};
constexpr durbizhan::Window window{0, 3};

// Two stand-ins of two halfspaces each: one that moves a voxel a frame, and one that stands from 2 to 3.
constexpr std::int64_t rows[] = {
    0, 1, -1, 0, 0,
    1, -1, 1, 0, 0,
    -2, 1, 0, 0, 0,
    3, -1, 0, 0, 0,
};
constexpr std::uint16_t first[] = {halfspace(0), halfspace(1), DURBIZHAN_INTERSECTION};
constexpr std::uint16_t second[] = {halfspace(2), halfspace(3), DURBIZHAN_INTERSECTION};

// The line of a refusal: its number, and on NO_ROOM the length needed.
int refused(const durbizhan::Refusal &refusal)
{
    std::cout << "refused " << static_cast<std::uint64_t>(refusal.number);
    if (refusal.number == durbizhan::Number::NoRoom) std::cout << " needed " << refusal.needed;
    std::cout << "\n";
    return 1;
}

// The lines of a scene file, as the program prints them. A refusal is a line too.
int lines_of(const char *name)
{
    std::ifstream file(name, std::ios::binary);
    std::string scene(DURBIZHAN_MOST_SCENE_BYTES + 1, ' ');
    if (!file || (file.read(scene.data(), static_cast<std::streamsize>(scene.size())), file.bad())) {
        std::cerr << name << " cannot be read\n";
        return 1;
    }
    scene.resize(static_cast<std::size_t>(file.gcount()));
    std::cout << durbizhan::lines(scene);
    return 0;
}

bool same(const durbizhan::Verdict &one, const durbizhan::Verdict &other)
{
    if (!one || !other) return !one && !other;
    return one->first == other->first && one->last == other->last && one->voxels == other->voxels;
}

int judge()
{
    const std::uint64_t leaves = durbizhan::leaves(first) + durbizhan::leaves(second);
    const auto room = durbizhan::room(universe, leaves, durbizhan::balls(first) + durbizhan::balls(second));
    if (!room) return refused(room.refusal());

    std::vector<std::uint8_t> out(room.value());
    const auto found = durbizhan::verdict(universe, rows, {}, first, second, window, out);
    if (!found) return refused(found.refusal());
    const auto [verdict, length] = found.value();

    // Asked for its numbers, the expression that was written has the same verdict.
    const auto numbers = durbizhan::numbers(universe, durbizhan::Bytes(out.data(), length), window);
    if (!numbers) return refused(numbers.refusal());
    if (!same(numbers.value().verdict, verdict)) return 1;

    std::cout << "axes " << universe.axes << " bits " << universe.bits << "\n";
    std::cout << "leaves " << leaves << " raw " << length << " room " << room.value() << "\n";
    if (verdict)
        std::cout << "hit first " << verdict->first << " last " << verdict->last << " voxels " << verdict->voxels
                  << "\n";
    else
        std::cout << "clear\n";
    return 0;
}

}  // namespace

int main(int count, char **words)
{
    return count > 1 ? lines_of(words[1]) : judge();
}
