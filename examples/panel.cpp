// The same library in C++ (C++11 and later): a panel that owns its book and its log and throws what a call refuses. It plays a
// link file of three records and says which cells hang together, and why.
#include <array>
#include <cstdint>
#include <iostream>
#include <stdexcept>
#include <string>
#include <vector>

#include "kerb.h"

namespace {

class Refused : public std::runtime_error {
public:
    explicit Refused(std::uint8_t number)
        : std::runtime_error("number " + std::to_string(number) + ", " + kerb_status_text(number))
    {
    }
};

void unless_done(std::uint8_t number)
{
    if (number != KERB_DONE)
        throw Refused(number);
}

class Panel {
public:
    explicit Panel(const kerb_settings &settings) : log_(KERB_LOG_PLACES)
    {
        unless_done(::kerb_opening(&book_, log_.data(), log_.size(), settings));
    }

    void link(std::uint32_t tick, std::uint16_t one, std::uint16_t other)
    {
        unless_done(kerb_link(&book_, log_.data(), log_.size(), tick, one, other));
    }

    std::uint32_t play(const std::vector<std::uint8_t> &file)
    {
        const kerb_play_answer answer = kerb_play(&book_, log_.data(), log_.size(), file.data(), file.size());
        unless_done(answer.number);
        return answer.taken;
    }

    bool joined(std::uint16_t one, std::uint16_t other) const
    {
        const kerb_joined_answer answer = kerb_joined(&book_, one, other);
        unless_done(answer.number);
        return answer.yes;
    }

    std::vector<std::uint16_t> chain(std::uint16_t one, std::uint16_t other, unsigned &hold) const
    {
        std::vector<std::uint16_t> cells(KERB_CHAIN_PLACES);
        const kerb_chain_answer answer =
            kerb_chain(&book_, log_.data(), log_.size(), one, other, cells.data(), cells.size());
        unless_done(answer.number);
        cells.resize(answer.cells);
        hold = answer.hold;
        return cells;
    }

    void print_groups() const
    {
        std::array<std::uint16_t, KERB_CELLS> first, size;
        std::array<std::uint8_t, KERB_CELLS> hold;
        const kerb_groups_answer answer = kerb_groups(&book_, log_.data(), log_.size(), first.data(), first.size(),
                                                      size.data(), size.size(), hold.data(), hold.size());
        unless_done(answer.number);
        for (std::size_t cell = 0; cell < first.size(); cell++)
            if (first[cell] == cell && size[cell] > 1)
                std::cout << "a group of " << size[cell] << " cells from cell " << cell << ", hold " << unsigned(hold[cell])
                          << '\n';
        std::cout << answer.links << " links\n";
    }

private:
    kerb_book book_ = kerb_never_opened();
    std::vector<std::uint16_t> log_;
};

std::vector<std::uint8_t> file_of(const kerb_settings &settings, const std::vector<kerb_record> &records)
{
    std::vector<std::uint8_t> bytes(records.size() * KERB_RECORD_BYTES), file(bytes.size() + 24);
    for (std::size_t i = 0; i < records.size(); i++)
        unless_done(kerb_pack(records[i].tick, records[i].one, records[i].other, &bytes[i * KERB_RECORD_BYTES],
                              KERB_RECORD_BYTES));
    unless_done(kerb_write(settings, bytes.data(), bytes.size(), file.data(), file.size()));
    return file;
}

} // namespace

int main()
{
    const kerb_settings settings = { 0, 10, 3, KERB_PLAIN };
    const std::vector<std::uint8_t> file = file_of(settings, { { 20, 3, 4 }, { 30, 5, 6 }, { 45, 4, 5 } });

    const kerb_read_answer head = kerb_read(file.data(), file.size());
    unless_done(head.number);
    const kerb_record_answer last = kerb_unpack(file.data(), file.size(), head.m - 1);
    unless_done(last.number);
    std::cout << head.m << " records, the last at tick " << last.tick << " of cells " << last.one << " and " << last.other
              << '\n';

    Panel panel(head.settings);
    std::cout << panel.play(file) << " taken\n";
    panel.print_groups();
    unsigned hold = 0;
    std::cout << "3 and 6 are " << (panel.joined(3, 6) ? "joined:" : "not joined");
    for (const std::uint16_t cell : panel.chain(3, 6, hold))
        std::cout << ' ' << cell;
    std::cout << ", hold " << hold << '\n';
    try {
        panel.link(44, 6, 7);
    } catch (const Refused &refused) {
        std::cout << "a link at tick 44: " << refused.what() << '\n';
    }
    try {
        panel.chain(3, 7, hold);
    } catch (const Refused &refused) {
        std::cout << "the chain from 3 to 7: " << refused.what() << '\n';
    }
}
