// Opens a book and sends a day to it as frames of a tape: an ON, a CC and a DK. The book is saved to a file before what a call wrote is
// sent, and halfway it is loaded from there, as after a restart. Prints the figures after each message, and at the end how the answers
// were. The file is the first word of the command line.
//
//     c++ kept_day.cpp $(pkg-config --cflags --libs rhoikandra) -o kept_day && ./kept_day /tmp/kept_day.book
#include <array>
#include <cstdint>
#include <cstdio>
#include <fstream>
#include <iostream>
#include <iterator>
#include <random>
#include <stdexcept>
#include <string>
#include <vector>

#include <rhoikandra.h>
#include <rhoikandra_saved.h>

namespace {

using Bytes = std::vector<std::uint8_t>;

// A pool of one million: its number and its terminator.
struct Listed {
    std::string number;
    std::string terminator;
};

std::string digits(std::uint64_t number, std::size_t width) {
    const std::string text = std::to_string(number);
    return std::string(width - text.size(), '0') + text;
}

// The body of a message: a header and its pools, by the columns of the paper.
std::string body(const std::string &kind, unsigned sequence, unsigned millions, unsigned target, const std::vector<Listed> &pools) {
    const bool dk = kind == "DK";
    std::string details;
    unsigned news = 0;
    for (const Listed &pool : pools) {
        details += "LOT001  " + pool.number + "001000000" + std::string(55, ' ') + "00100000000" + std::string(32, ' ') + pool.terminator +
                   std::string(73, ' ');
        news += pool.terminator[0] == '7';
    }
    return kind + digits(sequence, 6) + "00201231200" + (dk ? "MBBB" : "MBAA") + "FTBA01F082630 00100000000" + std::string(10, ' ') +
           "098500000000" + digits(millions, 4) + "071420260714202607142026" + std::string(20, ' ') + digits(dk, 4) + digits(target, 11) +
           std::string(50, ' ') + digits(news, 4) + details;
}

struct Book {
    std::array<std::uint64_t, RHOIKANDRA_BOOK_WORDS> words{};
    std::vector<rhoikandra_pool> pools;
};

// A byte takes a word.
void put(Book &book, std::size_t at, const std::string &text) {
    for (const char character : text)
        book.words[at++] = static_cast<std::uint8_t>(character);
}

// One trade of three millions, over a table of 64 records.
Book opened() {
    Book book;
    book.pools.resize(64);
    put(book, 0, "T1");
    book.words[RHOIKANDRA_TRADE_LENGTH] = 2;
    put(book, RHOIKANDRA_TRADE_SELLER, "MBAAMBBBFTBA01F082630");
    book.words[RHOIKANDRA_TRADE_SETTLEMENT] = 7142026;
    book.words[RHOIKANDRA_TRADE_PRICE] = 98500000000;
    book.words[RHOIKANDRA_TRADE_PAR] = 300000000;
    book.words[RHOIKANDRA_COUNT] = 1;
    put(book, RHOIKANDRA_SUBSCRIBER, "01231200");
    const std::array<std::uint64_t, 4> limits{{2500, 10000, 3, 1000}};
    for (std::size_t i = 0; i < limits.size(); i++)
        book.words[RHOIKANDRA_LIMITS + i] = limits[i];
    if (rhoikandra_open(book.words.data(), book.words.size(), book.pools.data(), book.pools.size()) != 0)
        throw std::runtime_error("an opening value is out of range");
    return book;
}

// Writes the book to a new file, and puts that in the place of the last one. A desk syncs file and folder too, as the
// example in C does, writes what is to be sent after the book, and sends it again after a restart, as README says.
void save(const Book &book, const std::string &path) {
    Bytes bytes(rhoikandra_saved_size(book.pools.size()));
    rhoikandra_save(book.words.data(), book.pools.data(), book.pools.size(), bytes.data(), bytes.size());
    std::ofstream file(path + ".next", std::ios::binary);
    file.write(reinterpret_cast<const char *>(bytes.data()), static_cast<std::streamsize>(bytes.size()));
    file.close();
    if (!file || std::rename((path + ".next").c_str(), path.c_str()) != 0)
        throw std::runtime_error(path + ": the book is not saved");
}

Book loaded(const std::string &path) {
    std::ifstream file(path, std::ios::binary);
    const Bytes bytes{std::istreambuf_iterator<char>(file), std::istreambuf_iterator<char>()};
    std::size_t records = 0;
    rhoikandra_loaded found = rhoikandra_saved_check(bytes.data(), bytes.size(), &records);
    Book book;
    book.pools.resize(records);
    if (found == RHOIKANDRA_LOADED)
        found = rhoikandra_load(book.words.data(), book.pools.data(), records, bytes.data(), bytes.size());
    if (found != RHOIKANDRA_LOADED)
        throw std::runtime_error(path + ": " + rhoikandra_loaded_text(found));
    return book;
}

// A number that whoever sends the frames does not know.
std::uint64_t seed() {
    static std::random_device device;
    return std::uint64_t{device()} << 32 | device();
}

void day(const std::string &path) {
    // Two good lots of one million each; then one of them is replaced; then the replacement is questioned, twice.
    const std::vector<std::string> messages{
        body("ON", 1, 2, 0, {{"AA00001", "0001"}, {"AA00002", "0001"}}),
        body("CC", 2, 0, 1, {{"AA00002", "6001"}, {"AA00003", "7001"}}),
        body("DK", 3, 0, 2, {{"AA00003", "0001"}}),
        body("DK", 4, 0, 2, {{"AA00003", "0001"}}),
    };
    Bytes tape, line;
    for (const std::string &message : messages) {
        tape.push_back(2);
        tape.insert(tape.end(), message.begin(), message.end());
        tape.push_back(3);
    }

    Book book = opened();
    rhoikandra_tally_row tally[RHOIKANDRA_TALLY_ROWS] = {};
    const std::array<std::uint8_t, 6> time{{'0', '9', '3', '0', '0', '0'}};
    std::array<std::uint64_t, 4> found{};
    for (int frames = 0; rhoikandra_frame(tape.data(), tape.size(), found[3], found.data(), found.size()), found[0] == 1; frames++) {
        if (frames == 2)
            book = loaded(path);
        const std::uint8_t *message = tape.data() + found[1];
        const std::size_t length = found[2] - found[1];
        std::array<std::uint8_t, RHOIKANDRA_OUTPUT_LENGTH> out;
        std::array<std::uint64_t, 3> said, figures;
        rhoikandra_step(book.words.data(), book.words.size(), book.pools.data(), book.pools.size(), message, length, time.data(), time.size(),
                        seed(), out.data(), out.size(), said.data(), said.size());
        save(book, path);
        // Exactly the bytes that the call wrote go out on the line.
        line.insert(line.end(), out.data(), out.data() + said[2]);
        rhoikandra_tally(tally, RHOIKANDRA_TALLY_ROWS, message, length, said.data(), said.size());
        rhoikandra_figures(book.words.data(), book.words.size(), book.pools.data(), book.pools.size(), 0, seed(), figures.data(),
                           figures.size());
        std::cout << message[0] << message[1] << (said[0] == 0 ? " accepted under " : said[0] == 1 ? " rejected with " : " DKed with ")
                  << said[1] << "; open par " << figures[1] << ", standing millions " << figures[2] << '\n';
    }

    std::array<std::uint32_t, 3> sums{};
    for (const rhoikandra_tally_row &row : tally)
        for (std::size_t column = 0; column < sums.size(); column++)
            sums[column] += row[column];
    std::cout << sums[0] << " accepted, " << sums[1] << " rejected, " << sums[2] << " DKed; " << line.size() << " bytes sent\n";
}

} // namespace

int main(int count, char **words) {
    try {
        day(count > 1 ? words[1] : "kept_day.book");
    } catch (const std::exception &error) {
        std::cerr << error.what() << '\n';
        return 1;
    }
    return 0;
}
