// The steps of `hsplan-stream check` and of `hsplan-stream answer` by prices in plain C++, by which their speed is
// measured, and the inputs of the measurement.
//
// No contract and no faults: settings, tables, certificate and log are taken to be written as they should be. A record
// has no filter, attributes, keys and interfaces, and no host has a limit. `tools/lib/price_cases.py` compiles it. All
// files are in the folder where it runs.
//
//   prices_peer make ROWS CLASSES PRICE COUNT HANDLES
//       draws prices up to PRICE and a log of at most so many classes, with counts up to COUNT and so many handles;
//       writes log.csv, capacity.csv, right.prices, and wrong.prices with another amount
//   prices_peer check PRICES
//       prints whether the certificate holds for the log
//   prices_peer answer PRICES LOG FRONTS FRONT
//       answers a log without counts as one of so many fronts
#include "digest_word.hpp"

#include <algorithm>
#include <charconv>
#include <cstdint>
#include <cstdio>
#include <cstring>
#include <random>
#include <string>
#include <string_view>
#include <unordered_map>
#include <vector>

namespace {

using Text = std::string_view;
using Sum = unsigned __int128;

constexpr uint64_t kNone = UINT64_MAX;
constexpr size_t kHead = 40, kServer = 56, kSeen = 65536, kPiece = 1 << 16, kMostSites = 32;

struct Hash {
    using is_transparent = void;
    size_t operator()(Text text) const { return std::hash<Text>{}(text); }
};

using Numbers = std::unordered_map<std::string, uint32_t, Hash, std::equal_to<>>;

struct Site {
    std::string name;
    int option = 0;
    uint32_t first = 0, servers = 0;
};

// What a class asks for, and what it sends to each of its servers.
struct Class {
    std::string region;
    std::vector<uint16_t> servers;
    std::vector<uint64_t> amounts;
    Sum asked = 0;
    bool is_seen = false;
};

std::vector<Site> sites;
std::vector<uint32_t> site_of;
// By the place of a server's record: its site and its identifier.
std::vector<std::string> server_names;
Numbers regions;
std::vector<std::string> region_names;
// By region and site, and by region and server: a cost, and with the server's price what a query pays there.
std::vector<std::vector<uint64_t>> costs, pays;
std::vector<uint64_t> prices;

// ---- texts

// The part of a text before a mark. The text goes on behind it.
Text cut(Text& text, char mark) {
    size_t at = std::min(text.find(mark), text.size());
    Text part = text.substr(0, at);
    text.remove_prefix(std::min(at + 1, text.size()));
    return part;
}

uint64_t number(Text digits, int base = 10) {
    uint64_t read = 0;
    std::from_chars(digits.data(), digits.data() + digits.size(), read, base);
    return read;
}

template <typename F>
void each_line(const char* path, F take) {
    FILE* file = fopen(path, "r");
    std::vector<char> piece(kPiece);
    std::string begun;
    while (size_t count = fread(piece.data(), 1, piece.size(), file)) {
        const char *at = piece.data(), *end = at + count;
        while (const char* feed = static_cast<const char*>(memchr(at, '\n', end - at))) {
            if (begun.empty()) {
                take(Text(at, feed - at));
            } else {
                begun.append(at, feed - at);
                take(Text(begun));
                begun.clear();
            }
            at = feed + 1;
        }
        begun.append(at, end - at);
    }
    fclose(file);
}

// The lines of a table below its header.
template <typename F>
void each_row(const char* path, F take) {
    bool is_header = true;
    each_line(path, [&](Text line) {
        if (!is_header) take(line);
        is_header = false;
    });
}

// ---- the service

void take_record(Site& site, Text digits) {
    site.option = int(number(digits.substr(14, 2), 16));
    site.first = uint32_t(server_names.size());
    site.servers = uint32_t(number(digits.substr(32, 8), 16));
    for (uint32_t at = 0; at < site.servers; at++) {
        uint64_t own = number(digits.substr(kHead + at * kServer, 8), 16);
        server_names.push_back(site.name + "," + std::to_string(own));
        site_of.push_back(uint32_t(sites.size() - 1));
    }
}

void read_service() {
    each_line("settings.toml", [](Text line) {
        Text key = cut(line, ' ');
        cut(line, '"');
        Text value = cut(line, '"');
        if (key == "name") sites.push_back({std::string(value)});
        if (key == "record") take_record(sites.back(), value);
    });
    each_row("costs.csv", [](Text line) {
        Text region = cut(line, ','), name = cut(line, ',');
        auto [at, is_new] = regions.try_emplace(std::string(region), uint32_t(costs.size()));
        if (is_new) {
            costs.emplace_back(sites.size(), kNone);
            region_names.emplace_back(region);
        }
        for (size_t site = 0; site < sites.size(); site++)
            if (sites[site].name == name) costs[at->second][site] = number(line);
    });
}

void fill_pays() {
    pays.assign(costs.size(), std::vector<uint64_t>(site_of.size(), kNone));
    for (size_t region = 0; region < costs.size(); region++)
        for (size_t server = 0; server < site_of.size(); server++)
            if (costs[region][site_of[server]] != kNone)
                pays[region][server] = costs[region][site_of[server]] + prices[server];
}

// The servers of a handle. Each hash is found once.
class Places {
  public:
    explicit Places(Text handle) {
        size_t slash = handle.find('/');
        parts_[0] = handle.substr(0, slash);
        parts_[1] = handle.substr(slash + 1);
        parts_[2] = handle;
    }

    uint32_t server(const Site& site) {
        if (!known_[site.option]) words_[site.option] = word_of(parts_[site.option]);
        known_[site.option] = true;
        return site.first + words_[site.option] % site.servers;
    }

  private:
    Text parts_[3];
    uint32_t words_[3];
    bool known_[3] = {false, false, false};
};

// ---- what rows bring

// What rows and classes bring to the servers, and what they cost.
struct Tally {
    std::vector<Sum> loads = std::vector<Sum>(site_of.size());
    Sum cost = 0;
    std::vector<Class> classes;
    Numbers numbers;
    // A row's least servers, and the key of its class.
    std::vector<uint16_t> least;
    std::string key;

    void send(uint32_t region, uint32_t server, uint64_t queries) {
        loads[server] += queries;
        cost += Sum(costs[region][site_of[server]]) * queries;
    }

    void send_class(const Class& own) {
        uint32_t region = regions.find(own.region)->second;
        for (size_t at = 0; at < own.servers.size(); at++) send(region, own.servers[at], own.amounts[at]);
    }

    void find_least(uint32_t region, Text handle) {
        Places places(handle);
        uint64_t fewest = kNone;
        least.clear();
        for (const Site& site : sites) {
            uint32_t server = places.server(site);
            uint64_t pay = pays[region][server];
            if (pay < fewest) least.clear();
            fewest = std::min(fewest, pay);
            if (pay == fewest && pay != kNone) least.push_back(uint16_t(server));
        }
    }

    void set_key(uint32_t region, const std::vector<uint16_t>& servers) {
        key.assign(reinterpret_cast<const char*>(&region), sizeof region);
        key.append(reinterpret_cast<const char*>(servers.data()), servers.size() * sizeof servers[0]);
    }

    // The class of the least servers, or none.
    Class* find_class(uint32_t region) {
        set_key(region, least);
        auto at = numbers.find(Text(key));
        return at == numbers.end() ? nullptr : &classes[at->second];
    }

    void add_class(Class own) {
        set_key(regions.find(own.region)->second, own.servers);
        numbers.emplace(key, uint32_t(classes.size()));
        classes.push_back(std::move(own));
    }

    // Whether a row is placed: it asks for nothing, has one least server, or has a class.
    bool add_row(uint32_t region, Text handle, uint64_t count) {
        find_least(region, handle);
        if (least.empty()) return count == 0;
        if (least.size() == 1) {
            send(region, least[0], count);
            return true;
        }
        Class* own = find_class(region);
        if (!own) return false;
        own->asked += count;
        return own->is_seen = true;
    }
};

// ---- check

// The capacities of the servers, each by the place of its record.
std::vector<uint64_t> read_capacities() {
    std::unordered_map<std::string, uint64_t> of;
    each_row("capacity.csv", [&](Text line) {
        size_t comma = line.rfind(',');
        of.emplace(line.substr(0, comma), number(line.substr(comma + 1)));
    });
    std::vector<uint64_t> capacities;
    for (const std::string& name : server_names) capacities.push_back(of[name]);
    return capacities;
}

// Reads a certificate, and returns the cost that it claims.
Sum read_certificate(const char* path, Tally& tally) {
    Sum claimed = 0;
    each_line(path, [&](Text line) {
        Text word = cut(line, ' ');
        if (word == "cost") claimed = number(line);
        if (word == "server") {
            cut(line, ' ');
            prices.push_back(number(line));
        }
        if (word != "class") return;
        Class own;
        own.region = cut(line, ' ');
        while (!line.empty()) {
            own.servers.push_back(uint16_t(number(cut(line, ' '))));
            own.amounts.push_back(number(cut(line, ' ')));
        }
        tally.send_class(own);
        tally.add_class(std::move(own));
    });
    return claimed;
}

bool are_asked_for(const Tally& tally) {
    for (const Class& own : tally.classes) {
        Sum sent = 0;
        for (uint64_t amount : own.amounts) sent += amount;
        if (!own.is_seen || sent != own.asked) return false;
    }
    return true;
}

bool fits(const Tally& tally, const std::vector<uint64_t>& capacities) {
    for (size_t server = 0; server < capacities.size(); server++) {
        if (tally.loads[server] > capacities[server]) return false;
        if (tally.loads[server] < capacities[server] && prices[server] > 0) return false;
    }
    return true;
}

bool check(const char* path) {
    std::vector<uint64_t> capacities = read_capacities();
    Tally tally;
    Sum claimed = read_certificate(path, tally);
    fill_pays();
    bool are_placed = true;
    each_row("log.csv", [&](Text line) {
        Text region = cut(line, ',');
        size_t comma = line.rfind(',');
        uint64_t count = number(line.substr(comma + 1));
        are_placed &= tally.add_row(regions.find(region)->second, line.substr(0, comma), count);
    });
    return are_placed && are_asked_for(tally) && claimed == tally.cost && fits(tally, capacities);
}

// ---- answer

// What a front has of the amount of a class at a server, and what is left of that.
struct Cell {
    uint16_t server;
    uint64_t share, left;
};

// The room that is left at a server, and how much of it is held for classes.
struct Room {
    uint64_t left = 0, held = 0;

    bool is_free() const { return left > held; }
};

struct Servers {
    uint16_t count = 0;
    uint16_t numbers[kMostSites];

    void add(uint32_t server) { numbers[count++] = uint16_t(server); }
    const uint16_t* begin() const { return numbers; }
    const uint16_t* end() const { return numbers + count; }
};

// What is the same each time that a row is asked for: its servers in the order of their sites, the least of them, and
// the first cell of its class, or none.
struct Route {
    uint32_t region = 0;
    Servers all, least;
    size_t first = kNone;
};

class Front {
  public:
    Front(Tally& tally, uint64_t fronts, uint64_t front) : tally_(tally), fronts_(fronts), front_(front) {
        std::vector<uint64_t> capacities = read_capacities();
        rooms_.resize(capacities.size());
        for (const Class& own : tally.classes) add_class(own);
        for (size_t server = 0; server < capacities.size(); server++)
            rooms_[server].left = share(capacities[server] - uint64_t(tally.loads[server])) + rooms_[server].held;
        name_servers();
    }

    // The line that a row is answered by. What it takes is taken.
    const std::string& answer(Text row) {
        const Route& route = route_of(row);
        if (route.all.count == 0) return count(3, unknown_);
        if (Cell* cell = fullest(route)) {
            cell->left--;
            rooms_[cell->server].held--;
            return take(0, cell->server);
        }
        for (uint16_t server : route.least)
            if (rooms_[server].is_free()) return take(0, server);
        uint64_t other = cheapest(route, [](const Room& room) { return room.is_free(); });
        if (other == kNone) other = cheapest(route, [](const Room& room) { return room.left > 0; });
        return other == kNone ? count(2, full_) : take(1, other);
    }

    void print_sums() const {
        fprintf(stderr, "assigned %zu diverted %zu full %zu unknown %zu refused 0\n", sums_[0], sums_[1], sums_[2],
                sums_[3]);
    }

  private:
    uint64_t share(uint64_t number) const { return number / fronts_ + (front_ < number % fronts_); }

    void add_class(const Class& own) {
        firsts_.push_back(cells_.size());
        for (size_t at = 0; at < own.servers.size(); at++) {
            uint64_t amount = share(own.amounts[at]);
            cells_.push_back({own.servers[at], amount, amount});
            rooms_[own.servers[at]].held += amount;
        }
    }

    void name_servers() {
        for (const Site& site : sites)
            for (uint32_t place = 0; place < site.servers; place++) {
                std::string own = server_names[site.first + place].substr(site.name.size() + 1);
                std::string named = " " + site.name + " " + std::to_string(place) + " " + own + "\n";
                lines_[0].push_back("assigned" + named);
                lines_[1].push_back("diverted" + named);
            }
    }

    const Route& route_of(Text row) {
        auto known = seen_.find(row);
        if (known != seen_.end()) return known->second;
        Text handle = row;
        auto region = regions.find(cut(handle, ','));
        scratch_ = Route();
        if (region != regions.end()) find_route(region->second, handle);
        return seen_.size() < kSeen ? seen_.emplace(row, scratch_).first->second : scratch_;
    }

    void find_route(uint32_t region, Text handle) {
        scratch_.region = region;
        Places places(handle);
        for (const Site& site : sites) {
            uint32_t server = places.server(site);
            if (pays[region][server] != kNone) scratch_.all.add(server);
        }
        uint64_t fewest = kNone;
        for (uint16_t server : scratch_.all) fewest = std::min(fewest, pays[region][server]);
        for (uint16_t server : scratch_.all)
            if (pays[region][server] == fewest) scratch_.least.add(server);
        if (scratch_.least.count < 2) return;
        tally_.least.assign(scratch_.least.begin(), scratch_.least.end());
        if (Class* own = tally_.find_class(region)) scratch_.first = firsts_[size_t(own - tally_.classes.data())];
    }

    // The cell of which the greatest part is left, of those of the row's class that can give, the first of such cells.
    Cell* fullest(const Route& route) {
        Cell* best = nullptr;
        if (route.first == kNone) return best;
        for (size_t at = 0; at < route.least.count; at++) {
            Cell& cell = cells_[route.first + at];
            if (cell.left == 0 || rooms_[cell.server].left == 0) continue;
            if (!best || Sum(cell.left) * best->share > Sum(best->left) * cell.share) best = &cell;
        }
        return best;
    }

    // The first server of least pay whose room passes.
    template <typename F>
    uint64_t cheapest(const Route& route, F passes) const {
        uint64_t found = kNone, fewest = kNone;
        for (uint16_t server : route.all) {
            uint64_t pay = pays[route.region][server];
            if (pay >= fewest || !passes(rooms_[server])) continue;
            found = server;
            fewest = pay;
        }
        return found;
    }

    const std::string& take(size_t word, uint64_t server) {
        rooms_[server].left--;
        return count(word, lines_[word][server]);
    }

    const std::string& count(size_t word, const std::string& line) {
        sums_[word]++;
        return line;
    }

    Tally& tally_;
    uint64_t fronts_, front_;
    std::vector<Cell> cells_;
    std::vector<size_t> firsts_;
    std::vector<Room> rooms_;
    std::vector<std::string> lines_[2];
    std::string full_ = "full\n", unknown_ = "unknown\n";
    size_t sums_[4] = {0, 0, 0, 0};
    std::unordered_map<std::string, Route, Hash, std::equal_to<>> seen_;
    Route scratch_;
};

void print_answers(const char* path, const char* log, uint64_t fronts, uint64_t number_of_front) {
    Tally tally;
    read_certificate(path, tally);
    fill_pays();
    Front front(tally, fronts, number_of_front);
    std::string answers;
    each_row(log, [&](Text row) {
        answers += front.answer(row);
        if (answers.size() < kPiece) return;
        fwrite(answers.data(), 1, answers.size(), stdout);
        answers.clear();
    });
    fwrite(answers.data(), 1, answers.size(), stdout);
    front.print_sums();
}

// ---- make

std::mt19937_64 draws(1);

uint64_t below(uint64_t limit) { return draws() % limit; }

// What is drawn: so many rows, at most so many classes, and prices, counts and handles up to these.
struct Drawn {
    uint64_t rows, classes, price, count, handles;
};

// Draws rows. A row that would begin a class too many is drawn again.
void draw_log(Tally& tally, const Drawn& drawn) {
    FILE* log = fopen("log.csv", "w");
    fprintf(log, "region,handle,count\n");
    for (uint64_t rows = 0; rows < drawn.rows;) {
        uint32_t region = uint32_t(below(regions.size()));
        uint64_t object = below(drawn.handles), count = 1 + below(drawn.count);
        char handle[64];
        unsigned authority = unsigned(object % 1009);
        int length = snprintf(handle, sizeof handle, "20.500.%u/object-%09u", authority, unsigned(object));
        if (!tally.add_row(region, Text(handle, size_t(length)), count)) {
            if (tally.classes.size() == drawn.classes) continue;
            tally.add_class({region_names[region], tally.least, {}, count});
        }
        fprintf(log, "%s,%s,%u\n", region_names[region].c_str(), handle, unsigned(count));
        rows++;
    }
    fclose(log);
}

// Deals what a class asks for over its servers in drawn parts.
void deal(Class& own) {
    uint64_t left = uint64_t(own.asked);
    for (size_t at = 0; at + 1 < own.servers.size(); at++) {
        own.amounts.push_back(below(left + 1));
        left -= own.amounts.back();
    }
    own.amounts.push_back(left);
}

void write_capacities(const Tally& tally) {
    FILE* file = fopen("capacity.csv", "w");
    fprintf(file, "site,server_id,capacity\n");
    for (size_t server = 0; server < site_of.size(); server++) {
        uint64_t load = uint64_t(tally.loads[server]), room = prices[server] ? 0 : below(1000);
        fprintf(file, "%s,%llu\n", server_names[server].c_str(), static_cast<unsigned long long>(load + room));
    }
    fclose(file);
}

// Writes the certificate, with so many queries more of its first class.
void write_certificate(const char* path, const Tally& tally, uint64_t more) {
    FILE* file = fopen(path, "w");
    fprintf(file, "HSPLAN PRICES 1\nPLAN\ncost %llu\n", static_cast<unsigned long long>(tally.cost));
    for (size_t server = 0; server < prices.size(); server++)
        fprintf(file, "server %zu %llu\n", server, static_cast<unsigned long long>(prices[server]));
    for (const Class& own : tally.classes) {
        fprintf(file, "class %s", own.region.c_str());
        for (size_t at = 0; at < own.servers.size(); at++) {
            uint64_t amount = own.amounts[at] + more;
            more = 0;
            fprintf(file, " %u %llu", own.servers[at], static_cast<unsigned long long>(amount));
        }
        fprintf(file, "\n");
    }
    fprintf(file, "END\n");
    fclose(file);
}

void make(const Drawn& drawn) {
    for (size_t server = 0; server < site_of.size(); server++) prices.push_back(below(2) * below(drawn.price + 1));
    fill_pays();
    Tally tally;
    draw_log(tally, drawn);
    std::sort(tally.classes.begin(), tally.classes.end(), [](const Class& a, const Class& b) {
        return a.region != b.region ? a.region < b.region : a.servers < b.servers;
    });
    for (Class& own : tally.classes) {
        deal(own);
        tally.send_class(own);
    }
    write_capacities(tally);
    write_certificate("right.prices", tally, 0);
    write_certificate("wrong.prices", tally, 1);
}

}  // namespace

int main(int count, char** words) {
    if (count < 3) return 2;
    read_service();
    Text command = words[1];
    std::vector<uint64_t> numbers;
    for (int at = 2; at < count; at++) numbers.push_back(number(words[at]));
    if (command == "check") puts(check(words[2]) ? "yes" : "no");
    if (command == "answer" && count == 6) print_answers(words[2], words[3], numbers[2], numbers[3]);
    if (command == "make" && count == 7) make({numbers[0], numbers[1], numbers[2], numbers[3], numbers[4]});
    return 0;
}
