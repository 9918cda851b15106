// The library and the program beside other ways to list chains, on the same graphs and questions: one round. Every pair is timed in
// turns in a child of its own, whose processor time and memory are bounded: a side that would take too long is stopped and told as
// such. Writes a line of figures for each case and side; the table is made of them by table.py. Never part of pass or fail.
#include "../plain/measure.hpp"
#include "cases.hpp"
#include "side.hpp"
#include <csignal>
#include <cstdio>
#include <fcntl.h>
#include <functional>
#include <sys/resource.h>
#include <sys/time.h>
#include <sys/wait.h>
#include <unistd.h>

static const rlim_t MOST_BYTES = rlim_t(4) << 30;
static double most_seconds = 10;

// Counts and checksums of both sides, and the least time of each.
struct Figures {
    uint64_t our_count, our_checksum, count, checksum;
    double our_seconds, seconds;
};

// A portion from the bytes of the file to records: the library's or a plain one.
class Portions : public Side {
    const Bytes file;
    const bool whole;
    Cells out;
    size_t count = 0;
    uint64_t (*const portion)(const Call &, Cells &);

  public:
    Portions(const Case &c, size_t room, bool whole, uint64_t (*portion)(const Call &, Cells &))
        : file(file_of(c.links)), whole(whole), out(room * RECORD), portion(portion) {}

    Portions(const Case &c, uint64_t (*portion)(const Call &, Cells &)) : Portions(c, c.room(), c.whole(), portion) {}

    size_t list(const question &q) override {
        const uint64_t answer = portion({file, q, nullptr}, out);
        if (answer & REFUSED || (whole && !(answer & ENDED))) {
            fputs("refused, or the room is too small\n", stderr);
            _exit(1);
        }
        return count = answer & ~ENDED;
    }

    uint64_t checksum() const override {
        uint64_t sum = 0;
        for (size_t i = 0; i < count; ++i) sum += chain_checksum(&out[i * RECORD + 1], out[i * RECORD] + 1);
        return sum;
    }
};

static std::unique_ptr<Side> side(const std::string &name, const Case &c) {
    if (name == "unpruned") return std::make_unique<Portions>(c, plain<Pruned::by_nothing>);
    if (name == "igraph") return igraph_side(c.links);
    return std::make_unique<Portions>(c, plain<Pruned::by_barriers>);
}

// Limits.

static void bound_time(double seconds) {
    itimerval timer{};
    timer.it_value.tv_sec = time_t(seconds);
    timer.it_value.tv_usec = suseconds_t((seconds - double(timer.it_value.tv_sec)) * 1e6);
    setitimer(ITIMER_PROF, &timer, nullptr);
}

struct Outcome {
    enum { DONE, OVER_TIME, OVER_MEMORY, FAILED } state;
    double seconds;
};

// What became of a child within the limits, and its processor time.
static Outcome in_child(const std::function<void()> &work) {
    fflush(nullptr);
    const pid_t child = fork();
    if (child == 0) {
        const rlimit memory{MOST_BYTES, MOST_BYTES};
        setrlimit(RLIMIT_AS, &memory);
        bound_time(most_seconds);
        work();
        _exit(0);
    }
    int status = 0;
    rusage used{};
    if (child < 0 || wait4(child, &status, 0, &used) != child) return {Outcome::FAILED, 0};
    const auto spent = [](const timeval &t) { return double(t.tv_sec) + double(t.tv_usec) * 1e-6; };
    const double seconds = spent(used.ru_utime) + spent(used.ru_stime);
    if (WIFSIGNALED(status) && WTERMSIG(status) == SIGPROF) return {Outcome::OVER_TIME, seconds};
    if (WIFEXITED(status) && WEXITSTATUS(status) == OUT_OF_MEMORY) return {Outcome::OVER_MEMORY, seconds};
    return {WIFEXITED(status) && WEXITSTATUS(status) == 0 ? Outcome::DONE : Outcome::FAILED, seconds};
}

// The library.

static void ask_all(Side &side, const Case &c) {
    for (const question &q : c.questions) side.list(q);
}

// One run over the questions with its count and checksum. The time it answers is that of the lists alone.
static double check_all(Side &side, const Case &c, uint64_t &count, uint64_t &checksum) {
    double spent = 0;
    count = checksum = 0;
    for (const question &q : c.questions) {
        spent += timed([&] { count += side.list(q); }, 1);
        checksum += side.checksum();
    }
    return spent;
}

// Our count and checksum of all chains, also where the room is smaller: what a side that cannot stop early is held against.
static void check_whole(const Case &c, uint64_t &count, uint64_t &checksum) {
    Portions whole(c, 6000000, true, ours);
    check_all(whole, c, count, checksum);
}

static Figures measured(Side &one, Side &other, const Case &c) {
    Figures f{};
    Timed theirs([&] { ask_all(other, c); }, check_all(other, c, f.count, f.checksum));
    bound_time(0);
    Timed ours([&] { ask_all(one, c); }, check_all(one, c, f.our_count, f.our_checksum));
    take_turns(ours, theirs);
    f.our_seconds = ours.least;
    f.seconds = theirs.least;
    return f;
}

static Outcome library_beside(const std::string &name, const Case &c, Figures &f) {
    int ends[2];
    if (pipe(ends)) return {Outcome::FAILED, 0};
    const Outcome outcome = in_child([&] {
        const auto other = side(name, c);
        Portions one(c, name == "itself" ? plain<Pruned::by_barriers> : ours);
        Figures found = measured(one, *other, c);
        if (name == "igraph" && !c.whole()) check_whole(c, found.our_count, found.our_checksum);
        if (write(ends[1], &found, sizeof found) != ssize_t(sizeof found)) _exit(1);
    });
    close(ends[1]);
    const bool told = read(ends[0], &f, sizeof f) == ssize_t(sizeof f);
    close(ends[0]);
    return told || outcome.state != Outcome::DONE ? outcome : Outcome{Outcome::FAILED, 0};
}

// The program.

using Words = std::vector<std::string>;

static Outcome run(const Words &words, const std::string &input, const std::string &output) {
    return in_child([&] {
        std::vector<char *> argv;
        for (auto &word : words) argv.push_back(const_cast<char *>(word.c_str()));
        argv.push_back(nullptr);
        const int from = open(input.c_str(), O_RDONLY), to = open(output.c_str(), O_WRONLY | O_CREAT | O_TRUNC, 0644);
        if (dup2(from, 0) < 0 || dup2(to, 1) < 0) _exit(1);
        execv(argv[0], argv.data());
        _exit(1);
    });
}

// Count and checksum of the chains in what a program printed. The count of its last line has to be the same.
static bool check_lines(const std::string &output, uint64_t &count, uint64_t &checksum) {
    count = checksum = 0;
    bool ended = false;
    FILE *lines = fopen(output.c_str(), "r");
    char line[128];
    while (lines && fgets(line, sizeof line, lines)) {
        if (strncmp(line, "end ", 4) == 0) {
            ended = strtoull(line + 4, nullptr, 10) == count;
            break;
        }
        char *at = line;
        uint32_t persons[RECORD], hops = uint32_t(strtoul(at, &at, 10));
        if (hops > 8 || *at++ != ':') break;
        for (uint32_t i = 0; i <= hops; ++i) persons[i] = uint32_t(strtoul(at, &at, 10));
        checksum += chain_checksum(persons, hops + 1);
        ++count;
    }
    if (lines) fclose(lines);
    return ended;
}

// As for the library: a first run for counts and checksums, then turns, to nowhere.
static Outcome program_beside(const Words &ours, const Words &other, const std::string &input, Figures &f) {
    const std::string printed = input + ".printed", nowhere = "/dev/null";
    const Outcome first = run(other, input, printed);
    if (first.state != Outcome::DONE) return first;
    bool good = check_lines(printed, f.count, f.checksum);
    good = run(ours, input, printed).state == Outcome::DONE && check_lines(printed, f.our_count, f.our_checksum) && good;
    unlink(printed.c_str());
    f.seconds = f.our_seconds = 1e9;
    for (int turn = 0; turn < 6; ++turn) {
        f.our_seconds = std::min(f.our_seconds, run(ours, input, nowhere).seconds);
        if (turn == 0 || first.seconds < 0.5) f.seconds = std::min(f.seconds, run(other, input, nowhere).seconds);
    }
    return {good ? Outcome::DONE : Outcome::FAILED, f.seconds};
}

// What is written.

static void tell(const std::string &key, const std::string &name, const std::string &side, const Outcome &o, const Figures &f) {
    const char *const states[] = {"done", "over time", "over memory", "failed"};
    printf("%s\t%s\t%s\t%s\t%llu\t%llu\t%llu\t%llu\t%.9f\t%.9f\n", key.c_str(), name.c_str(), side.c_str(), states[o.state],
           static_cast<unsigned long long>(f.our_count), static_cast<unsigned long long>(f.our_checksum),
           static_cast<unsigned long long>(f.count), static_cast<unsigned long long>(f.checksum), f.our_seconds,
           o.state == Outcome::DONE ? f.seconds : o.seconds);
}

// The cases for a side in another language, one JSON object a line.
static void write_cases(const std::vector<Case> &cases, const std::string &path) {
    FILE *file = fopen(path.c_str(), "w");
    for (const Case &c : cases) {
        fprintf(file, "{\"key\": \"%s\", \"name\": \"%s\", \"room\": %zu, \"whole\": %d, \"printed\": %d", c.key.c_str(),
                c.name.c_str(), c.room(), c.whole(), c.wanted == A_MILLION);
        const char *between = ", \"questions\": [";
        for (auto &q : c.questions) {
            fprintf(file, "%s[%u, %u, %u]", between, q.from, q.to, q.hops);
            between = ", ";
        }
        between = "], \"links\": [";
        for (size_t p = 0; p < c.links.size(); ++p)
            for (auto &row : c.links[p]) {
                fprintf(file, "%s[%zu, %d]", between, p, row.first);
                between = ", ";
            }
        fprintf(file, "], \"persons\": %zu}\n", c.links.size());
    }
    fclose(file);
}

static void write_input(const Case &c, const std::string &path) {
    const Bytes input = input_of(c.questions[0], file_of(c.links));
    FILE *file = fopen(path.c_str(), "wb");
    fwrite(input.data(), 1, input.size(), file);
    fclose(file);
}

// A round.

class Asking {
    const std::string self, chains, plain_program, folder;
    Words sides{"unpruned", "pruned", "itself"};
    const Words slow;  // who took over a second or was stopped in an earlier round

    template <class F> void once(const std::string &key, const std::string &name, const std::string &side, F beside) {
        if (std::find(slow.begin(), slow.end(), key + side) != slow.end()) return;
        Figures f{};
        const Outcome o = beside(f);
        tell(key, name, side, o, f);
    }

    Words program(const std::string &side) const {
        if (side == "igraph") return {self, "igraph"};
        return side == "unpruned" ? Words{plain_program, "unpruned"} : Words{plain_program};
    }

    void programs(const Case &c) {
        const std::string input = folder + "/" + c.key;
        write_input(c, input);
        for (auto &side : sides)
            once("program-" + c.key, "program, " + c.name, side, [&](Figures &f) {
                return program_beside(side == "itself" ? program(side) : Words{chains}, program(side), input, f);
            });
    }

  public:
    Asking(char **word, const Words &slow) : self(word[0]), chains(word[1]), plain_program(word[2]), folder(word[3]), slow(slow) {
        if (igraph_side(Links(1))) sides.push_back("igraph");
    }

    void all(const std::vector<Case> &cases) {
        write_cases(cases, folder + "/cases");
        for (const Case &c : cases) {
            fprintf(stderr, "%s\n", c.name.c_str());
            for (auto &side : sides) once(c.key, c.name, side, [&](Figures &f) { return library_beside(side, c, f); });
            if (c.wanted == A_MILLION) programs(c);
        }
    }
};

// The words behind the first five name who is not asked again: KEY and SIDE in one word.
int main(int words, char **word) {
    if (words == 2 && std::string(word[1]) == "igraph") return igraph_program();
    if (words < 5) return fputs("beside CHAINS PLAIN_PROGRAM FOLDER SECONDS [KEYSIDE...]\n", stderr), 2;
    most_seconds = atof(word[4]);
    Asking(word, Words(word + 5, word + words)).all(all_cases());
}
