// Uses devices like any C++ program. Prints a line for each result, which must be the same in each
// version of C++.
#include "tpmsim.hpp"
#include <cstdio>
#include <thread>

using libtpmsim::Device;
using libtpmsim::Response;
using Buffer = std::vector<std::uint8_t>;

// Random bytes that count up, and are therefore the same in each run.
static libtpmsim::Random counting() {
    return [next = std::uint8_t{0}](std::uint8_t *start, std::size_t size) mutable {
        while (size-- > 0) *start++ = next++;
        return true;
    };
}

static void tell(const char *what, const Response &response) {
    std::printf("%s: %zu bytes, %03x, command %03x, %s\n", what, response.bytes.size(),
                response.code, response.command, response.check.c_str());
}

#ifdef __cpp_exceptions
static Buffer get_random(std::uint8_t count) {
    return {0x80, 1, 0, 0, 0, 12, 0, 0, 1, 0x7b, 0, count};
}

// Prints the exception that a call throws.
template <class Call> static void tell_thrown(const char *what, Call call) {
    try {
        call();
        std::printf("%s: nothing is thrown\n", what);
    } catch (const libtpmsim::Error &error) {
        std::printf("%s: %u is thrown, %s\n", what, error.told, error.what());
    }
}

static void commands() {
    Device tpm = Device::of(counting());
    tell("before its start", tpm.execute(get_random(4)));
    tell("its start", tpm.execute(libtpmsim::startup));
    const std::array<std::uint8_t, 12> constant{0x80, 1, 0, 0, 0, 12, 0, 0, 1, 0x7b, 0, 16};
    tell("an array", tpm.execute(constant));
    tell("nothing", tpm.execute({}));
    tell("a pointer and a size", tpm.execute({constant.data(), 11}));
    const Response first = tpm.execute(get_random(8)), second = tpm.execute(get_random(8));
    std::printf("it draws the same again: %d\n", first.bytes == second.bytes);
    tell("what it lacks", tpm.execute(Buffer{0x80, 1, 0, 0, 0, 13, 0, 0, 1, 0x46, 0, 1, 7}));
    tell("the layer", tpm.complete(Buffer{0x80, 1, 0, 0, 0, 13, 0, 0, 1, 0x46, 0, 1, 7}));
    std::printf("accepted: %zu bytes\n", tpm.accepted(get_random(4)).size());
    try {
        tpm.accepted(libtpmsim::startup);
    } catch (const libtpmsim::Refusal &refusal) {
        std::printf("a refusal is thrown: %s\n", refusal.what());
        tell("its response", refusal.response);
    }
}

static void seeds() {
    for (const char *seed : {"mine", "mine", "other"}) {
        Device tpm = Device::from_seed(seed);
        tpm.execute(libtpmsim::startup);
        std::printf("from the seed %s: %s\n", seed, libtpmsim::hex_of(tpm.accepted(get_random(4))).c_str());
    }
    for (const std::size_t size : {std::size_t{0}, std::size_t{135}, std::size_t{136}, std::size_t{137}})
        std::printf("%u ", libtpmsim::shake256(std::string(size, '\xa3'))[255]);
    std::printf("\n");
}

static void logs() {
    Device tpm = Device::of(counting());
    std::printf("no log: %zu bytes\n", tpm.log().size());
    tpm.begin_log();
    tpm.wait(std::chrono::milliseconds(7));
    tpm.set_locality(3);
    tpm.execute(get_random(4));
    tpm.complete(libtpmsim::startup);
    tpm.power_cycle();
    const std::string log = tpm.log();
    std::printf("%s", log.substr(log.find('\n') + 1).c_str());
    tpm.restore(tpm.snapshot());
    std::printf("restored: %zu bytes after the state\n", tpm.log().size() - tpm.log().find('\n') - 1);
}

static void times() {
    Device tpm;
    tpm.execute(libtpmsim::startup);
    tpm.elapsed_ms = 70000;
    const Buffer read_clock{0x80, 1, 0, 0, 0, 10, 0, 0, 1, 0x81};
    const Response then = tpm.execute(read_clock), later = tpm.execute(read_clock);
    unsigned time = 0;
    for (std::size_t at = 10; at < 18; at++) time = time << 8 | then.bytes[at];
    std::printf("%u milliseconds passed\n", time);
    std::printf("no time passes by itself: %d\n", then.bytes == later.bytes);
    tpm.locality = 5;
    tell_thrown("locality 5", [&] { tpm.execute(read_clock); });
    tell_thrown("locality 5 is set", [&] { tpm.set_locality(5); });
    tell_thrown("49 days and more", [&] { tpm.wait(std::chrono::hours(24 * 50)); });
    tpm.locality = 4;
    tell_thrown("locality 4", [&] { tpm.execute(read_clock); });
}

static void texts() {
    Device tpm;
    const Buffer fresh = tpm.snapshot();
    tpm.execute(libtpmsim::startup);
    const Buffer started = tpm.snapshot(), image = tpm.save();
    tpm.restore(fresh);
    std::printf("it is as it was: %d %d\n", tpm.snapshot() == fresh, fresh == started);
    tell_thrown("no state text", [&] { tpm.restore(image); });
    tell_thrown("no bytes", [&] { tpm.restore({}); });
    Device opened = Device::open(image);
    std::printf("the image is the same: %d\n", opened.save() == image);
    tell_thrown("no image", [&] { Device::open(Buffer(100, 0)); });
    tell("it awaits its start", opened.execute(get_random(1)));
    opened.execute(libtpmsim::startup);
    opened.power_cycle();
    tell("and after a power cycle", opened.execute(get_random(1)));
}

static void moves() {
    Device first;
    first.execute(libtpmsim::startup);
    Device second(std::move(first));
    tell_thrown("the device was moved", [&] { first.execute(get_random(1)); });
    std::thread([device = std::move(second)]() mutable {
        tell("in a thread", device.execute(get_random(1)));
        device = Device();
        tell("another one", device.execute(get_random(1)));
    }).join();
    tell_thrown("no random bytes", [] { Device::of([](auto *, auto) { return false; }); });
}
#endif

// Tests the calls that return errors instead of throwing them.
static int told() {
    libtpmsim::Told told = 99;
    std::optional<Device> tpm = Device::make(told, counting());
    if (!tpm) return 1;
    tell("a start", tpm->execute(libtpmsim::startup, told));
    std::printf("told %u\n", told);
    tpm->restore(tpm->save(), told);
    std::printf("no state text: told %u\n", told);
    std::printf("no image: %d", Device::open(Buffer(100, 0), told).has_value());
    std::printf(", told %u\n", told);
    int draws = 0;
    auto twice = [&draws](std::uint8_t *, std::size_t) { return draws++ < 2; };
    std::optional<Device> dry = Device::make(told, twice);
    dry->execute(libtpmsim::startup, told);
    std::printf("random bytes end: told %u", told);
    dry->execute(libtpmsim::startup, told);
    std::printf(", and then %u\n", told);
    return 0;
}

int main() {
#ifdef __cpp_exceptions
    commands();
    seeds();
    logs();
    times();
    texts();
    moves();
#endif
    return told();
}
