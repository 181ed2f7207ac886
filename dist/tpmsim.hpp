/* libtpmsim for C++17 and later: a TPM 2.0 in this process. tpmsim.h describes each call.

       libtpmsim::Device tpm;
       tpm.execute(libtpmsim::startup);
       const std::array<std::uint8_t, 12> get_random{0x80, 1, 0, 0, 0, 12, 0, 0, 1, 0x7b, 0, 16};
       libtpmsim::Response response = tpm.execute(get_random);

   A device can be moved, also to another thread. One thread at a time may use it, and its destructor
   frees it. A failing function throws an Error. The functions that take a `Told` report failures there
   and do not throw; with -fno-exceptions there are only these. */
#ifndef TPMSIM_HPP
#define TPMSIM_HPP

#if __cplusplus < 201703L
#error "tpmsim.hpp needs C++17 or later: compile with -std=c++17"
#else

#include "tpmsim.h"
#if __has_include("tpmsim_names.h")
#include "tpmsim_names.h"
#endif
#include <array>
#include <cerrno>
#include <chrono>
#include <cstddef>
#include <cstdint>
#include <functional>
#include <iterator>
#include <limits>
#include <optional>
#include <stdexcept>
#include <string>
#include <sys/random.h>
#include <utility>
#include <vector>
#if __cplusplus >= 202002L
#include <span>
#endif

namespace libtpmsim {

/* What a call returns: a number of tpmsim_told; NO_RANDOM if the system has no random bytes; or NO_TIME
   if more than 4,294,967,295 milliseconds would pass before a command. */
using Told = std::uint8_t;
inline constexpr Told NO_RANDOM = 255, NO_TIME = 254;

/* Returns the name that tpmsim.h gives to the result of a call. */
inline std::string name_of(Told told) {
    static const char *const names[] = {
        "DONE",          "NO_DEVICE",     "NO_LOCALITY",  "NO_MEMORY",    "IMAGE_SHORT",
        "IMAGE_MAGIC",   "IMAGE_VERSION", "IMAGE_LENGTH", "IMAGE_DIGEST", "IMAGE_BODY",
        "NO_JOURNAL",    "DAMAGED",       "OTHERWISE",    "STATE_SHORT",  "STATE_MAGIC",
        "STATE_VERSION", "STATE_LENGTH",  "STATE_DIGEST", "STATE_BODY",   "NO_WORD",
        "NO_ANSWER",     "STATE_EARLIER"};
    if (told < std::size(names)) return std::string("TPMSIM_") + names[told];
    return told == NO_TIME ? "TPMSIM_NO_TIME" : "TPMSIM_NO_RANDOM";
}

#ifdef __cpp_exceptions
struct Error : std::runtime_error {
    Told told;
    explicit Error(Told it) : runtime_error(name_of(it)), told(it) {}
};
#endif

#if __cplusplus >= 202002L
using Bytes = std::span<const std::uint8_t>;
#else
/* Borrowed bytes: a pointer and a size, or anything with data() and size(), such as a vector. */
class Bytes {
    const std::uint8_t *start;
    std::size_t count;

  public:
    Bytes() : Bytes(nullptr, 0) {}
    Bytes(const std::uint8_t *data, std::size_t size) : start(data), count(size) {}
    template <class All> Bytes(const All &all) : Bytes(std::data(all), std::size(all)) {}
    const std::uint8_t *data() const { return start; }
    std::size_t size() const { return count; }
};
#endif

/* TPM2_Startup(CLEAR). */
inline constexpr std::array<std::uint8_t, 12> startup{0x80, 1, 0, 0, 0, 12, 0, 0, 1, 0x44, 0, 0};

struct Response {
    std::vector<std::uint8_t> bytes; /* the whole response; empty if nothing was executed */
    std::uint32_t code = 0;          /* the response code, TPM_RC; 0 if the command was accepted */
    std::uint32_t command = 0;       /* the command code, TPM_CC, of any command; 0 if the buffer contains none */
    std::string check;               /* "ok", or the check that refused, such as "G9" in docs/table */
};

/* Returns bytes in hex. */
inline std::string hex_of(Bytes bytes) {
    static constexpr char digits[] = "0123456789abcdef";
    std::string text;
    for (std::size_t at = 0; at < bytes.size(); at++) {
        text += digits[bytes.data()[at] >> 4];
        text += digits[bytes.data()[at] & 15];
    }
    return text;
}

/* Returns a refusal in words, such as "GetRandom: INITIALIZE (100), by G5". Without tpmsim_names.h, the
   words are numbers. */
inline std::string words_of(const Response &response) {
#ifdef TPMSIM_NAMES_H
    char code[TPMSIM_CODE_TEXT_SIZE];
    return std::string(tpmsim_command_name(response.command)) + ": " +
           tpmsim_code_text(response.code, code) + ", by " + response.check;
#else
    const auto word = [](std::uint32_t number) {
        const std::array<std::uint8_t, 2> bytes{static_cast<std::uint8_t>(number >> 8 & 0xff),
                                                static_cast<std::uint8_t>(number & 0xff)};
        return hex_of(bytes);
    };
    return "command " + word(response.command) + ": code " + word(response.code) + ", by " + response.check;
#endif
}

#ifdef __cpp_exceptions
/* What `accepted` throws: the refusal of a command. */
struct Refusal : std::runtime_error {
    Response response;
    explicit Refusal(Response it) : runtime_error(words_of(it)), response(std::move(it)) {}
};
#endif

/* The first 256 bytes of SHAKE256 (FIPS 202) of a text. */
inline std::array<std::uint8_t, 256> shake256(const std::string &text) {
    static constexpr std::uint64_t constants[] = {
        0x0000000000000001, 0x0000000000008082, 0x800000000000808a, 0x8000000080008000,
        0x000000000000808b, 0x0000000080000001, 0x8000000080008081, 0x8000000000008009,
        0x000000000000008a, 0x0000000000000088, 0x0000000080008009, 0x000000008000000a,
        0x000000008000808b, 0x800000000000008b, 0x8000000000008089, 0x8000000000008003,
        0x8000000000008002, 0x8000000000000080, 0x000000000000800a, 0x800000008000000a,
        0x8000000080008081, 0x8000000000008080, 0x0000000080000001, 0x8000000080008008};
    /* The steps rho and pi, lane by lane: the target of each lane. The number of bits is 1, 3, 6, 10, .. */
    static constexpr std::size_t targets[] = {10, 7,  11, 17, 18, 3, 5,  16, 8,  21, 24, 4,
                                              15, 23, 19, 13, 12, 2, 20, 14, 22, 9,  6,  1};
    static constexpr std::size_t rate = 136;
    std::array<std::uint64_t, 25> lanes{};
    const auto turn = [](std::uint64_t lane, unsigned bits) {
        return bits == 0 ? lane : lane << bits | lane >> (64 - bits);
    };
    const auto add = [&lanes](std::size_t at, unsigned byte) {
        lanes[at / 8] ^= std::uint64_t{byte} << (at % 8 * 8);
    };
    const auto permute = [&lanes, turn] {
        for (const std::uint64_t constant : constants) {
            std::array<std::uint64_t, 5> parity{};
            for (std::size_t at = 0; at < 25; at++) parity[at % 5] ^= lanes[at];
            for (std::size_t at = 0; at < 25; at++)
                lanes[at] ^= parity[(at + 4) % 5] ^ turn(parity[(at + 1) % 5], 1);
            std::uint64_t moved = lanes[1];
            for (unsigned step = 0; step < 24; step++)
                moved = std::exchange(lanes[targets[step]], turn(moved, (step + 1) * (step + 2) / 2 % 64));
            for (std::size_t row = 0; row < 25; row += 5) {
                std::array<std::uint64_t, 5> before;
                for (std::size_t x = 0; x < 5; x++) before[x] = lanes[row + x];
                for (std::size_t x = 0; x < 5; x++)
                    lanes[row + x] ^= ~before[(x + 1) % 5] & before[(x + 2) % 5];
            }
            lanes[0] ^= constant;
        }
    };
    for (std::size_t at = 0; at < text.size(); at++) {
        add(at % rate, static_cast<std::uint8_t>(text[at]));
        if (at % rate == rate - 1) permute();
    }
    add(text.size() % rate, 0x1f);
    add(rate - 1, 0x80);
    permute();
    std::array<std::uint8_t, 256> out;
    for (std::size_t at = 0; at < out.size(); at++) {
        if (at == rate) permute();
        out[at] = static_cast<std::uint8_t>(lanes[at % rate / 8] >> (at % rate % 8 * 8));
    }
    return out;
}

/* A source of random bytes: fills this many bytes, and returns whether it succeeded. */
using Random = std::function<bool(std::uint8_t *, std::size_t)>;

/* Fills a buffer with the system's random bytes. */
inline bool system_random(std::uint8_t *start, std::size_t size) {
    while (size > 0) {
        const ssize_t count = getrandom(start, size, 0);
        if (count < 0 && errno != EINTR) return false;
        start += count < 0 ? 0 : count;
        size -= count < 0 ? 0 : static_cast<std::size_t>(count);
    }
    return true;
}

/* The random bytes of a device from a seed, which are the same in Rust, Go, Python and JavaScript: those of the new
   device are SHAKE256 of the seed, and those of command N are SHAKE256 of the seed and N in decimal. */
class Seed {
    std::string text;
    std::uint64_t count = 0;

  public:
    explicit Seed(std::string it) : text(std::move(it)) {}
    std::array<std::uint8_t, 256> of_device() const { return shake256(text); }
    std::array<std::uint8_t, 256> next() { return shake256(text + std::to_string(++count)); }
};

class Device {
    tpmsim holder{};
    Random random;
    std::array<std::uint8_t, 256> drawable{}; /* the random bytes that the next command may draw */
    std::optional<Seed> seed;
    std::optional<std::string> lines; /* the log */

    explicit Device(Random source) : random(std::move(source)) {}
    bool draw(std::size_t count) { return random(drawable.data(), count); }
    static const std::uint8_t *start_of(Bytes bytes) {
        static constexpr std::uint8_t none = 0;
        return bytes.size() ? bytes.data() : &none;
    }
    /* Returns the device that a call makes, if the call succeeds. */
    template <class Call> static std::optional<Device> made(Told &told, Random source, Call call) {
        Device device(std::move(source));
        told = device.draw(256) ? call(device) : NO_RANDOM;
        if (told == TPMSIM_DONE && !device.draw(256)) told = NO_RANDOM;
        return told == TPMSIM_DONE ? std::optional(std::move(device)) : std::nullopt;
    }
    /* Begins the log with the state and the circumstances of the next command. */
    void log_state() {
        if (!lines) return;
        lines = "# state " + hex_of(snapshot()) + "\n";
    }
    void log_command(bool completes, Bytes buffer, Bytes drawn, Bytes response) {
        if (!lines) return;
        if (completes) *lines += "# completed\n";
        *lines += "loc " + std::to_string(locality) + "\n";
        if (elapsed_ms) *lines += "wait " + std::to_string(elapsed_ms) + "\n";
        if (drawn.size()) *lines += "entropy " + hex_of(drawn) + "\n";
        *lines += "cmd " + hex_of(buffer) + "\n# " + hex_of(response) + "\n";
    }
    template <class Call> Response executed(Call call, bool completes, Bytes buffer, Told &told) {
        std::array<std::uint8_t, 4096> out;
        tpmsim_answered answered;
        if (seed) drawable = seed->next();
        told = call(&holder, start_of(buffer), buffer.size(), locality, elapsed_ms, drawable.data(),
                    out.data(), &answered);
        if (told != TPMSIM_DONE) return {};
        log_command(completes, buffer, {drawable.data(), answered.drawn}, {out.data(), answered.size});
        elapsed_ms = 0;
        if (!seed && !draw(answered.drawn)) { /* without new bytes, the next command would draw these again */
            told = NO_RANDOM;
            tpmsim_free(&holder);
        }
        std::uint32_t code = 0;
        for (std::size_t at = 6; at < 10; at++) code = code << 8 | out[at];
        char check[5];
        tpmsim_check_text(answered.check, check);
        std::uint32_t command = answered.code;
        for (std::size_t at = 6; answered.code == 0 && buffer.size() >= 10 && at < 10; at++)
            command = command << 8 | buffer.data()[at];
        return {{out.data(), out.data() + answered.size}, code, command, check};
    }
    template <class Call> std::vector<std::uint8_t> written(Call call) {
        std::vector<std::uint8_t> text(TPMSIM_STATE_SIZE);
        text.resize(call(&holder, text.data(), text.size()));
        return text;
    }

  public:
    std::uint8_t locality = 0;    /* the locality of the next commands, 0 to 4 */
    std::uint32_t elapsed_ms = 0; /* the time that passes before the next command */

    Device(Device &&other) noexcept
        : holder(std::exchange(other.holder, {})), random(std::move(other.random)),
          drawable(other.drawable), seed(std::move(other.seed)), lines(std::move(other.lines)),
          locality(other.locality), elapsed_ms(other.elapsed_ms) {}
    Device &operator=(Device other) noexcept {
        std::swap(holder, other.holder);
        std::swap(random, other.random);
        std::swap(drawable, other.drawable);
        std::swap(seed, other.seed);
        std::swap(lines, other.lines);
        std::swap(locality, other.locality);
        std::swap(elapsed_ms, other.elapsed_ms);
        return *this;
    }
    ~Device() { tpmsim_free(&holder); }

    /* Makes a new device, which expects TPM2_Startup. Its secrets and random bytes come from `source`. */
    static std::optional<Device> make(Told &told, Random source = system_random) {
        return made(told, std::move(source), [](Device &device) {
            return tpmsim_manufacture(&device.holder, device.drawable.data());
        });
    }
    /* Opens the device from an image, in the state after a power cycle. */
    static std::optional<Device> open(Bytes image, Told &told, Random source = system_random) {
        return made(told, std::move(source), [image](Device &device) {
            return tpmsim_open(&device.holder, start_of(image), image.size());
        });
    }
    /* Makes a new device from a seed: its secrets and random bytes are the same in each run. */
    static std::optional<Device> from_seed(Told &told, std::string seed) {
        Device device((Random(system_random)));
        device.seed.emplace(std::move(seed));
        device.drawable = device.seed->of_device();
        told = tpmsim_manufacture(&device.holder, device.drawable.data());
        return told == TPMSIM_DONE ? std::optional(std::move(device)) : std::nullopt;
    }
    Response execute(Bytes buffer, Told &told) { return executed(tpmsim_execute, false, buffer, told); }
    /* Executes a command with the completing layer above the device. */
    Response complete(Bytes buffer, Told &told) { return executed(tpmsim_complete, true, buffer, told); }
    /* Restores the device from a state text. The log begins again. */
    void restore(Bytes text, Told &told) {
        told = tpmsim_restore(&holder, start_of(text), text.size());
        if (told == TPMSIM_DONE) log_state();
    }
    void power_cycle() {
        tpmsim_power_cycle(&holder);
        if (lines) *lines += "power\n";
    }
    /* Sets the locality of the next commands, 0 to 4. */
    void set_locality(unsigned number, Told &told) {
        told = number > 4 ? Told{TPMSIM_NO_LOCALITY} : Told{TPMSIM_DONE};
        if (told == TPMSIM_DONE) locality = static_cast<std::uint8_t>(number);
    }
    /* Lets time pass before the next command. The call returns at once: it only advances the device's time. */
    void wait(std::chrono::milliseconds time, Told &told) {
        const auto most = std::numeric_limits<std::uint32_t>::max() - elapsed_ms;
        told = time.count() < 0 || time.count() > std::int64_t{most} ? NO_TIME : Told{TPMSIM_DONE};
        if (told == TPMSIM_DONE) elapsed_ms += static_cast<std::uint32_t>(time.count());
    }
    /* Begins a log from the current state. `log` returns it, for tpmsim-explain; it contains all secrets. */
    void begin_log() {
        lines.emplace();
        log_state();
    }
    std::string log() const { return lines.value_or(std::string()); }
    std::vector<std::uint8_t> save() { return written(tpmsim_save); }         /* the image */
    std::vector<std::uint8_t> snapshot() { return written(tpmsim_snapshot); } /* the state text */

#ifdef __cpp_exceptions
  private:
    template <class Call> static auto or_throw(Call call) {
        Told told = TPMSIM_DONE;
        auto value = call(told);
        if (told != TPMSIM_DONE) throw Error(told);
        return value;
    }

  public:
    Device() : Device(of(system_random)) {}
    static Device of(Random source) {
        return *or_throw([&](Told &told) { return make(told, source); });
    }
    static Device open(Bytes image) {
        return *or_throw([&](Told &told) { return open(image, told); });
    }
    static Device from_seed(std::string seed) {
        return *or_throw([&](Told &told) { return from_seed(told, seed); });
    }
    /* Executes a command, and returns the bytes after the header of its response. Throws a Refusal if the device
       refuses the command. */
    std::vector<std::uint8_t> accepted(Bytes buffer) {
        Response response = execute(buffer);
        if (response.code != 0) throw Refusal(std::move(response));
        return {response.bytes.begin() + 10, response.bytes.end()};
    }
    void set_locality(unsigned number) {
        or_throw([&](Told &told) { return set_locality(number, told), 0; });
    }
    void wait(std::chrono::milliseconds time) {
        or_throw([&](Told &told) { return wait(time, told), 0; });
    }
    Response execute(Bytes buffer) {
        return or_throw([&](Told &told) { return execute(buffer, told); });
    }
    Response complete(Bytes buffer) {
        return or_throw([&](Told &told) { return complete(buffer, told); });
    }
    void restore(Bytes text) {
        or_throw([&](Told &told) { return restore(text, told), 0; });
    }
#endif
};

} // namespace libtpmsim

#endif
#endif
