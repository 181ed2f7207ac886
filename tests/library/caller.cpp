// A caller in C++. The handle is a member of a class. A move passes it on, and the destructor frees
// it.
#include "tpmsim.h"
#include <array>
#include <cstdio>
#include <stdexcept>
#include <utility>
#include <vector>

class Device {
    tpmsim holder{};

  public:
    using Random = std::array<uint8_t, 256>;
    explicit Device(const Random &random) {
        if (tpmsim_manufacture(&holder, random.data())) throw std::bad_alloc();
    }
    Device(Device &&other) noexcept : holder(std::exchange(other.holder, {})) {}
    Device(const Device &) = delete;
    ~Device() { tpmsim_free(&holder); }
    std::vector<uint8_t> execute(const std::vector<uint8_t> &buffer, const Random &random) {
        std::vector<uint8_t> response(4096);
        tpmsim_answered answered;
        if (tpmsim_execute(&holder, buffer.data(), buffer.size(), 0, 0, random.data(),
                           response.data(), &answered))
            throw std::logic_error("the device was moved away");
        response.resize(answered.size);
        return response;
    }
};

int main() {
    Device::Random random;
    for (size_t i = 0; i < random.size(); i++) random[i] = static_cast<uint8_t>(i);
    Device first(random), second(std::move(first));
    second.execute({0x80, 1, 0, 0, 0, 12, 0, 0, 1, 0x44, 0, 0}, random);
    for (uint8_t byte : second.execute({0x80, 1, 0, 0, 0, 12, 0, 0, 1, 0x7b, 0, 4}, random))
        std::printf("%02x", byte);
    std::puts("");
    try {
        first.execute({}, random);
    } catch (const std::logic_error &fault) {
        std::puts(fault.what());
    }
}
