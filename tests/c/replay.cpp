// replay.cpp BUDGET WEIGHT WINDOW < TRACE: what napi_serial does with it, by fintaqush::replay: the report on standard output,
// or the message of the error on standard error, and its status. With RESTARTS as a fourth number, the raised trace, by
// fintaqush::raise_runs.
#include <fintaqush.hpp>

#include <cstdlib>
#include <iostream>
#include <iterator>

int main(int count, char **words) {
    if (count != 4 && count != 5) return 9;
    const auto number = [&](int at) { return static_cast<std::uint32_t>(std::strtoul(words[at], nullptr, 10)); };
    const std::string trace(std::istreambuf_iterator<char>(std::cin), {});
    const fq_settings settings{sizeof(fq_settings), number(1), number(2), number(3)};
    const auto answer = count == 5 ? fintaqush::raise_runs(trace, settings, number(4)) : fintaqush::replay(trace, settings);
    if (const auto *report = std::get_if<std::string>(&answer)) {
        std::cout << *report << std::flush;
        return std::cout ? 0 : 9;
    }
    const auto &why = std::get<fintaqush::NoReport>(answer);
    if (why.status != FQ_BAD_TRACE) {
        std::cerr << fq_status_name(why.status) << '\n';
        return 1;
    }
    std::cerr << "trace fault " << why.fault << ' ' << fq_fault_name(why.fault) << " row " << why.row << '\n';
    return 2;
}
