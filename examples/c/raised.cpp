// A trace is replayed with a budget of one packet: first with its own two runs, between which the ring overflows, then with the runs
// that the kernel would make after them, because they leave packets.
#include <fintaqush.hpp>
#include <iostream>

static const std::string trace = "moment,device,event,value\n0,1,open,4\n"
                                 "1,1,rx,60\n1,1,rx,60\n1,1,rx,60\n1,1,rx,60\n2,0,softirq,0\n"
                                 "3,1,rx,60\n3,1,rx,60\n3,1,rx,60\n3,1,rx,60\n4,0,softirq,0\n";
static const fq_settings settings{sizeof(fq_settings), 1, 1, 1024};

// Prints the device's line of the report of a trace.
static void replay(const std::string &runs, const std::string &rows) {
    const auto report = std::get<std::string>(fintaqush::replay(rows, settings));
    const auto begin = report.find("device ");
    std::cout << runs << ": " << report.substr(begin, report.find('\n', begin) - begin) << '\n';
}

int main() {
    replay("recorded", trace);
    replay("raised", std::get<std::string>(fintaqush::raise_runs(trace, settings)));
}
