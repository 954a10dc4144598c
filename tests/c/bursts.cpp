// Bursts into an instance's ring by the C++ types: none, more than fit, and what is polled of them.
#include <fintaqush.hpp>

using namespace fintaqush;

int main() {
    auto shared = Shared::make(2, 2);
    if (!shared) return 1;
    const fq_packet burst[3] = {{1, 60}, {2, 61}, {3, 62}};
    Input &input = shared->input;
    if (input.put_all(nullptr, 0) != 0 || input.put_all(burst, 3) != 2 || input.put_all(burst, 1) != 0) return 2;
    auto on = std::move(shared->control).enable(false);
    auto said = std::move(shared->callers[0]).schedule();
    auto *granted = std::get_if<Granted>(&said.next);
    if (!granted) return 3;
    auto took = std::move(*granted).hand(FQ_LIST).take(FQ_LIST);
    auto *polling = std::get_if<Polling>(&took);
    Packets out;
    if (!polling || polling->poll(out) != 2) return 4;
    static_cast<void>(on);
    return out[0].number == 1 && out[0].bytes == 60 && out[1].number == 2 && out[1].bytes == 61 ? 0 : 5;
}
