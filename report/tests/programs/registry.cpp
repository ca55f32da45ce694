// WRONG: find() under the shared lock, insert() under the other one, without looking again.
#include <cstdio>
#include <map>
#include <shared_mutex>
#include <string>
#include <mutex>
#include <thread>
#include <vector>
struct Registry {
    std::shared_mutex m;
    std::map<std::string, int> ids;
    int next = 0;
    int id_of(const std::string &name) {
        {
            std::shared_lock<std::shared_mutex> g(m);
            auto at = ids.find(name);
            if (at != ids.end())
                return at->second;
        }
        std::unique_lock<std::shared_mutex> g(m);
        int id = next++;
        ids[name] = id;
        return id;
    }
};
int main() {
    Registry r;
    std::vector<std::thread> ts;
    for (int t = 0; t < 3; ++t)
        ts.emplace_back([&] {
            for (int i = 0; i < 60; ++i)
                r.id_of("name" + std::to_string(i));
        });
    for (auto &t : ts)
        t.join();
    std::printf("%d ids of 60 names\n", r.next);
}
