// One thread after the other: what changes the links of containers, and what follows them.
#include <list>
#include <map>
#include <set>
#include <thread>

std::map<int, int> ids;
std::set<int> names;
std::list<int> jobs;

void put() {
    for (int i = 0; i < 20; i++) // the root changes
        ids.emplace(i, i);
    names.insert(1);
    jobs.push_back(1);
    jobs.push_back(2);
}
bool look() {
    return ids.count(19) && names.count(1) && jobs.front();
}
void move() {
    jobs.splice(jobs.begin(), jobs, --jobs.end());
}
void drop() {
    ids.erase(7);
    names.erase(names.begin());
    jobs.pop_front();
}

int main() {
    put();
    for (auto f : {+[] { look(); }, +[] { move(); }, +[] { drop(); }, +[] { look(); }})
        std::thread(f).join();
}
