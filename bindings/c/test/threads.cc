/* Tests that threads can share a langtag::site: each gets the tags that it would get alone. */
#include <langtag.hpp>

#include <cstdio>
#include <string>
#include <thread>
#include <vector>

/* What a site chooses for some headers: the index, the distance and the range of the best tag, the tag, and that for ranges. */
static std::string choices_of(const langtag::site &site) {
    std::string found;
    for (const char *header : {"zh-TW,zh;q=0.9,en;q=0.8", "gsw", "nn-NO, da;q=0.5", "sr_RS@latin", "fi", "", "de;q=0, de-AT", "*;q=0.1, pt-AO"}) {
        if (const auto match = site.match_for_header(header))
            found.append(std::to_string(match->index) + " " + std::to_string(match->distance) + " ").append(match->range).append(" ");
        if (const auto best = site.best_for_header(header)) found.append(best->text()).append(" ");
        found.append(site.best_for_ranges({"fi", "nn"})->text()).append("\n");
    }
    return found;
}

int main() {
    const langtag::site site({"en", "de-CH", "not a tag", "zh-Hans", "zh-Hant", "nb", "sr-Latn", "pt-PT", "x-a"});
    const std::string alone = choices_of(site);
    std::vector<int> differ(8); /* of each thread */
    std::vector<std::thread> threads;
    for (int &count : differ)
        threads.emplace_back([&] { for (int k = 0; k < 200; k++) count += choices_of(site) != alone; });
    for (std::thread &it : threads) it.join();
    int failures = (alone.rfind("4 0 zh-TW zh-Hant nb\n", 0) != 0) + (site.refused() != 1);
    for (int count : differ) failures += count;
    if (failures > 0) std::printf("%s:%d: %d choices differ (alone: %s)\n", __FILE__, __LINE__, failures, alone.c_str());
    return failures > 0;
}
