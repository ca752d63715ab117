/* Random edits of a text in a rope (libstdc++'s), as bench/texts/peers has them of the desktop: go to a share of the text and back to
   its line's start, some lines down and some characters right, and put in five. `rope EDITS LINES`, a line having 50
   characters. Nothing is answered, shown or kept. */
#include <cstdlib>
#include <ext/rope>
#include <iostream>
#include <string>

int main(int count, char **words) {
    if (count != 3) return 2;
    long edits = std::atol(words[1]), lines = std::atol(words[2]);
    std::string line = "abcdefghijklm nopqrstuvwxyz 0123456789 ABCDEFGHIJ\n";
    __gnu_cxx::crope text;
    for (long n = 0; n < lines; n++) text.append(line.data(), line.size());
    std::srand(1);
    size_t sum = 0;
    for (long n = 0; n < edits; n++) {
        size_t at = text.size() * (std::rand() % 31) / 31;
        while (at > 0 && text[at - 1] != '\n') at--;
        auto here = text.begin() + at;
        for (int down = std::rand() % 31; down > 0 && at < text.size(); at++, ++here) down -= *here == '\n';
        for (int right = std::rand() % 50; right > 0 && at < text.size() && *here != '\n'; at++, ++here) right--;
        text.insert(at, "01234", 5);
        sum += at;
    }
    std::cout << sum << '\n';
}
