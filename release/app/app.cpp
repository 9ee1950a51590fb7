#include <iostream>
#include <typed_path.hpp>

int main(int count, char **words) {
    for (int at = 1; at < count; at++) {
        auto target = typed_path::unix_path("/srv").join_checked(words[at]);
        std::cout << (target ? *target : "refused") << '\n';
    }
}
