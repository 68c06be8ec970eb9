#include <cstdio>
import drawing;
import geometry;
import "scale.h";

int main() {
    const Triangle field{{0, 0}, {400, 0}, {0, 300}};
    std::printf("%g square metres are %g on paper, at 1 to %g\n", area(field), area_on_paper(field), SCALE);
}
