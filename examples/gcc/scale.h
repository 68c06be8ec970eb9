// So many metres of the world are one metre on paper.
#define SCALE 100.0
