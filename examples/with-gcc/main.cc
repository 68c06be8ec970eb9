import hello;

int main() { return answer() == 42 ? 0 : 1; }
