export module hello;

export int answer() { return 42; }
