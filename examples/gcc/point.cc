export module geometry:point;

export struct Point {
    double x;
    double y;
};
