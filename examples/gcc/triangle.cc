export module geometry:triangle;
import :point;

export struct Triangle {
    Point a;
    Point b;
    Point c;
};
