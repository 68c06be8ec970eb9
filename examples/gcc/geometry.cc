export module geometry;
export import :point;
export import :triangle;

export double area(const Triangle& triangle);
