module geometry;

double area(const Triangle& triangle) {
    const Point& a = triangle.a;
    const double twice = (triangle.b.x - a.x) * (triangle.c.y - a.y) - (triangle.c.x - a.x) * (triangle.b.y - a.y);
    return (twice < 0 ? -twice : twice) / 2;
}
