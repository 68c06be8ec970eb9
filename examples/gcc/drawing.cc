export module drawing;
import geometry;
import "scale.h";

export double area_on_paper(const Triangle& triangle) { return area(triangle) / SCALE / SCALE; }
