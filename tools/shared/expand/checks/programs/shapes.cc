#include <stdio.h>
#include <stdlib.h>

void *operator new(size_t bytes) { return malloc(bytes); }
void operator delete(void *at) noexcept { free(at); }
void operator delete(void *at, size_t) noexcept { free(at); }

struct Shape {
    virtual ~Shape() { puts("gone"); }
    virtual int area() const = 0;
};

struct Square : Shape {
    int side;
    explicit Square(int side) : side(side) {}
    int area() const override { return side * side; }
};

struct Box : Square {
    int height;
    Box(int side, int height) : Square(side), height(height) {}
    int area() const override { return 2 * Square::area() + 4 * side * height; }
};

static Box global(3, 5);

template <typename T> static T most(T a, T b) { return a < b ? b : a; }

extern "C" void __cxa_pure_virtual() { abort(); }

int main()
{
    Shape *made[] = {new Square(4), new Box(2, 7)};
    int (Shape::*area)() const = &Shape::area;
    for (Shape *each : made) {
        printf("%d %d\n", (each->*area)(), most(each->area(), global.area()));
        delete each;
    }
    return global.area() & 63;
}
