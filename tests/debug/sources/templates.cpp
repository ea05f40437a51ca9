// A unit of C++: namespaces, classes with virtual functions, templates, closures and exceptions.
namespace shapes {

struct base {
    virtual int area(int) const { return 0; }
    virtual int corners() const = 0;
    int id = 3;
};

struct square : base {
    int area(int side) const override { return side * side + id; }
    int corners() const override { return 4; }
};

}  // namespace shapes

extern "C" void outside(int *);

int doubled(int value) {
    return value * 2;
}

#ifdef ARGUMENTS
// functions as arguments of templates: their addresses are in the debug information as values
template <int (*F)(int)>
int called(int given) {
    return F(given) + 1;
}

template <int (&F)(int)>
int by_reference(int given) {
    return F(given) - 1;
}

extern "C" int start_of_arguments(int value) {
    return called<doubled>(value) + by_reference<doubled>(value);
}
#endif

template <int N, typename T>
struct applied {
    T value;
    T run(T given) { return static_cast<T>(doubled(static_cast<int>(given))) + value * N; }
};

template <typename T>
T largest(T one, T other) {
    return one < other ? other : one;
}

struct closes {
    int *of;
    ~closes() { outside(of); }
};

// nothing calls it: the linker drops it
int unused_of_templates(int value) {
    applied<3, int> it{value};
    return it.run(largest(value, 7));
}

#ifdef __EXCEPTIONS
extern "C" int caught(int value) {
    closes first{&value};
    try {
        closes second{&value};
        outside(&value);
    } catch (int thrown) {
        int more = thrown + 1;
        value += more;
    } catch (...) {
        value = 1;
        throw;
    }
    try {
        outside(&value);
    } catch (double thrown) {
        value += static_cast<int>(thrown);
    }
    return value;
}
#endif

extern "C" int start_of_templates(int value) {
    shapes::square it;
    shapes::base *base = &it;
    outside(&it.id);
    applied<2, long long> d{5};
    auto add = [&](int given) { return given + value; };
    int each[] = {1, 2, 3};
    for (auto i : each) {
        outside(&i);
        value += i;
    }
    return base->area(value) + base->corners() + static_cast<int>(d.run(value)) + add(4) + largest(value, 3) +
           static_cast<int>(largest(2.5, static_cast<double>(value)));
}
