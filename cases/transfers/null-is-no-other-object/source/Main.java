// Null adds no path: of a local that may have an object of the place, null on one way, it is not known that it does not
// have this one.

class F {
    void read() {}
    void close() {}
}

final class Main {
    static F make() {
        return new F();
    }

    public static void main(String[] words) {
        F a = make();
        F[] box = {a};
        F b = words.length > 0 ? make() : null;
        b.close();
        a.read();
    }
}
