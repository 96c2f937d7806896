// Where a stub gives one more new object, its result does not have the older ones: it is closed, and an older one stays
// open.

class F {
    void read() {}
    void close() {}
}

final class Main {
    static F make() {
        return Lib.make();
    }

    public static void main(String[] words) {
        F a = make();
        F[] box = {a};
        F b = make();
        b.close();
        a.read();
    }
}
