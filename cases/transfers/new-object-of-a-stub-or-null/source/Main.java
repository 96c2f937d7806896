// Only a new object of the place is known not to be an older one: of a local that may get null it is not known that it
// does not have this one.

class F {
    void read() {}
    void close() {}
}

final class Main {
    static F make() {
        return Lib.make();
    }

    public static void main(String[] words) {
        F a = make();
        F[] box = {a};
        F b = make();
        b.close();
        a.read();
    }
}
