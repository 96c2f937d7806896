// That a local gets an object of another place adds no path: so it is not known that it is not the object of this
// place.

class F {
    void read() {}
    void close() {}
}

final class Main {
    static F make() {
        return new F();
    }

    public static void main(String[] words) {
        F a = make();
        F[] box = {a};
        F b = words.length > 0 ? make() : new F();
        b.close();
        a.read();
    }
}
