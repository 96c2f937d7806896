// A copy copies the paths that do not lead to the object too: the copy of the newer object is closed, and the older
// one, which an array holds, stays open.

class F {
    void read() {}
    void close() {}
}

final class Main {
    static F make() {
        return new F();
    }

    public static void main(String[] words) {
        F a = make();
        F[] box = {a};
        F b = make();
        F c = b;
        c.close();
        a.read();
    }
}
