// A parameter does not have the object where its argument does not: the callee closes the newer one, and the older one,
// which an array holds, stays open.

class F {
    void read() {}
    void close() {}
}

final class Main {
    static F make() {
        return new F();
    }

    static void close(F f) {
        f.close();
    }

    public static void main(String[] words) {
        F a = make();
        F[] box = {a};
        close(make());
        a.read();
    }
}
