// A load gives its target also that a path does not lead to the object: the newer object is loaded and closed, and the
// older one, which an array holds, stays open.

class F {
    void read() {}
    void close() {}
    void free() {}
}

class Holder {
    F f;
}

final class Main {
    static F make() {
        return new F();
    }

    public static void main(String[] words) {
        Holder h = new Holder();
        F a = make();
        F[] box = {a};
        F b = make();
        b.free();
        h.f = b;
        h.f.close();
        a.read();
    }
}
