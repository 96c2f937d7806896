// A store takes away also the paths that do not lead to the object: by the name that the array gives, the field gets
// the object that is then closed.

class F {
    void read() {}
    void close() {}
    void free() {}
}

class Holder {
    F f;
}

final class Main {
    static F make() {
        return new F();
    }

    public static void main(String[] words) {
        Holder h = new Holder();
        Holder[] holders = {h};
        F a = make();
        F[] box = {a};
        F b = make();
        b.free();
        h.f = b;
        holders[0].f = a;
        h.f.close();
        a.read();
    }
}
