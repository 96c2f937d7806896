// That a caller's path does not lead to the object is forgotten where the callee may write its field: it stores the
// object there.

class F {
    void read() {}
    void close() {}
    void free() {}
}

class Holder {
    F f;
}

final class Main {
    static F make() {
        return new F();
    }

    static void put(Holder[] holders, F f) {
        holders[0].f = f;
    }

    public static void main(String[] words) {
        Holder h = new Holder();
        F a = make();
        Holder[] holders = {h};
        F b = make();
        b.free();
        h.f = b;
        put(holders, a);
        h.f.close();
        a.read();
    }
}
