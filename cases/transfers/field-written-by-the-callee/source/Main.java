// A caller's path through a field that the callee may write is gone: the callee's holder is the same one.

class F {
    void open() {}
    void read() {}
}

class Holder {
    F f;
}

final class Main {
    static F make() {
        return new F();
    }

    static void put(Holder[] holders, F f) {
        holders[0].f = f;
    }

    public static void main(String[] words) {
        Holder h = new Holder();
        Holder[] holders = {h};
        F b = make();
        F a = make();
        h.f = a;
        put(holders, b);
        h.f.open();
        a.read();
    }
}
