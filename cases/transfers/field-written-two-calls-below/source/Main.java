// A caller's path through a field is gone also where a method writes it that the callee calls.

class F {
    void open() {}
    void read() {}
}

class Holder {
    F f;
}

final class Main {
    static F make() {
        return new F();
    }

    static void pass(Holder[] holders, F f) {
        put(holders, f);
    }

    static void put(Holder[] holders, F f) {
        holders[0].f = f;
    }

    public static void main(String[] words) {
        Holder h = new Holder();
        Holder[] holders = {h};
        F b = make();
        F a = make();
        h.f = a;
        pass(holders, b);
        h.f.open();
        a.read();
    }
}
