// A caller's path through a field that the callee does not write is as it was.

class F {
    void open() {}
    void read() {}
}

class Holder {
    F f;
}

final class Main {
    static F make() {
        return new F();
    }

    static void nothing() {}

    public static void main(String[] words) {
        Holder h = new Holder();
        make();
        F a = make();
        h.f = a;
        nothing();
        h.f.open();
        a.read();
    }
}
