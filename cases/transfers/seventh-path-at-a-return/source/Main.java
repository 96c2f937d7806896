// The paths are counted once where a call is left, before the result is copied: five locals, a static field that the
// callee stored into, and the value returned are seven, and the value returned is dropped.

class F {
    void open() {}
    void read() {}
}

final class Main {
    static F stored;

    static F make() {
        return new F();
    }

    static F store(F f) {
        stored = f;
        return f;
    }

    public static void main(String[] words) {
        make();
        F a = make();
        F b = a;
        F c = a;
        F d = a;
        F e = a;
        store(a).open();
        a.read();
    }
}
