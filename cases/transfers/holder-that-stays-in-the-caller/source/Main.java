// A path through the field of a caller's local is lost where a method is entered without it: the callee closes the
// object by the holder that the array has.

class F {
    void read() {}
    void close() {}
}

class Holder {
    F f;
}

final class Main {
    static void use(Holder[] holders, F f) {
        holders[0].f.close();
        f.read();
    }

    public static void main(String[] words) {
        Holder h = new Holder();
        Holder[] holders = {h};
        F a = new F();
        h.f = a;
        use(holders, a);
    }
}
