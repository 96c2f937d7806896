// That a caller's path does not lead to the object stays so over a call that does not write its fields.

class F {
    void read() {}
    void close() {}
    void free() {}
}

class Holder {
    F f;
}

final class Main {
    static F make() {
        return new F();
    }

    static void nothing() {}

    public static void main(String[] words) {
        Holder h = new Holder();
        F a = make();
        F[] box = {a};
        F b = make();
        b.free();
        h.f = b;
        nothing();
        h.f.close();
        a.read();
    }
}
